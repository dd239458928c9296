#!/bin/sh
# Times plan_rules on pools of 4,096 packages: `check` of the plan of all of them, what a solver makes first (the index
# and `Rivals`), and of each candidate whether it fits beside the others and the alternatives of its requirements; beside
# them composer/semver, which matches the constraint of each link on the package of its name, both parsed before.
# Usage: bench/rules.sh [build], with the kit's `rt`, python3 and, if there is one, php on the PATH.
# Where MEASURE is set, it is a command that runs each measurement, as `nice -n -5` does.
. "$(dirname "$0")/head.sh"
crates='path_name tree_dev version_norm constraint_set json_ordered content_hash manifest_read pkg_pool plan_rules'
# shellcheck disable=SC2086
rules=$(program rule_times 'plan_rules pkg_pool manifest_read json_ordered path_name' $crates <<'RT'
// Reads a list from standard input, of a root's composer.json and those of packages. Three times checks the plan of all
// packages, makes an index and rivals of them, and asks of each whether it fits beside the others and for the
// alternatives of what it requires. Writes the microseconds of each, and what came out.
#![tactic(auto)]

use json_ordered::Doc;
use manifest_read::{Manifest, Role, from_doc};
use path_name::{FolderRef, Items, Path, Text};
use pkg_pool::{Candidate, Pool};
use plan_rules::{Index, Rivals, Selection, Verdict, alternatives, check};
use std::alloc::Global;
use std::io;
use std::io::Read;
use std::time::Instant;

fn candidate(alloc: Global, doc: &Doc) -> Option<Candidate> {
    let url = FolderRef::read(alloc, b"p").ok()?;
    let manifest = from_doc(alloc, doc, Role::Member).ok()?;
    Some(Candidate {
        package: manifest.package,
        repository: 0,
        url,
        folder: Path::root(alloc),
        reference: Text::empty(alloc),
    })
}

fn candidates(alloc: Global, docs: &[Doc]) -> Option<Vec<Candidate>> {
    let mut candidates = Vec::new(alloc);
    for doc in docs {
        candidates.push(candidate(alloc, doc)?).ok()?;
    }
    Some(candidates)
}

fn pool_of(alloc: Global, docs: &[Doc]) -> Option<Pool> {
    let (root, others) = docs.split_first()?;
    let root: Manifest = from_doc(alloc, root, Role::Root).ok()?;
    let candidates = Items::of(candidates(alloc, others)?);
    Some(Pool { root, candidates })
}

fn pool(alloc: Global, bytes: &[u8]) -> Option<Pool> {
    match json_ordered::read(alloc, bytes) {
        Ok(Doc::List(docs)) => pool_of(alloc, docs.as_slice()),
        _ => None,
    }
}

fn all_of(alloc: Global, pool: &Pool) -> Option<Selection> {
    let mut members = Vec::new(alloc);
    let mut number: u32 = 0;
    for _candidate in pool.candidates.as_slice() {
        members.push(number).ok()?;
        number = number.saturating_add(1);
    }
    Some(Selection {
        members: Items::of(members),
    })
}

/// How many candidates fit beside all others.
fn fitting(alloc: Global, pool: &Pool, rivals: &Rivals<'_>) -> Option<u64> {
    let mut marks = Vec::new(alloc);
    for _candidate in pool.candidates.as_slice() {
        marks.push(true).ok()?;
    }
    let mut fitting: u64 = 0;
    let mut number: u32 = 0;
    for _candidate in pool.candidates.as_slice() {
        if let Some(mark) = marks.get_mut(number as usize) {
            *mark = false;
        }
        if rivals.fits(marks.as_slice(), number) {
            fitting = fitting.saturating_add(1);
        }
        if let Some(mark) = marks.get_mut(number as usize) {
            *mark = true;
        }
        number = number.saturating_add(1);
    }
    Some(fitting)
}

/// How many alternatives the requirements of all candidates have.
fn offered(alloc: Global, pool: &Pool, index: &Index<'_>) -> Option<u64> {
    let mut offered: u64 = 0;
    for candidate in pool.candidates.as_slice() {
        for link in candidate.package.require.as_slice() {
            let numbers = alternatives(alloc, pool, index, link).ok()?;
            offered = offered.saturating_add(numbers.len() as u64);
        }
    }
    Some(offered)
}

fn asked(rt: &HostRuntime, pool: &Pool) -> io::Result<()> {
    let start = Instant::now(rt)?;
    let index = Index::of_pool(rt.alloc(), pool);
    let rivals = Rivals::of(rt.alloc(), pool);
    let took = start.elapsed(rt)?.as_micros();
    println!(rt; "made {took} {}", index.is_ok())?;
    if let (Ok(index), Ok(rivals)) = (index, rivals) {
        let start = Instant::now(rt)?;
        let fitting = fitting(rt.alloc(), pool, &rivals).unwrap_or(0);
        let took = start.elapsed(rt)?.as_micros();
        println!(rt; "fits {took} {fitting}")?;
        let start = Instant::now(rt)?;
        let offered = offered(rt.alloc(), pool, &index).unwrap_or(0);
        let took = start.elapsed(rt)?.as_micros();
        println!(rt; "alternatives {took} {offered}")?;
    }
    Ok(())
}

fn times(rt: &HostRuntime, pool: &Pool, selection: &Selection) -> io::Result<()> {
    let start = Instant::now(rt)?;
    let verdict = check(rt.alloc(), pool, selection);
    let took = start.elapsed(rt)?.as_micros();
    let meets = matches!(&verdict, Ok(Verdict::Meets));
    println!(rt; "check {took} {meets}")?;
    asked(rt, pool)
}

fn main(rt: HostRuntime) -> io::Result<()> {
    let mut bytes = Vec::new(rt.alloc());
    let mut input = rt.reader();
    input.read_to_end(&mut bytes)?;
    let Some(pool) = pool(rt.alloc(), bytes.as_slice()) else {
        println!(rt; "no pool")?;
        return Ok(());
    };
    let Some(selection) = all_of(rt.alloc(), &pool) else {
        return Ok(());
    };
    for _round in 0..3u8 {
        times(&rt, &pool, &selection)?;
    }
    Ok(())
}
RT
)
cd "$work"
python3 - <<'PY'
import json, random
random.seed(23)
count = 4096
names = ['v%d/p%d' % (i % 97, i) for i in range(count)]
def write(name, packages, root={}):
    json.dump([root] + packages, open(name + '.pool', 'w'))
def package(name, **keys):
    return dict({'name': name, 'version': '1.%d.0' % random.randrange(9)}, **keys)
def needs(number):
    return {name: random.choice(['^1.0', '*', '>=1.0 <2.0', '~1.0 || ^3.0']) for name in random.sample(names, number)}
# each requires twelve others
write('requires', [package(n, require=needs(12)) for n in names])
# the same, and conflicts with three others in a version that they don't have, and replaces and provides a name
write('links', [package(n, require=needs(8), conflict={c: '^2.0' for c in random.sample(names, 3)}, replace={'old/p%d' % i: '1.0'}, provide={'v/log': '1.%d' % (i % 9)}) for i, n in enumerate(names)])
# one requires 50,000 names that the others replace
write('one_with_50000', [package('a/a', require={'x/p%d' % i: '*' for i in range(50000)})]
      + [package(n, replace={'x/p%d' % j: '1.0' for j in range(i * 13, min(50000, i * 13 + 13))}) for i, n in enumerate(names[1:])])
# all provide one name, and each requires it in a version that the first of them has
write('one_name', [package(n, require={'v/log': '^1.0'}, provide={'v/log': '1.%d' % (i % 9)}) for i, n in enumerate(names[:512])])
PY
if [ "${1:-}" = build ]; then exit 0; fi
cat > matched.php <<'PHP'
<?php
// The microseconds in which composer/semver matches each link of a pool on the package that owns its name, the best of
// three, or - where it isn't there.
$semver = '/usr/share/php/Composer/Semver/autoload.php';
if (!is_file($semver)) { echo '-'; exit; }
require $semver;
use Composer\Semver\Constraint\Constraint;
use Composer\Semver\VersionParser;
$parser = new VersionParser();
$versions = [];
$links = [];
foreach (array_slice(json_decode(file_get_contents($argv[1]), true), 1) as $package) {
    $versions[$package['name']] = new Constraint('==', $parser->normalize($package['version']));
    foreach (['require', 'conflict'] as $key) {
        foreach ($package[$key] ?? [] as $name => $wants) { $links[] = [$name, $parser->parseConstraints($wants)]; }
    }
}
$best = INF;
for ($round = 0; $round < 3; $round++) {
    $start = hrtime(true);
    $met = 0;
    foreach ($links as [$name, $wants]) {
        if (isset($versions[$name]) && $wants->matches($versions[$name])) { $met++; }
    }
    $best = min($best, hrtime(true) - $start);
}
echo round($best / 1000);
PHP
echo 'pool packages links check_us made_us fits_us alternatives_us semver_us'
for input in requires links one_with_50000 one_name; do
    : > took
    for turn in 1 2 3; do ${MEASURE:-} "$rules" < "$input.pool" >> took; done
    php=-
    if command -v php > /dev/null; then php=$(${MEASURE:-} php -d memory_limit=-1 matched.php "$input.pool"); fi
    grep -q '^check [0-9]* true' took || { echo "$input isn't valid" >&2; exit 1; }
    python3 - "$input" "$php" <<'PY'
import json, sys
packages = json.load(open(sys.argv[1] + '.pool'))[1:]
links = sum(len(p.get(key, {})) for p in packages for key in ('require', 'conflict', 'replace', 'provide'))
rows = [line.split() for line in open('took')]
least = lambda word: min(int(row[1]) for row in rows if row[0] == word)
print(sys.argv[1], len(packages), links, least('check'), least('made'), least('fits'), least('alternatives'), sys.argv[2])
PY
done
