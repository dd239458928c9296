#!/bin/sh
# Times autoload_build::tables over a project of 200 packages with 100 classes each, every class in a file of its own: in
# each mode, and beside it one walk over the folder of packages, in which each file is read, cut and looked through once,
# and Composer's own `dump-autoload`.
# Usage: bench/autoload.sh [build], with the kit's `rt` and python3 on the PATH and, for the last of them, php and composer.
# PACKAGES and CLASSES are how many packages there are (200), and how many classes each has (100).
. "$(dirname "$0")/head.sh"
tables=$(program autoload_times 'autoload_build class_walk table_scan psr_routes manifest_read json_ordered tree_std tree_dev path_name' path_name tree_dev tree_std version_norm constraint_set json_ordered content_hash manifest_read class_paths psr_routes php_lex php_decl class_walk table_scan class_lookup autoload_build <<'RT'
// Reads the manifests of packages from standard input, which stand in `vendor`, and prints five times the microseconds of
// a walk over that folder with the number of files scanned, and those of the tables of each mode with the number of classes.
#![tactic(auto)]

use autoload_build::tables;
use class_walk::{WalkJob, WalkRule, walk};
use json_ordered::Doc;
use manifest_read::{Manifest, Role};
use path_name::{Items, Path};
use psr_routes::Placed;
use std::alloc::Global;
use std::io;
use std::io::Read;
use std::rt::Clock;
use std::time::Instant;
use table_scan::{Mode, Tables};
use tree_dev::{Entries, Tree};
use tree_std::FolderTree;

fn placed(alloc: Global, doc: &Doc) -> Option<Placed> {
    let package = manifest_read::from_doc(alloc, doc, Role::Member)
        .ok()?
        .package;
    let vendor = Path::read(alloc, b"vendor").ok()?;
    let at = vendor.follow(alloc, package.name.as_slice()).ok()?;
    Some(Placed {
        shown: at.copy(alloc).ok()?,
        at,
        package,
        mirrored: false,
    })
}

fn members(alloc: Global, bytes: &[u8]) -> Option<Vec<Placed>> {
    let mut members = Vec::new(alloc);
    match json_ordered::read(alloc, bytes) {
        Ok(Doc::List(docs)) => {
            for doc in &docs {
                members.push(placed(alloc, doc)?).ok()?;
            }
        }
        _ => return None,
    }
    Some(members)
}

fn root(alloc: Global) -> Option<Manifest> {
    let text = b"{\"autoload\": {\"psr-4\": {\"App\\\\\": \"src/\"}}}";
    let doc = json_ordered::read(alloc, text).ok()?;
    manifest_read::from_doc(alloc, &doc, Role::Root).ok()
}

// How many files one walk over the folder of packages scans.
fn scanned<T: Tree>(alloc: Global, tree: &mut T) -> Option<u64> {
    let at = Path::read(alloc, b"vendor").ok()?;
    let job = WalkJob {
        shown: at.copy(alloc).ok()?,
        at,
        rule: WalkRule::Listed,
        skip: Items::of(Vec::new(alloc)),
    };
    let mut left = Entries { left: 1_000_000 };
    let found = walk(alloc, tree, &[job], &[], &mut left).ok()?;
    Some(found.len() as u64)
}

// How many classes the class map of a mode has.
fn mapped<T: Tree>(
    alloc: Global,
    tree: &mut T,
    root: &Manifest,
    members: &[Placed],
    mode: Mode,
) -> Option<u64> {
    if members.len() > 1_000_000 {
        return None;
    }
    let project = Path::root(alloc);
    let mut left = Entries { left: 1_000_000 };
    let built = tables(
        alloc, tree, &project, root, members, mode, true, 1, &mut left,
    )
    .ok()?;
    Some(classes(&built))
}

fn classes(built: &Tables) -> u64 {
    built.class_map.as_slice().len() as u64
}

fn put_walk<T: Tree>(rt: &(impl Clock + Print), alloc: Global, tree: &mut T) -> io::Result<()> {
    let start = Instant::now(rt)?;
    let count = scanned(alloc, tree);
    let took = start.elapsed(rt)?.as_micros();
    println!(rt; "walk {took} {}", count.unwrap_or(0))
}

fn put_tables<T: Tree>(
    rt: &(impl Clock + Print),
    alloc: Global,
    tree: &mut T,
    root: &Manifest,
    members: &[Placed],
    mode: Mode,
    name: &str,
) -> io::Result<()> {
    let start = Instant::now(rt)?;
    let count = mapped(alloc, tree, root, members, mode);
    let took = start.elapsed(rt)?.as_micros();
    println!(rt; "{name} {took} {}", count.unwrap_or(0))
}

fn round<T: Tree>(
    rt: &(impl Clock + Print),
    alloc: Global,
    tree: &mut T,
    root: &Manifest,
    members: &[Placed],
) -> io::Result<()> {
    put_walk(rt, alloc, tree)?;
    put_tables(rt, alloc, tree, root, members, Mode::Plain, "plain")?;
    put_tables(rt, alloc, tree, root, members, Mode::Optimised, "optimised")?;
    put_tables(
        rt,
        alloc,
        tree,
        root,
        members,
        Mode::Authoritative,
        "authoritative",
    )
}

fn rounds(rt: &HostRuntime, bytes: &[u8]) -> io::Result<()> {
    let alloc = rt.alloc();
    let Some(members) = members(alloc, bytes) else {
        return Ok(());
    };
    let Some(root) = root(alloc) else {
        return Ok(());
    };
    for _round in 0..5u8 {
        round(
            rt,
            alloc,
            &mut FolderTree::new(rt),
            &root,
            members.as_slice(),
        )?;
    }
    Ok(())
}

fn main(rt: HostRuntime) -> io::Result<()> {
    let mut bytes = Vec::new(rt.alloc());
    let mut input = rt.reader();
    input.read_to_end(&mut bytes)?;
    rounds(&rt, bytes.as_slice())
}
RT
)
if [ "${1:-}" = build ]; then exit 0; fi
rm -rf "$work/project"
mkdir "$work/project"
cd "$work/project"
python3 "$top/bench/php_project.py" "${PACKAGES:-200}" "${CLASSES:-100}" 5
"$tables" < packages > ../ours
: > ../composers
if command -v composer > /dev/null; then
    cat > ../dump.py <<'DUMP'
# The milliseconds of `composer dump-autoload` with these words, the least of three.
import subprocess, sys, time
words = ['composer', 'dump-autoload', '--no-plugins', '--no-scripts', '--no-interaction', '--quiet'] + sys.argv[2:]
least = 1e9
for _ in range(3):
    start = time.time()
    subprocess.run(words, check=True)
    least = min(least, time.time() - start)
print(sys.argv[1], round(least * 1e3))
DUMP
    export COMPOSER_ALLOW_SUPERUSER=1 COMPOSER_MEMORY_LIMIT=-1
    python3 ../dump.py plain >> ../composers
    python3 ../dump.py optimised -o >> ../composers
    python3 ../dump.py authoritative -a >> ../composers
fi
python3 - <<'PY'
least, counts, composers = {}, {}, {}
for line in open('../ours'):
    name, took, count = line.split()
    least[name] = min(int(took), least.get(name, 10 ** 12))
    counts[name] = int(count)
for line in open('../composers'):
    name, took = line.split()
    composers[name] = int(took)
print('one walk over the folder of packages: %.1f ms, %d files' % (least['walk'] / 1e3, counts['walk']))
for name in ('plain', 'optimised', 'authoritative'):
    line = '%s tables: %.1f ms, %d classes, tables / walk %.2f' % (name, least[name] / 1e3, counts[name], least[name] / least['walk'])
    print(line + (', composer dump-autoload %d ms' % composers[name] if composers else ''))
PY
