#!/bin/sh
# Times json_ordered::read, manifest_read::from_doc and both of a composer.json with many requirements, the last with
# freeing, beside PHP's json_decode, the same with composer/semver's parser for each constraint, and python3's json.
# Usage: bench/manifest.sh [FOLDER [COMMAND..]], from anywhere, with the kit's `rt`, php and python3 on the PATH. FOLDER
# keeps the built program, which is built where it is not there. Each measurement is run by COMMAND, as `taskset -c 3`,
# where there is one.
set -eu
top=$(cd "$(dirname "$0")/.." && pwd)
if [ -n "${1:-}" ]; then
    mkdir -p "$1"
    work=$(cd "$1" && pwd)
    shift
else
    work=$(mktemp -d)
    trap 'rm -rf "$work"' EXIT
fi
program="$work/repo/crates/manifest_bench/out/manifest_bench"
if [ ! -x "$program" ]; then
mkdir -p "$work/repo/crates/manifest_bench/src"
for crate in path_name version_norm constraint_set json_ordered manifest_read; do
    mkdir -p "$work/repo/crates/$crate"
    cp -r "$top/crates/$crate/src" "$top/crates/$crate/specs" "$top/crates/$crate/proofs" "$work/repo/crates/$crate/"
    if [ -d "$top/crates/$crate/out" ]; then cp -r "$top/crates/$crate/out" "$work/repo/crates/$crate/"; fi
done
{ grep -E '^(path_name|version_norm|constraint_set|json_ordered|manifest_read):' "$top/crates.txt"
  echo 'manifest_bench: manifest_read json_ordered'; } > "$work/repo/crates.txt"
cat > "$work/repo/crates/manifest_bench/src/main.rt" <<'RT'
// Reads a composer.json from standard input seven times, and prints the microseconds of the JSON, of the manifest of
// its document, and of both with what they made freed.
#![tactic(auto)]

use manifest_read::{Role, from_doc};
use std::io;
use std::io::Read;
use std::time::Instant;

fn main(rt: HostRuntime) -> io::Result<()> {
    let mut bytes = Vec::new(rt.alloc());
    let mut input = rt.reader();
    input.read_to_end(&mut bytes)?;
    for _round in 0..7u8 {
        let start = Instant::now(&rt)?;
        let Ok(doc) = json_ordered::read(rt.alloc(), &bytes) else {
            println!(rt; "no JSON")?;
            return Ok(());
        };
        let json = start.elapsed(&rt)?.as_micros();
        let between = Instant::now(&rt)?;
        let manifest = from_doc(rt.alloc(), &doc, Role::Root);
        let fields = between.elapsed(&rt)?.as_micros();
        let fine = manifest.is_ok();
        drop(manifest);
        drop(doc);
        let both = start.elapsed(&rt)?.as_micros();
        println!(rt; "{json} {fields} {both} {fine}")?;
    }
    Ok(())
}
RT
(cd "$work/repo" && git init -q . && cd crates/manifest_bench && rt run < /dev/null > "$work/build.log" 2>&1) || { tail "$work/build.log"; exit 1; }
fi
cd "$work"
python3 - <<'PY'
import json
forms = ['^%d.%d', '~%d.%d', '>=%d.%d <9.0', '%d.%d.*', '^%d.%d || ^8.0']
def root(count, name):
    require = {name(i): forms[i % 5] % (i % 7, i % 10) for i in range(count)}
    return {'name': 'acme/app', 'require': require, 'autoload': {'psr-4': {'App\\': 'src/'}}}
for count in (10000, 100000):
    json.dump(root(count, lambda i: 'vendor%d/package-%d' % (i % 97, i)), open('names_%d' % count, 'w'), indent=4)
# names that come again in capitals, so that only a half of them counts
again = {}
for i in range(5000):
    again['vendor/package-%d' % i] = '^1.0'
    again['Vendor/Package-%d' % i] = '^2.0'
json.dump({'name': 'acme/app', 'require': again}, open('repeated_10000', 'w'), indent=4)
# names that all begin with the same 200 bytes, small letters and capitals
json.dump(root(10000, lambda i: 'v' * 200 + '/p%d' % i), open('long_fronts_10000', 'w'), indent=4)
json.dump(root(10000, lambda i: 'V' * 200 + '/p%d' % i), open('long_capitals_10000', 'w'), indent=4)
PY
cat > read.php <<'PHP'
<?php
// The microseconds of json_decode, and of this with each name in small letters and each constraint read by
// composer/semver, where it is there.
$text = file_get_contents($argv[1]);
$semver = '/usr/share/php/Composer/Semver/autoload.php';
if (is_file($semver)) { require $semver; }
$best = [INF, INF];
for ($round = 0; $round < 3; $round++) {
    $start = hrtime(true);
    $document = json_decode($text, true);
    $best[0] = min($best[0], hrtime(true) - $start);
    if (!is_file($semver)) { continue; }
    $parser = new Composer\Semver\VersionParser();
    $links = [];
    foreach ($document['require'] as $name => $wants) { $links[strtolower($name)] = $wants; }
    foreach ($links as $name => $wants) { $links[$name] = $parser->parseConstraints($wants); }
    $best[1] = min($best[1], hrtime(true) - $start);
    unset($document, $links);
}
echo round($best[0] / 1000), ' ', $best[1] === INF ? '-' : round($best[1] / 1000);
PHP
cat > read.py <<'PY'
import json, sys, time
text = open(sys.argv[1], 'rb').read()
best = 99
for _ in range(7):
    start = time.time(); json.loads(text); best = min(best, time.time() - start)
print(round(best * 1e6))
PY
echo "input bytes json_us fields_us both_us php_json_us php_and_semver_us python_json_us"
for input in names_10000 names_100000 repeated_10000 long_fronts_10000 long_capitals_10000; do
    ours=$("$@" "$program" < "$input" | awk '
        $4 != "true" { print "not read"; exit 1 }
        NR == 1 || $1 < a { a = $1 } NR == 1 || $2 < b { b = $2 } NR == 1 || $3 < c { c = $3 } END { print a, b, c }')
    echo "$input $(wc -c < "$input") $ours $("$@" php -d memory_limit=-1 read.php "$input") $("$@" python3 read.py "$input")"
done
