#!/bin/sh
# Times constraint_set on long constraints: `read`, `satisfies` of one version, and `meets` with itself, beside
# composer/semver's parser, matcher and intervals, where PHP has them. Usage: bench/constraints.sh [PARTS [FOLDER]],
# from anywhere, with the kit's `rt` and python3 on the PATH. FOLDER keeps the built program, which is built where it
# is not there.
set -eu
top=$(cd "$(dirname "$0")/.." && pwd)
if [ -n "${2:-}" ]; then
    mkdir -p "$2"
    work=$(cd "$2" && pwd)
else
    work=$(mktemp -d)
    trap 'rm -rf "$work"' EXIT
fi
program="$work/repo/crates/constraint_bench/out/constraint_bench"
if [ ! -x "$program" ]; then
mkdir -p "$work/repo/crates/constraint_bench/src"
for crate in path_name version_norm constraint_set; do
    mkdir -p "$work/repo/crates/$crate"
    cp -r "$top/crates/$crate/src" "$top/crates/$crate/specs" "$top/crates/$crate/proofs" "$work/repo/crates/$crate/"
    if [ -d "$top/crates/$crate/out" ]; then cp -r "$top/crates/$crate/out" "$work/repo/crates/$crate/"; fi
done
{ grep -E '^(path_name|version_norm|constraint_set):' "$top/crates.txt"; echo 'constraint_bench: constraint_set version_norm path_name'; } > "$work/repo/crates.txt"
cat > "$work/repo/crates/constraint_bench/src/main.rt" <<'RT'
// Reads a constraint from standard input five times, asks whether 1.5.0 satisfies it and whether it meets itself, and
// prints the microseconds of each; of the last alone where the first byte is `m`.
#![tactic(auto)]

use constraint_set::read;
use std::io;
use std::io::Read;
use std::time::Instant;
use version_norm::normalise;

fn main(rt: HostRuntime) -> io::Result<()> {
    let mut bytes = Vec::new(rt.alloc());
    let mut input = rt.reader();
    input.read_to_end(&mut bytes)?;
    let Some((kind, text)) = bytes.as_slice().split_first() else {
        return Ok(());
    };
    let Ok(version) = normalise(rt.alloc(), b"1.5.0") else {
        return Ok(());
    };
    let meets = *kind == b'm';
    for _round in 0..5u8 {
        let start = Instant::now(&rt)?;
        let Ok(wants) = read(rt.alloc(), text, &version) else {
            return Ok(());
        };
        let was_read = start.elapsed(&rt)?.as_micros();
        let start = Instant::now(&rt)?;
        let satisfied = wants.satisfies(&version);
        let asked = start.elapsed(&rt)?.as_micros();
        let start = Instant::now(&rt)?;
        let met = meets && wants.meets(&wants);
        let compared = start.elapsed(&rt)?.as_micros();
        println!(rt; "{was_read} {asked} {compared} {satisfied} {met}")?;
    }
    Ok(())
}
RT
(cd "$work/repo" && git init -q . && cd crates/constraint_bench && rt run < /dev/null > "$work/build.log" 2>&1) || { tail "$work/build.log"; exit 1; }
fi
cd "$work"
rm -f ./*.in
cat > reference.php <<'PHP'
<?php
// The microseconds that composer/semver takes to read the constraint, to match 1.5.0 and to meet itself.
require '/usr/share/php/Composer/Semver/autoload.php';
use Composer\Semver\Constraint\Constraint;
use Composer\Semver\Intervals;
use Composer\Semver\VersionParser;
$bytes = file_get_contents($argv[1]);
$text = substr($bytes, 1);
$best = [INF, INF, INF];
for ($round = 0; $round < 3; $round++) {
    Intervals::clear();
    $times = [hrtime(true)];
    try { $wants = (new VersionParser())->parseConstraints($text); } catch (Throwable $fault) { echo '- - -'; exit; }
    $times[] = hrtime(true);
    $wants->matches(new Constraint('==', '1.5.0.0'));
    $times[] = hrtime(true);
    if ($bytes[0] === 'm') { Intervals::haveIntersections($wants, $wants); }
    $times[] = hrtime(true);
    for ($i = 0; $i < 3; $i++) { $best[$i] = min($best[$i], ($times[$i + 1] - $times[$i]) / 1000); }
}
echo implode(' ', array_map('round', $best));
PHP
python3 - "${1:-20000}" <<'PY'
import sys
count = int(sys.argv[1])
def write(name, text, kind='r'):
    open(name + '.in', 'w').write(kind + text)
for times in (1, 2, 4):
    n = count * times
    write('alternatives-%d' % n, ' || '.join('>=3.%d.0 <3.%d.5' % (i, i) for i in range(n // 2)))
    write('parts-%d' % n, ' '.join('!=3.%d.%d' % (i % 1000, i) for i in range(n)))
    write('word-%d' % n, 'dev-' + 'a@' * n + 'dev')
    write('blanks-%d' % n, '1.5' + ' ' * (8 * n) + ', >1')
    write('dashes-%d' % n, ' '.join(['1.0 - 2.0'] * (n // 2)))
for k in (100, 200, 400):
    write('meet-%d' % k, ' || '.join('>=%d.0 <%d.0' % (2 * i + 3, 2 * i + 3) for i in range(k)), 'm')
PY
echo "constraint bytes read_us satisfies_us meets_us MB/s semver_read_us semver_matches_us semver_meets_us"
for file in $(ls -tr *.in); do
    ours=$("$program" < "$file" | sort -n | head -1)
    theirs='- - -'
    if [ -f /usr/share/php/Composer/Semver/autoload.php ] && command -v php > /dev/null; then
        theirs=$(timeout 60 php -d memory_limit=-1 -d pcre.backtrack_limit=100000000 reference.php "$file" || echo '- - -')
    fi
    echo "${file%.in} $(wc -c < "$file") $ours $theirs" | awk '{ printf "%s %s %s %s %s %.0f %s %s %s\n", $1, $2, $3, $4, $5, ($3 > 0 ? $2 / $3 : 0), $8, $9, $10 }'
done
