#!/bin/sh
# Times json_ordered::read on large inputs, freeing included, beside python3's json and PHP's json_decode
# (where there is a php), which free what they made in the same time too; a map with std's fixed seed on names that
# were picked against it (which need a cc); and the memory that the three readers take for a lock-like file.
# Usage: bench/json.sh [build], with the kit's `rt` and python3 on the PATH.
. "$(dirname "$0")/head.sh"
read=$(program json_read 'json_ordered' path_name json_ordered <<'RT'
// Reads JSON from standard input three times, and prints the microseconds of each reading, freeing included.
#![tactic(auto)]

use json_ordered::read;
use std::io;
use std::io::Read;
use std::time::Instant;

fn main(rt: HostRuntime) -> io::Result<()> {
    let mut bytes = Vec::new(rt.alloc());
    let mut input = rt.reader();
    input.read_to_end(&mut bytes)?;
    for _round in 0..3u8 {
        let start = Instant::now(&rt)?;
        let doc = read(rt.alloc(), &bytes);
        let fine = doc.is_ok();
        drop(doc);
        let took = start.elapsed(&rt)?.as_micros();
        println!(rt; "read {took} {fine}")?;
    }
    Ok(())
}
RT
)
map=$(program names_in_map 'json_ordered path_name indexmap' path_name json_ordered <<'RT'
// Reads a JSON object from standard input, and three times puts its names into a map that hashes as std's do, with a
// seed that is fixed; prints the microseconds and how many names the map has.
#![tactic(auto)]

use indexmap::IndexMap;
use json_ordered::{Doc, read};
use path_name::Name;
use std::alloc::{AllocError, Global};
use std::io;
use std::io::Read;
use std::time::Instant;

fn map_len(alloc: Global, members: &[(Name, Doc)]) -> Result<usize, AllocError> {
    let mut places = IndexMap::new(alloc);
    for member in members {
        if places.insert(member.0.as_slice(), 0u8).is_err() {
            return Err(AllocError);
        }
    }
    Ok(places.len())
}

fn main(rt: HostRuntime) -> io::Result<()> {
    let mut bytes = Vec::new(rt.alloc());
    let mut input = rt.reader();
    input.read_to_end(&mut bytes)?;
    let doc = match read(rt.alloc(), &bytes) {
        Ok(doc) => doc,
        Err(_) => Doc::Null,
    };
    let members = doc.as_obj().unwrap_or(&[]);
    for _round in 0..3u8 {
        let start = Instant::now(&rt)?;
        let len = map_len(rt.alloc(), members).unwrap_or(0);
        let took = start.elapsed(&rt)?.as_micros();
        println!(rt; "map {took} {len}")?;
    }
    Ok(())
}
RT
)
python3 "$top/bench/json_inputs.py" "$work"
if [ "${1:-}" = build ]; then exit 0; fi
cd "$work"
inputs="lock names_200000 names_200000_one_twice names_800000 plain_names_50000 small_objects_500000 deep_lists two_byte_texts numbers_1000000 escapes one_text_64MiB"
names=plain_names_50000
if command -v cc > /dev/null && cc -O2 -o picked "$top/bench/picked_names.c"; then
    [ -f picked_names_50000 ] || ./picked > picked_names_50000
    inputs="$inputs picked_names_50000"
    names="$names picked_names_50000"
fi
cat > by_python.py <<'PY'
import json, sys, time
sys.setrecursionlimit(10000)
text = open(sys.argv[1], 'rb').read()
for _ in range(3):
    start = time.time(); json.loads(text); print('read', round((time.time() - start) * 1e6))
PY
cat > by_php.php <<'PHP'
<?php
$text = file_get_contents($argv[1]);
for ($i = 0; $i < 3; $i++) {
    $start = microtime(true);
    json_decode($text, true);
    echo 'read ', round((microtime(true) - $start) * 1e6), "\n";
}
PHP
# Each is timed in three processes, by turns, since a machine may have other work at times: the least of nine counts.
echo "input bytes read_us MB/s python_us python/ours php_us php/ours"
for input in $inputs; do
    : > ours
    : > pythons
    echo 'read 0' > phps
    for turn in 1 2 3; do
        "$read" < "$input" >> ours
        python3 by_python.py "$input" >> pythons
        if command -v php > /dev/null; then
            [ "$turn" = 1 ] && : > phps
            php -d memory_limit=-1 by_php.php "$input" >> phps
        fi
    done
    size=$(wc -c < "$input")
    awk -v i="$input" -v n="$size" -v o="$(least < ours)" -v p="$(least < pythons)" -v h="$(least < phps)" 'BEGIN { printf "%s %d %d %d %d %.2f %d %.2f\n", i, n, o, n / o, p, p / o, h, h / o }'
done
echo "names, and the time that a map with std's seed takes for them alone"
for input in $names; do
    echo "$input $("$map" < "$input" | least)"
done
# The most memory of each process, less what it takes for a file of two bytes and less the text itself, over the text.
printf '[]' > nothing
python3 - "$read" <<'PY'
import os, shutil, subprocess, sys
def most(command, name):
    with open(name, 'rb') as text:
        child = subprocess.Popen(command, stdin=text, stdout=subprocess.DEVNULL)
        return os.wait4(child.pid, 0)[2].ru_maxrss * 1024
size = os.path.getsize('lock')
for name, command in (('ours', lambda f: [sys.argv[1]]), ('python3', lambda f: ['python3', 'by_python.py', f]), ('php', lambda f: ['php', '-d', 'memory_limit=-1', 'by_php.php', f])):
    if shutil.which(command('lock')[0]):
        print('memory for the lock over its size:', name, round((most(command('lock'), 'lock') - most(command('nothing'), 'nothing') - size) / size, 2))
PY
