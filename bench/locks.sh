#!/bin/sh
# Times what lock_file does with a lock of 4,096 packages: its fields read of the value in memory, the lock printed, and
# its installed.json, and the lock made of a plan that has all of them; beside them the reading of the JSON, and PHP's
# json_decode and json_encode of the same text.
# Usage: bench/locks.sh [build], with the kit's `rt`, python3 and, if there is one, php on the PATH.
. "$(dirname "$0")/head.sh"
locks=$(program lock_times 'lock_file plan_rules pkg_pool manifest_read json_ordered path_name' path_name tree_dev version_norm constraint_set json_ordered content_hash manifest_read pkg_pool plan_rules lock_file <<'RT'
// Reads a lock from standard input, and three times reads its value and its fields and prints it and its installed.json;
// and makes the lock of a plan that has all its packages; writes the microseconds and the length of the text, or how many
// packages are required at run time.
#![tactic(auto)]

use json_ordered::{Doc, read};
use lock_file::{Lock, from_doc, lock_of, pool_of, print, print_installed};
use manifest_read::{Manifest, Role};
use path_name::{Items, Path, Text};
use pkg_pool::Pool;
use plan_rules::Selection;
use std::alloc::{AllocError, Global};
use std::io;
use std::io::Read;
use std::time::Instant;

fn len(text: &Result<Text, AllocError>) -> usize {
    match text {
        Ok(text) => text.as_slice().len(),
        Err(_) => 0,
    }
}

fn root(alloc: Global) -> Option<Manifest> {
    let doc = read(alloc, b"{\"require\":{\"demo/p1\":\"*\"}}").ok()?;
    manifest_read::from_doc(alloc, &doc, Role::Root).ok()
}

fn pool(alloc: Global, lock: &Lock) -> Option<Pool> {
    let root = root(alloc)?;
    let project = Path::read(alloc, b".").ok()?;
    pool_of(alloc, root, lock, &project).ok()
}

fn all(alloc: Global, pool: &Pool) -> Option<Selection> {
    let mut members = Vec::new(alloc);
    for place in 0..pool.candidates.as_slice().len() {
        let number = u32::try_from(place).ok()?;
        members.push(number).ok()?;
    }
    let members = Items::of(members);
    Some(Selection { members })
}

fn required(lock: &Result<Lock, AllocError>) -> usize {
    match lock {
        Ok(lock) => lock.packages.as_slice().len(),
        Err(_) => 0,
    }
}

fn made_times(rt: &HostRuntime, pool: &Pool, plan: &Selection) -> io::Result<()> {
    let start = Instant::now(rt)?;
    let made = lock_of(rt.alloc(), pool, plan, b"d751713988987e9331980363e24189ce");
    let took = start.elapsed(rt)?.as_micros();
    let size = required(&made);
    println!(rt; "plan {took} {size}")
}

fn plan_times(rt: &HostRuntime, lock: &Lock) -> io::Result<()> {
    match pool(rt.alloc(), lock) {
        None => println!(rt; "no pool"),
        Some(pool) => match all(rt.alloc(), &pool) {
            None => println!(rt; "no plan"),
            Some(plan) => made_times(rt, &pool, &plan),
        },
    }
}

fn print_times(rt: &HostRuntime, lock: &Lock) -> io::Result<()> {
    let start = Instant::now(rt)?;
    let size = len(&print(rt.alloc(), lock));
    let took = start.elapsed(rt)?.as_micros();
    println!(rt; "print {took} {size}")?;
    let start = Instant::now(rt)?;
    let size = len(&print_installed(rt.alloc(), lock, true));
    let took = start.elapsed(rt)?.as_micros();
    println!(rt; "installed {took} {size}")?;
    plan_times(rt, lock)
}

fn field_times(rt: &HostRuntime, doc: &Doc, size: usize) -> io::Result<()> {
    let start = Instant::now(rt)?;
    let lock = from_doc(rt.alloc(), doc);
    let took = start.elapsed(rt)?.as_micros();
    println!(rt; "fields {took} {size}")?;
    match lock {
        Ok(lock) => print_times(rt, &lock),
        Err(fault) => println!(rt; "{fault}"),
    }
}

fn times(rt: &HostRuntime, bytes: &[u8]) -> io::Result<()> {
    let start = Instant::now(rt)?;
    let doc = read(rt.alloc(), bytes);
    let took = start.elapsed(rt)?.as_micros();
    let size = bytes.len();
    println!(rt; "json {took} {size}")?;
    match doc {
        Ok(doc) => field_times(rt, &doc, size),
        Err(fault) => println!(rt; "{fault}"),
    }
}

fn main(rt: HostRuntime) -> io::Result<()> {
    let mut bytes = Vec::new(rt.alloc());
    let mut input = rt.reader();
    input.read_to_end(&mut bytes)?;
    for _round in 0..3u8 {
        times(&rt, &bytes)?;
    }
    Ok(())
}
RT
)
python3 - "$work/lock" <<'PY'
import json, sys
def package(i):
    name = 'demo/p%d' % i
    entry = {'name': name, 'version': '1.%d.0' % (i % 7), 'dist': {'type': 'path', 'url': 'packages/p%d' % i, 'reference': '%040x' % i}}
    entry['require'] = {'demo/p%d' % j: '^1.0' for j in (2 * i, 2 * i + 1) if j <= 4096} or {'php': '>=8.1'}
    entry['type'] = 'library'
    entry['autoload'] = {'psr-4': {'Demo\\P%d\\' % i: 'src/'}, 'files': ['src/functions.php']}
    return entry
lock = {'_readme': ['one', 'two'], 'content-hash': '0' * 32, 'packages': sorted(map(package, range(1, 4097)), key=lambda e: e['name']), 'packages-dev': [],
        'aliases': [], 'minimum-stability': 'stable', 'stability-flags': {}, 'prefer-stable': False, 'prefer-lowest': False, 'platform': {'php': '>=8.1'}, 'platform-dev': {}, 'plugin-api-version': '2.6.0'}
open(sys.argv[1], 'w').write(json.dumps(lock, indent=4) + '\n')
PY
if [ "${1:-}" = build ]; then exit 0; fi
cd "$work"
cat > by_php.php <<'PHP'
<?php
$text = file_get_contents($argv[1]);
for ($i = 0; $i < 3; $i++) {
    $start = microtime(true);
    $value = json_decode($text, true);
    echo 'json ', round((microtime(true) - $start) * 1e6), "\n";
    $start = microtime(true);
    json_encode($value, JSON_PRETTY_PRINT | JSON_UNESCAPED_SLASHES | JSON_UNESCAPED_UNICODE);
    echo 'print ', round((microtime(true) - $start) * 1e6), "\n";
}
PHP
: > ours
: > phps
for turn in 1 2 3; do
    "$locks" < lock >> ours
    if command -v php > /dev/null; then php -d memory_limit=-1 by_php.php lock >> phps; fi
done
echo "work bytes us php_us"
for part in json fields print installed plan; do
    size=$(grep "^$part " ours | head -1 | awk '{print $3}')
    php=$(grep "^$part " phps | least)
    echo "$part $size $(grep "^$part " ours | least) ${php:--}"
done
