#!/bin/sh
# Times class_walk::walk over a folder tree of real PHP sources: each folder listed, each file read and cut, its names
# looked for; beside `find` and `xargs cat` over the same files, and beside Composer's own scan (scanPaths).
# Usage: bench/walk.sh [FOLDER [KEPT]], from anywhere, with the kit's `rt`, apt-get, dpkg-deb, python3 and, for the last
# of them, php and Debian's composer on the PATH. A FOLDER of PHP sources is taken in place of Debian's packages. KEPT is
# a folder that keeps the built program, which is built where it is not there. FILES is how many files are taken at most
# (10,000). Where MEASURE is set, it is a command that runs each measurement, as `chrt -f 10` does.
set -eu
top=$(cd "$(dirname "$0")/.." && pwd)
measure=${MEASURE:-}
work=$(mktemp -d)
trap 'rm -rf "$work"' EXIT
sources=${1:-}
if [ -z "$sources" ]; then
    sources="$work/sources"
    mkdir -p "$sources" "$work/debs"
    (cd "$work/debs" && apt-get download wordpress mediawiki phpmyadmin roundcube-core dokuwiki php-symfony-http-kernel phpunit > /dev/null 2>&1) \
        || { echo "skipped: the packages can't be had here"; exit 0; }
    for deb in "$work"/debs/*.deb; do dpkg-deb -x "$deb" "$sources"; done
fi
kept=${2:-$work}
mkdir -p "$kept"
kept=$(cd "$kept" && pwd)
program="$kept/repo/crates/walk_bench/out/walk_bench"
if [ ! -x "$program" ]; then
    crates='path_name tree_dev tree_std class_paths php_lex php_decl class_walk'
    mkdir -p "$kept/repo/crates/walk_bench/src"
    for crate in $crates; do
        mkdir -p "$kept/repo/crates/$crate"
        for part in src specs proofs out; do [ ! -d "$top/crates/$crate/$part" ] || cp -r "$top/crates/$crate/$part" "$kept/repo/crates/$crate/"; done
    done
    for crate in $crates; do grep "^$crate:" "$top/crates.txt"; done > "$kept/repo/crates.txt"
    echo 'walk_bench: class_walk tree_std tree_dev path_name' >> "$kept/repo/crates.txt"
    cat > "$kept/repo/crates/walk_bench/src/main.rt" <<'RT'
// Walks `tree` as a listed folder five times, and prints the microseconds of each walk, how many files were scanned, and
// how many names they give.
#![tactic(auto)]

use class_walk::{Scanned, WalkJob, WalkRule, walk};
use path_name::{Items, Path};
use std::alloc::Global;
use std::io;
use std::io::ErrorKind;
use std::rt::Clock;
use std::time::Instant;
use tree_dev::{Entries, Tree};
use tree_std::FolderTree;

fn failed() -> io::Error {
    io::Error::from(ErrorKind::Other)
}

fn job(alloc: Global) -> io::Result<WalkJob> {
    let Ok(at) = Path::read(alloc, b"tree") else {
        return Err(failed());
    };
    Ok(WalkJob {
        shown: at.copy(alloc)?,
        at,
        rule: WalkRule::Listed,
        skip: Items::of(Vec::new(alloc)),
    })
}

fn names_of(found: &[Scanned]) -> u64 {
    let mut count = 0u64;
    for scanned in found {
        count = count.wrapping_add(scanned.names.as_slice().len() as u64);
    }
    count
}

fn run<T: Tree>(rt: &(impl Clock + Print), alloc: Global, tree: &mut T) -> io::Result<()> {
    let job = job(alloc)?;
    let start = Instant::now(rt)?;
    let mut left = Entries { left: 1_000_000 };
    let Ok(found) = walk(alloc, tree, &[job], &[], &mut left) else {
        println!(rt; "refused")?;
        return Ok(());
    };
    let took = start.elapsed(rt)?.as_micros();
    println!(rt; "{took} {} {}", found.len(), names_of(found.as_slice()))
}

fn main(rt: HostRuntime) -> io::Result<()> {
    for _round in 0..5u8 {
        run(&rt, rt.alloc(), &mut FolderTree::new(&rt))?;
    }
    Ok(())
}
RT
    (cd "$kept/repo" && git init -q . && cd crates/walk_bench && rt run < /dev/null > "$kept/build.log" 2>&1) || true
    [ -x "$program" ] || { tail "$kept/build.log"; exit 1; }
fi
cd "$work"
python3 - "$sources" "${FILES:-10000}" <<'PY'
# Copies the plain files that end in .php or .inc to `tree`, with the folders that they stand in.
import os, shutil, sys
count = total = 0
for folder, folders, names in os.walk(sys.argv[1]):
    folders.sort()
    for name in sorted(names):
        file = os.path.join(folder, name)
        if count == int(sys.argv[2]) or not name.endswith(('.php', '.inc')) or os.path.islink(file):
            continue
        to = os.path.join('tree', os.path.relpath(folder, sys.argv[1]))
        os.makedirs(to, exist_ok=True)
        shutil.copyfile(file, os.path.join(to, name))
        count += 1
        total += os.path.getsize(file)
os.makedirs('tree', exist_ok=True)
os.sync()
print('%d files, %.1f MB' % (count, total / 1e6))
PY
cat > others.py <<'PY'
import subprocess, time
line = "find tree -type f -not -path '*/.*' -print0 | xargs -0 cat > /dev/null"
best = 99
for _ in range(5):
    start = time.time(); subprocess.run(['sh', '-c', line], check=True); best = min(best, time.time() - start)
print(round(best * 1e6))
PY
cat > scan.php <<'PHP'
<?php
// The least microseconds of two scans of `tree`, and how many classes are in the map.
$scan = '/usr/share/php/Composer';
if (!is_file("$scan/ClassMapGenerator/ClassMapGenerator.php")) { exit; }
require "$scan/autoload.php";
require_once "$scan/ClassMapGenerator/autoload.php";
$best = INF;
for ($round = 0; $round < 2; $round++) {
    $start = hrtime(true);
    $generator = new Composer\ClassMapGenerator\ClassMapGenerator();
    $generator->scanPaths('tree');
    $best = min($best, hrtime(true) - $start);
}
echo round($best / 1000), ' ', count($generator->getClassMap()->getMap());
PHP
ours=$($measure "$program" | awk '
    $1 == "refused" { print "refused"; exit 1 }
    NR == 1 || $1 < least { least = $1 } END { print least, $2, $3 }')
cat=$($measure python3 others.py)
scan=$(command -v php > /dev/null && $measure php -d memory_limit=-1 scan.php || true)
python3 - "$ours" "$cat" "$scan" <<'PY'
import sys
least, files, names = map(int, sys.argv[1].split())
print('walk %.1f ms, %d files, %d names' % (least / 1e3, files, names))
print('find and xargs cat %.1f ms, ours / cat %.2f' % (int(sys.argv[2]) / 1e3, least / int(sys.argv[2])))
if sys.argv[3]:
    took, classes = map(int, sys.argv[3].split())
    print("Composer's scanPaths %.1f ms, %d classes, scan / ours %.1f" % (took / 1e3, classes, took / least))
PY
