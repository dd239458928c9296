#!/bin/sh
# Times the cut of PHP files and the search of their names, over real sources from Debian's packages, beside PHP's
# tokenizer, Composer's own scan, grep and cat on the same files; and then over texts that are made to be slow, each in
# two sizes.
# Usage: bench/php.sh [FOLDER], with the kit's `rt`, apt-get, dpkg-deb, php, composer (as Debian has them) and python3 on
# the PATH. A FOLDER of PHP sources is taken in place of the packages. What is measured is started by the command in
# MEASURE, if it is set. PHP_BENCH, if it is set, is the built program of an earlier run.
set -eu
top=$(cd "$(dirname "$0")/.." && pwd)
measure=${MEASURE:-}
work=$(mktemp -d)
trap 'rm -rf "$work"' EXIT
sources=${1:-}
if [ -z "$sources" ]; then
    sources="$work/sources"
    mkdir -p "$sources" "$work/debs"
    (cd "$work/debs" && apt-get download wordpress mediawiki phpmyadmin roundcube-core dokuwiki php-symfony-http-kernel phpunit > /dev/null 2>&1) \
        || { echo "skipped: the packages can't be had here"; exit 0; }
    for deb in "$work"/debs/*.deb; do dpkg-deb -x "$deb" "$sources"; done
fi
python3 - "$sources" "$work/all" "$work/list" <<'PY'
import os, sys
files = sorted(os.path.join(d, f) for d, _, fs in os.walk(sys.argv[1]) for f in fs if f.endswith(('.php', '.inc')) and os.path.isfile(os.path.join(d, f)))
total = 0
with open(sys.argv[2], 'wb') as out, open(sys.argv[3], 'w') as names:
    for name in files:
        text = open(name, 'rb').read()
        if total + len(text) > 64 << 20:
            break
        total += len(text)
        out.write(b'%d\n' % len(text) + text)
        names.write(name + '\n')
print('files', len(files), 'bytes', total)
PY
program=${PHP_BENCH:-$work/repo/crates/php_bench/out/php_bench}
if [ -z "${PHP_BENCH:-}" ]; then
    mkdir -p "$work/repo/crates/php_bench/src"
    for crate in path_name php_lex php_decl; do cp -r "$top/crates/$crate" "$work/repo/crates/"; done
    { grep -E '^(path_name|php_lex|php_decl):' "$top/crates.txt"; echo 'php_bench: php_decl php_lex path_name'; } > "$work/repo/crates.txt"
    cat > "$work/repo/crates/php_bench/src/main.rt" <<'RT'
// Reads files, each after its length and LF, from standard input; goes over all of them five times in each of three ways,
// and prints the way, the least microseconds, and two numbers that show what was found: the cut, with its lexemes and the
// bytes in quoted ones; the names by a cut of the whole text, and by one that stops early, with their number and bytes.
#![tactic(auto)]

use php_decl::{declared, declared_plainly};
use php_lex::{LexKind, Lexer};
use std::alloc::Global;
use std::io;
use std::io::Read;
use std::time::Instant;

#[derive(Clone, Copy, PartialEq, Eq, Debug)]
enum Way {
    Cut,
    Plain,
    Names,
}

// The number that stands before LF, and what follows it.
fn header(text: &[u8]) -> (usize, &[u8]) {
    let mut len = 0usize;
    for (at, byte) in text.iter().enumerate() {
        if *byte == b'\n' {
            return (len, text.split_at(at).1);
        }
        len = len.wrapping_mul(10).wrapping_add(usize::from(byte.wrapping_sub(b'0')));
    }
    (len, text)
}

fn cut(text: &[u8]) -> (u64, u64) {
    let mut lexer = Lexer::new(text);
    let mut count = 0u64;
    let mut quoted = 0u64;
    for _ in 0..u64::MAX {
        let Some(lexeme) = lexer.next() else {
            break;
        };
        count = count.wrapping_add(1);
        if lexeme.kind == LexKind::Quoted {
            quoted = quoted.wrapping_add(lexeme.bytes.len() as u64);
        }
    }
    (count, quoted)
}

fn names(alloc: Global, text: &[u8], way: Way) -> io::Result<(u64, u64)> {
    let found = if way == Way::Plain {
        declared_plainly(alloc, text)?
    } else {
        declared(alloc, text)?
    };
    let mut bytes = 0u64;
    for name in &found {
        bytes = bytes.wrapping_add(name.as_slice().len() as u64);
    }
    Ok((found.len() as u64, bytes))
}

fn visit(alloc: Global, text: &[u8], way: Way) -> io::Result<(u64, u64)> {
    if way == Way::Cut {
        return Ok(cut(text));
    }
    names(alloc, text, way)
}

fn visit_all(alloc: Global, all: &[u8], way: Way) -> io::Result<(u64, u64)> {
    let mut rest = all;
    let mut count = 0u64;
    let mut inside = 0u64;
    for _ in 0..u64::MAX {
        if rest.is_empty() {
            break;
        }
        let (len, text) = header(rest);
        let (file, more) = text.split_at(len.wrapping_add(1).min(text.len()));
        let (some, bytes) = visit(alloc, file.split_at(file.len().min(1)).1, way)?;
        count = count.wrapping_add(some);
        inside = inside.wrapping_add(bytes);
        rest = more;
    }
    Ok((count, inside))
}

fn main(rt: HostRuntime) -> io::Result<()> {
    let mut bytes = Vec::new(rt.alloc());
    let mut input = rt.reader();
    input.read_to_end(&mut bytes)?;
    for way in [Way::Cut, Way::Plain, Way::Names] {
        let mut best = u128::MAX;
        let mut found = (0, 0);
        for _round in 0..5u8 {
            let start = Instant::now(&rt)?;
            found = visit_all(rt.alloc(), &bytes, way)?;
            best = best.min(start.elapsed(&rt)?.as_micros());
        }
        let (count, inside) = found;
        println!(rt; "{way:?} {best} {count} {inside}")?;
    }
    Ok(())
}
RT
    (cd "$work/repo" && git init -q . && cd crates/php_bench && rt run < /dev/null > "$work/build.log" 2>&1) || { tail "$work/build.log"; exit 1; }
    cp "$program" "${KEEP:-$work/program}"
fi
echo "--- real sources: way, microseconds, and what was found"
$measure "$program" < "$work/all"
cat > "$work/tokens.php" <<'PHP'
<?php
$texts = array_map('file_get_contents', file($argv[1], FILE_IGNORE_NEW_LINES));
$best = 1e9;
for ($i = 0; $i < 2; $i++) {
    $start = microtime(true);
    foreach ($texts as $text) {
        $tokens = token_get_all($text);
    }
    $best = min($best, microtime(true) - $start);
}
echo 'token_get_all ', round($best * 1e6), " us\n";
PHP
cat > "$work/scan.php" <<'PHP'
<?php
$scan = '/usr/share/php/Composer/ClassMapGenerator';
if (!is_file("$scan/PhpFileParser.php")) {
    echo "findClasses skipped: Debian's php-composer-class-map-generator is not here\n";
    exit;
}
require "$scan/autoload.php";
require_once "$scan/PhpFileParser.php";
$files = file($argv[1], FILE_IGNORE_NEW_LINES);
$best = 1e9;
for ($i = 0; $i < 2; $i++) {
    $count = 0;
    $start = microtime(true);
    foreach ($files as $file) {
        $count += count(Composer\ClassMapGenerator\PhpFileParser::findClasses($file));
    }
    $best = min($best, microtime(true) - $start);
}
echo 'findClasses ', round($best * 1e6), " us, with reading the files, $count names\n";
PHP
$measure php -d memory_limit=-1 "$work/tokens.php" "$work/list"
$measure php -d memory_limit=-1 "$work/scan.php" "$work/list"
cat > "$work/others.py" <<'PY'
import subprocess, sys, time
for command in (['grep', '-ac', 'class', sys.argv[1]], ['cat', sys.argv[1]]):
    best = 9
    for _ in range(5):
        start = time.time(); subprocess.run(command, stdout=open(sys.argv[1] + '.out', 'w')); best = min(best, time.time() - start)
    print(command[0], round(best * 1e6), 'us')
PY
$measure python3 "$work/others.py" "$work/all"
echo "--- texts made to be slow: MB/s of the cut, of the names by the whole cut and of the names, at 4 MB and at 16 MB"
$measure python3 "$top/bench/php_slow.py" "$program"
