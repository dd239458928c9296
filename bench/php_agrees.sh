#!/bin/sh
# Holds the cut of PHP files against PHP's own tokenizer, lexeme by lexeme, and the names that they declare against
# Composer's own scan, where Debian's php-composer-class-map-generator is here.
# Usage: bench/php_agrees.sh FOLDER, a folder of PHP sources, with the kit's `rt`, php and python3 on the PATH.
set -eu
top=$(cd "$(dirname "$0")/.." && pwd)
work=$(mktemp -d)
trap 'rm -rf "$work"' EXIT
python3 - "$1" "$work/all" "$work/list" <<'PY'
import os, sys
files = sorted(os.path.join(d, f) for d, _, fs in os.walk(sys.argv[1]) for f in fs if f.endswith(('.php', '.inc')) and os.path.isfile(os.path.join(d, f)))
total = 0
with open(sys.argv[2], 'wb') as out, open(sys.argv[3], 'w') as names:
    for name in files:
        text = open(name, 'rb').read()
        if total + len(text) > 64 << 20:
            break
        total += len(text)
        out.write(b'%d\n' % len(text) + text)
        names.write(name + '\n')
PY
mkdir -p "$work/repo/crates/php_dump/src"
for crate in path_name php_lex php_decl; do cp -r "$top/crates/$crate" "$work/repo/crates/"; done
{ grep -E '^(path_name|php_lex|php_decl):' "$top/crates.txt"; echo 'php_dump: php_decl php_lex path_name'; } > "$work/repo/crates.txt"
cat > "$work/repo/crates/php_dump/src/main.rt" <<'RT'
// Reads files, each after its length and LF, and prints for each a line of its lexemes, kind and length, and a line of
// its names.
#![tactic(auto)]

use php_decl::declared;
use php_lex::{LexKind, Lexer};
use std::alloc::Global;
use std::io;
use std::io::{Read, Write};

fn letter(kind: LexKind) -> u8 {
    match kind {
        LexKind::Html => b'H',
        LexKind::Open => b'O',
        LexKind::Close => b'C',
        LexKind::Blank => b'B',
        LexKind::Comment => b'c',
        LexKind::Quoted => b'Q',
        LexKind::Plain => b'P',
        LexKind::Qualified => b'q',
        LexKind::Variable => b'V',
        LexKind::Number => b'N',
        LexKind::Member => b'M',
        LexKind::Mark => b'm',
    }
}

fn header(text: &[u8]) -> (usize, &[u8]) {
    let mut len = 0usize;
    for (at, byte) in text.iter().enumerate() {
        if *byte == b'\n' {
            return (len, text.split_at(at).1);
        }
        len = len.wrapping_mul(10).wrapping_add(usize::from(byte.wrapping_sub(b'0')));
    }
    (len, text)
}

fn digits(out: &mut Vec<u8>, number: usize) -> io::Result<()> {
    let mut scale = 1_000_000_000usize;
    let mut begun = false;
    for _ in 0..10u8 {
        let digit = number / scale.max(1) % 10;
        scale = scale / 10;
        if digit > 0 || begun || scale == 0 {
            begun = true;
            out.push(b'0' + digit as u8)?;
        }
    }
    Ok(())
}

fn dump(alloc: Global, out: &mut Vec<u8>, text: &[u8]) -> io::Result<()> {
    let mut lexer = Lexer::new(text);
    for _ in 0..u64::MAX {
        let Some(lexeme) = lexer.next() else {
            break;
        };
        out.push(letter(lexeme.kind))?;
        digits(out, lexeme.bytes.len())?;
    }
    out.push(b'\n')?;
    let names = declared(alloc, text)?;
    for name in &names {
        out.extend_from_slice(name.as_slice())?;
        out.push(b' ')?;
    }
    out.push(b'\n')?;
    Ok(())
}

fn main(rt: HostRuntime) -> io::Result<()> {
    let mut bytes = Vec::new(rt.alloc());
    let mut input = rt.reader();
    input.read_to_end(&mut bytes)?;
    let mut out = Vec::new(rt.alloc());
    let mut rest = bytes.as_slice();
    for _ in 0..u64::MAX {
        if rest.is_empty() {
            break;
        }
        let (len, text) = header(rest);
        let (file, more) = text.split_at(len.wrapping_add(1).min(text.len()));
        dump(rt.alloc(), &mut out, file.split_at(file.len().min(1)).1)?;
        rest = more;
    }
    rt.stdout().write_all(&out)
}
RT
(cd "$work/repo" && git init -q . && cd crates/php_dump && rt run < /dev/null > "$work/build.log" 2>&1) || { tail "$work/build.log"; exit 1; }
"$work/repo/crates/php_dump/out/php_dump" < "$work/all" > "$work/ours"
php -d short_open_tag=0 -d memory_limit=-1 "$top/bench/php_cut.php" "$work/list" > "$work/php"
cat > "$work/scan.php" <<'PHP'
<?php
$scan = '/usr/share/php/Composer/ClassMapGenerator';
if (!is_file("$scan/PhpFileParser.php")) {
    exit;
}
require "$scan/autoload.php";
require_once "$scan/PhpFileParser.php";
foreach (file($argv[1], FILE_IGNORE_NEW_LINES) as $file) {
    $names = Composer\ClassMapGenerator\PhpFileParser::findClasses($file);
    echo implode('', array_map(fn ($name) => "$name ", $names)), "\n";
}
PHP
php -d memory_limit=-1 "$work/scan.php" "$work/list" > "$work/scan"
python3 - "$work/list" "$work/ours" "$work/php" "$work/scan" <<'PY'
import sys
files, ours, php, scan = (open(name, 'rb').read().split(b'\n')[:-1] for name in sys.argv[1:])
other = [file for file, a, b in zip(files, ours[::2], php) if a != b]
print('files', len(files), 'cut otherwise', len(other))
for file in other[:20]:
    print(file.decode())
if scan:
    other = [(file, a, b) for file, a, b in zip(files, ours[1::2], scan) if a != b]
    print('names', sum(len(line.split()) for line in ours[1::2]), 'files of other names', len(other))
    for file, a, b in other[:20]:
        print(file.decode(), a.decode('latin-1'), '|', b.decode('latin-1'))
PY
