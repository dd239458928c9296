#!/bin/sh
# Compares what is printed with what Composer writes: a project of two path packages is installed by Composer, its four
# tables are read and printed again, and must come out byte for byte. Then PHP asks Composer's autoloader and ours for
# the files of the same class names, plain and authoritative, and their answers must be the same.
# Usage: bench/autoload_agrees.sh, from anywhere, with the kit's `rt`, php and composer on the PATH.
set -eu
top=$(cd "$(dirname "$0")/.." && pwd)
work=$(mktemp -d)
trap 'rm -rf "$work"' EXIT
mkdir -p "$work/repo/crates/table_again/src"
for crate in path_name table_scan table_print; do cp -r "$top/crates/$crate" "$work/repo/crates/"; done
{ grep -E '^(path_name|table_scan|table_print):' "$top/crates.txt"; echo 'table_again: path_name table_scan table_print'; } > "$work/repo/crates.txt"
cat > "$work/repo/crates/table_again/src/main.rt" <<'RT'
// Reads a table from standard input and prints it again. The first byte says which table it is: `p`, `n`, `c`, `f` or
// `s`; `a` stands for the autoloader's text, which is printed alone.
#![tactic(auto)]

use path_name::{Path, Text};
use std::alloc::{AllocError, Global};
use std::io;
use std::io::{Read, Write};
use table_print::{autoload_text, lie_below, print};
use table_scan::{TableTexts, read};

fn texts(alloc: Global, kind: u8, bytes: &[u8]) -> Result<TableTexts, AllocError> {
    let mut texts = TableTexts {
        psr4: None,
        psr0: None,
        class_map: None,
        files: None,
        state: None,
    };
    let text = Some(Text::of(Vec::from_slice(alloc, bytes)?));
    match kind {
        b'p' => texts.psr4 = text,
        b'n' => texts.psr0 = text,
        b'c' => texts.class_map = text,
        b'f' => texts.files = text,
        _ => texts.state = text,
    }
    Ok(texts)
}

fn chosen(texts: &TableTexts, kind: u8) -> &Option<Text> {
    match kind {
        b'p' => &texts.psr4,
        b'n' => &texts.psr0,
        b'c' => &texts.class_map,
        b'f' => &texts.files,
        _ => &texts.state,
    }
}

// The tables of some texts, printed again.
fn again(
    alloc: Global,
    texts: &TableTexts,
    project: &Path,
) -> Result<Option<TableTexts>, AllocError> {
    match read(alloc, texts, project) {
        Err(_) => Ok(None),
        Ok(tables) => {
            if !lie_below(&tables, project) {
                return Ok(None);
            }
            Ok(Some(print(alloc, &tables, project)?))
        }
    }
}

fn main(rt: HostRuntime) -> io::Result<()> {
    let mut bytes = Vec::new(rt.alloc());
    let mut input = rt.reader();
    input.read_to_end(&mut bytes)?;
    let Some((kind, text)) = bytes.as_slice().split_first() else {
        return Ok(());
    };
    let mut out = rt.stdout();
    if *kind == b'a' {
        return out.write_all(autoload_text());
    }
    let project = Path::root(rt.alloc());
    let texts = texts(rt.alloc(), *kind, text)?;
    if let Some(printed) = again(rt.alloc(), &texts, &project)? {
        if let Some(text) = chosen(&printed, *kind) {
            out.write_all(text.as_slice())?;
        }
    }
    Ok(())
}
RT
(cd "$work/repo" && git init -q . && cd crates/table_again && rt run < /dev/null > "$work/build.log" 2>&1) || { tail "$work/build.log"; exit 1; }
again="$work/repo/crates/table_again/out/table_again"
mkdir "$work/site"
cd "$work/site"
mkdir -p src more/Deep/Er fallback/Q legacy/Legacy packages/log/src packages/log/lib/Old/Sub packages/log/lib/Old/Under packages/clock/src packages/clock/old
cat > composer.json <<'JSON'
{"name": "shop/site", "require": {"acme/log": "^1.2", "acme/clock": "^2.0"},
 "repositories": [{"type": "path", "url": "packages/*", "options": {"symlink": false}}, {"packagist.org": false}],
 "autoload": {"psr-4": {"App\\": ["src/", "more/"], "": "fallback"}, "psr-0": {"Legacy_": "legacy/"}, "classmap": ["src"], "files": ["src/boot.php"]}}
JSON
cat > packages/log/composer.json <<'JSON'
{"name": "acme/log", "version": "1.2.5", "require": {"acme/clock": "^2.0"}, "autoload": {"psr-4": {"Acme\\Log\\": "src"}, "psr-0": {"Old\\": "lib"}, "files": ["boot.php"]}}
JSON
cat > packages/clock/composer.json <<'JSON'
{"name": "acme/clock", "version": "2.0.1", "autoload": {"psr-4": {"Acme\\Clock\\": "src"}, "classmap": ["old"]}}
JSON
echo '<?php namespace App; class Home {}' > src/Home.php
echo '<?php namespace Acme\Log; class File {}' > packages/log/src/File.php
echo '<?php namespace Acme\Clock; class Utc {}' > packages/clock/src/Utc.php
echo '<?php class It_Is_Old {}' > "packages/clock/old/it's.php"
for file in src/boot.php more/Deep/Er/X_Y.php fallback/Lone.php fallback/Q/R.php legacy/Legacy/Thing.php packages/log/boot.php packages/log/lib/Old/Sub/A.php packages/log/lib/Old/Under/Score.php; do echo '<?php' > "$file"; done
cat > names <<'TXT'
App\Home
App\Missing
App\Deep\Er\X_Y
App\Deep\Er\X_Z
Acme\Log\File
Acme\Clock\Utc
It_Is_Old
Old\Sub\A
Old\Under_Score
Old\Nothing
Legacy_Thing
Legacy_Other
Q\R
Lone
Composer\InstalledVersions
Acme\Log
Nothing\At\All
TXT
ask='foreach (file("names", FILE_IGNORE_NEW_LINES) as $name) { $file = $find($name); echo $name, " ", $file ? realpath($file) : "-", "\n"; }'
for way in optimize-autoloader classmap-authoritative; do
    rm -rf vendor composer.lock
    COMPOSER_ALLOW_SUPERUSER=1 composer install --quiet --no-interaction --no-plugins --$way
    for table in ppsr4 nnamespaces cclassmap ffiles; do
        name=vendor/composer/autoload_${table#?}.php
        { printf '%.1s' "$table"; cat "$name"; } | "$again" | cmp - "$name"
        echo "$way: ${name##*/} is printed byte for byte"
    done
    php -r '$loader = require "vendor/autoload.php"; $find = array($loader, "findFile"); '"$ask" > composer_says
    mode=plain
    if [ $way = classmap-authoritative ]; then mode=authoritative; fi
    printf 's<?php return array("mode"=>"%s","generation"=>1);' $mode | tr '"' "'" | "$again" > vendor/composer/autoload_state.php
    printf a | "$again" > vendor/autoload.php
    php -l vendor/autoload.php > /dev/null
    php -r '$find = require "vendor/autoload.php"; '"$ask" > ours_says
    cmp composer_says ours_says
    php -r 'require "vendor/autoload.php"; exit(class_exists("App\\Home") && count($GLOBALS["__composer_autoload_files"]) === 2 ? 0 : 1);'
    echo "$way: $(wc -l < names) names have the same files, $(grep -c -v ' -$' ours_says) of them one"
done
