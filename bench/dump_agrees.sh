#!/bin/sh
# Compares the tables that `dump-autoload` writes with PHP: a project of two path packages is installed by Composer, its tables
# are written anew by this program, in each mode, and PHP then loads each class through the written vendor/autoload.php. The file
# that it came from must be the one that `lookup` prints, and a class that `lookup` doesn't find must not be there.
# Usage: bench/dump_agrees.sh, from anywhere, with the kit's `rt`, php and composer on the PATH.
set -eu
top=$(cd "$(dirname "$0")/.." && pwd)
command -v php > /dev/null && command -v composer > /dev/null || { echo 'skipped: php and composer are not there'; exit 0; }
"$top/bin/composer" files > /dev/null 2>&1 || [ $? -eq 14 ] || { echo 'the program is not built' >&2; exit 1; }
work=$(mktemp -d)
trap 'rm -rf "$work"' EXIT
cd "$work"
mkdir -p packages/log/src/Part packages/old/lib/Old packages/old/more site/src
cat > packages/log/composer.json <<'J'
{"name": "acme/log", "version": "1.2.0", "autoload": {"psr-4": {"Acme\\Log\\": "src/"}, "files": ["boot.php"]}}
J
echo '<?php function acme_log_booted() { return true; }' > packages/log/boot.php
echo '<?php namespace Acme\Log; class File {}' > packages/log/src/File.php
echo '<?php namespace Acme\Log\Part; interface Sink {}' > packages/log/src/Part/Sink.php
cat > packages/old/composer.json <<'J'
{"name": "acme/old", "version": "2.0.0", "autoload": {"psr-0": {"Old_": "lib/"}, "classmap": ["more"]}}
J
echo '<?php class Old_Thing {}' > packages/old/lib/Old/Thing.php
echo '<?php namespace More; trait Many {} class One {}' > packages/old/more/all.php
cat > site/composer.json <<'J'
{"name": "acme/site", "repositories": [{"type": "path", "url": "../packages/*", "options": {"symlink": false}}, {"packagist.org": false}],
 "require": {"acme/log": "*", "acme/old": "*"}, "autoload": {"psr-4": {"App\\": "src/"}}}
J
echo '<?php namespace App; class Home {}' > site/src/Home.php
(cd site && COMPOSER_ALLOW_SUPERUSER=1 composer update --no-interaction --no-plugins > "$work/composer.log" 2>&1) || { cat "$work/composer.log"; exit 1; }
cat > load.php <<'PHP'
<?php
// Prints for each class the file that it was loaded from, or nothing.
require $argv[1] . '/vendor/autoload.php';
if (!acme_log_booted()) { exit(1); }
foreach (array_slice($argv, 2) as $name) {
    $there = class_exists($name) || interface_exists($name) || trait_exists($name);
    $file = $there ? (new ReflectionClass($name))->getFileName() : '';
    echo $name, ' ', $there ? substr($file, strlen(realpath($argv[1])) + 1) : 'none', "\n";
}
PHP
count=0
for ways in '' '-o' '-a'; do
    (cd site && "$top/out/bin/composer" dump-autoload $ways > /dev/null)
    for name in 'App\Home' 'App\Nowhere' 'Acme\Log\File' 'Acme\Log\Part\Sink' 'Acme\Log\Missing' 'Old_Thing' 'Old_Missing' 'More\Many' 'More\One'; do
        file=$(cd site && "$top/out/bin/composer" lookup "$name" 2> /dev/null) || file=none
        loaded=$(php load.php site "$name")
        [ "$loaded" = "$name $file" ] || { echo "$ways: PHP says $loaded, lookup $file"; exit 1; }
        count=$((count + 1))
    done
done
echo "$count answers are the same"
