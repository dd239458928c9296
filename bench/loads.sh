# What scripts share that hold the program against Composer and PHP: sourced by them, with `top`, the repository's folder,
# as `. "$top/bench/loads.sh"`. It ends the script where PHP or Composer is not here, goes to a new folder, and writes there a
# project with three path packages of every kind of autoload rule, which Composer copies. PROGRAM is the program, which is
# built first, by bin/composer, unless PROGRAM names a built one.
for needed in php composer; do
    command -v "$needed" > /dev/null || { echo "skipped: $needed is not here"; exit 0; }
done
work=$(mktemp -d)
trap 'rm -rf "$work"' EXIT
cd "$work"
if [ -z "${PROGRAM:-}" ]; then
    "$top/bin/composer" files > /dev/null 2>&1 || [ $? -eq 14 ] || { echo 'the program is not built' >&2; exit 1; }
    PROGRAM=$top/out/bin/composer
fi
# Writes standard input to a file, whose folder is made.
put() {
    mkdir -p "$(dirname "$1")"
    cat > "$1"
}
put packages/log/composer.json <<'JSON'
{"name": "acme/log", "version": "1.2.0", "require": {"acme/text": "^1.0"}, "autoload": {"psr-4": {"Acme\\Log\\": "src/"}, "files": ["boot.php"]}}
JSON
put packages/log/boot.php <<'PHP'
<?php
const BOOTED = 1;
PHP
put packages/log/src/Logger.php <<'PHP'
<?php
namespace Acme\Log;
class Logger {}
PHP
put packages/text/composer.json <<'JSON'
{"name": "acme/text", "version": "1.0.3", "autoload": {"classmap": ["lib/"], "psr-4": {"Acme\\Text\\More\\": ["src/", "more/"]}}}
JSON
put packages/text/lib/all.php <<'PHP'
<?php
namespace Acme\Text;
class Upper {}
interface Shown {}
enum Side { case Left; }
PHP
put packages/text/src/One.php <<'PHP'
<?php
namespace Acme\Text\More;
class One {}
PHP
put packages/text/more/Two.php <<'PHP'
<?php
namespace Acme\Text\More;
trait Two {}
PHP
put packages/old/composer.json <<'JSON'
{"name": "acme/old", "version": "0.9.0", "autoload": {"psr-0": {"Old_": "lib/", "": "bare/"}}}
JSON
put packages/old/lib/Old/Thing.php <<'PHP'
<?php
class Old_Thing {}
PHP
put packages/old/bare/Bare.php <<'PHP'
<?php
class Bare {}
PHP
put src/Home.php <<'PHP'
<?php
namespace App;
class Home {}
PHP
put src/Inner/Room.php <<'PHP'
<?php
namespace App\Inner;
final class Room {}
PHP
put tests/HomeTest.php <<'PHP'
<?php
namespace App\Tests;
class HomeTest {}
PHP
put tests/boot.php <<'PHP'
<?php
const TESTED = 1;
PHP
put composer.json <<'JSON'
{"name": "shop/site", "require": {"acme/log": "^1.0"}, "require-dev": {"acme/old": "*"},
 "autoload": {"psr-4": {"App\\": "src/"}}, "autoload-dev": {"psr-4": {"App\\Tests\\": "tests/"}, "files": ["tests/boot.php"]},
 "repositories": [{"type": "path", "url": "packages/*", "options": {"symlink": false}}, {"packagist.org": false}]}
JSON
cat > loads.php <<'PHP'
<?php
// Of each class the file that PHP loads it from, as a path below the current folder, or `-`; first the files of the current
// folder that are loaded at once, in their order.
$before = get_included_files();
require 'vendor/autoload.php';
$below = fn (string $file): string => substr(realpath($file), strlen(getcwd()) + 1);
foreach (array_diff(get_included_files(), $before) as $file) {
    if (!str_starts_with($below($file), 'vendor/composer/') && $below($file) !== 'vendor/autoload.php') {
        echo 'at once ', $below($file), "\n";
    }
}
foreach (array_slice($argv, 1) as $name) {
    $there = class_exists($name) || interface_exists($name) || trait_exists($name);
    echo $name, ' ', $there ? $below((new ReflectionClass($name))->getFileName()) : '-', "\n";
}
PHP
export COMPOSER_ALLOW_SUPERUSER=1
# The classes that are there, and one that is not.
set -- 'App\Home' 'App\Inner\Room' 'App\Nope' 'Acme\Log\Logger' 'Acme\Text\Upper' 'Acme\Text\Shown' 'Acme\Text\Side' \
    'Acme\Text\More\One' 'Acme\Text\More\Two' Old_Thing Bare 'App\Tests\HomeTest'
# Says of each class the file that `lookup` names, as loads.php does, and first which files are loaded at once.
looked_up() {
    "$PROGRAM" files | sed 's/^/at once /'
    for name in "$@"; do
        echo "$name $("$PROGRAM" lookup "$name" 2> /dev/null || echo -)"
    done
}
