#!/bin/sh
# Makes a project of a root and two path packages in a new folder, lets Composer install it, and prints the tables that
# Composer wrote, the files that it loads always, and the file that its ClassLoader finds for each of some names.
# Usage: vectors/composer_project.sh FOLDER, with composer and php on the PATH. The folder must not be there yet; the
# project stays in it. The rows in composer_top's tests are what Composer 2.5.5 and PHP 8.2 give.
set -eu
mkdir "$1"
cd "$1"
class() { # FILE NAMESPACE NAME
    mkdir -p "$(dirname "$1")"
    if [ -n "$2" ]; then printf '<?php\nnamespace %s;\nclass %s {}\n' "$2" "$3"; else printf '<?php\nclass %s {}\n' "$3"; fi > "$1"
}
cat > composer.json <<'JSON'
{
    "name": "acme/app",
    "repositories": [
        {"type": "path", "url": "packages/*", "options": {"symlink": false}},
        {"packagist.org": false}
    ],
    "require": {"acme/log": "*", "acme/clock": "*"},
    "autoload": {
        "psr-4": {"App\\": ["src/", "more"], "App\\Http\\": "http", "": "any"},
        "psr-0": {"Legacy_": "legacy", "Zend": ["zend/library", "zend/extras"]},
        "classmap": ["models", "one/Single.php"],
        "files": ["src/boot.php"]
    }
}
JSON
mkdir -p packages/log packages/clock
cat > packages/log/composer.json <<'JSON'
{"name": "acme/log", "version": "1.2.0", "autoload": {"psr-4": {"Acme\\Log\\": "src"}, "psr-0": {"Old\\": "lib"}, "files": ["boot.php"]}}
JSON
cat > packages/clock/composer.json <<'JSON'
{"name": "acme/clock", "version": "0.3.1", "require": {"acme/log": "^1.0"}, "autoload": {"psr-4": {"Acme\\Clock\\": ""}, "classmap": ["Zones.php"]}}
JSON
class packages/log/src/File.php 'Acme\Log' File
class packages/log/src/Format/Line.php 'Acme\Log\Format' Line
class packages/log/lib/Old/Time/Zone/Name.php 'Old\Time' Zone_Name
printf '<?php\n' > packages/log/boot.php
class packages/clock/Utc.php 'Acme\Clock' Utc
class packages/clock/Zones.php 'Acme\Clock\Data' Zones
class src/Home.php 'App' Home
class more/Help.php 'App' Help
class src/Http/Kernel.php 'App\Http' Kernel
class http/Route.php 'App\Http' Route
class any/Free.php '' Free
class any/Acme/Log/Extra.php 'Acme\Log' Extra
class legacy/Legacy/Db/Table.php '' Legacy_Db_Table
class zend/extras/Zend/Acl.php 'Zend' Acl
class models/deep/user.php 'Shop\Model' User
class one/Single.php '' Single
printf '<?php\n' > src/boot.php
composer install --no-interaction --no-plugins --quiet
for table in psr4 namespaces classmap files; do
    echo "== autoload_$table.php"
    cat "vendor/composer/autoload_$table.php"
done
php -r '
$folder = getcwd() . "/";
$within = function ($file) use ($folder) {
    $parts = array();
    foreach (explode("/", substr($file, strlen($folder))) as $part) {
        if ($part === "..") { array_pop($parts); } elseif ($part !== "" && $part !== ".") { $parts[] = $part; }
    }
    return implode("/", $parts);
};
echo "== files\n";
foreach (require "vendor/composer/autoload_files.php" as $file) { echo $within($file), "\n"; }
$loader = require "vendor/autoload.php";
echo "== names\n";
foreach (array("App\\Home", "App\\Help", "App\\Http\\Route", "App\\Http\\Kernel", "Acme\\Log\\File", "Acme\\Log\\Format\\Line", "Acme\\Log\\Extra",
    "Acme\\Clock\\Utc", "Acme\\Clock\\Data\\Zones", "Old\\Time\\Zone_Name", "Legacy_Db_Table", "Zend\\Acl", "Shop\\Model\\User", "Single", "Free",
    "Composer\\InstalledVersions", "App\\Gone", "Acme\\Clock\\Zones", "Zend\\Gone", "free") as $name) {
    $file = $loader->findFile($name);
    echo $name, " ", $file === false ? "-" : $within($file), "\n";
}'
