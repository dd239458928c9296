#!/bin/sh
# Makes projects with path repositories in a new folder, lets Composer lock and install them, and keeps the composer.lock
# and installed.json of each beside this script, in locks/.
# Usage: vectors/composer_locks.sh FOLDER, with composer and php on the PATH. The folder must not be there yet; the
# projects stay in it. What is kept in locks/ is what Composer 2.5.5 and PHP 8.2 wrote.
set -eu
kept=$(cd "$(dirname "$0")" && pwd)/locks
mkdir "$1"
cd "$1"
manifest() { # FOLDER, with the composer.json on standard input
    mkdir -p "$1"
    cat > "$1/composer.json"
}
keep() { # PROJECT NAME OPTIONS: installs, and keeps the lock and the installed.json
    (cd "$1" && composer install --no-interaction --no-plugins --quiet $3)
    cp "$1/composer.lock" "$kept/$2.lock"
    cp "$1/vendor/composer/installed.json" "$kept/$2.installed.json"
}

# a root that requires a package, which requires another one
manifest plain <<'JSON'
{"name": "shop/site", "require": {"php": ">=8.1", "acme/log": "^1.2"}, "autoload": {"psr-4": {"App\\": "src/"}},
 "repositories": [{"type": "path", "url": "packages/*"}, {"packagist.org": false}]}
JSON
manifest plain/packages/clock <<'JSON'
{"name": "acme/clock", "version": "2.0.1", "autoload": {"psr-4": {"Acme\\Clock\\": "src"}}}
JSON
manifest plain/packages/log <<'JSON'
{"name": "acme/log", "version": "1.2.5", "require": {"acme/clock": "^2.0", "php": ">=8.0"},
 "autoload": {"psr-4": {"Acme\\Log\\": "src"}, "files": ["boot.php"]}}
JSON
touch plain/packages/log/boot.php
keep plain plain ''

# every key that a package may have, packages for development, flags, and folders above the project
manifest full/app <<'JSON'
{"name": "shop/app", "require": {"full/all": "1.*", "full/edge": "dev-main", "ext-json": "*", "php": "^8.1"},
 "require-dev": {"full/tool": "^0.3@beta", "ext-mbstring": "*"}, "minimum-stability": "beta", "prefer-stable": true,
 "repositories": [{"type": "path", "url": "../packages/*"}, {"packagist.org": false}]}
JSON
manifest full/packages/all <<'JSON'
{"name": "full/all", "description": "Has all", "version": "v1.0.2", "type": "project", "license": "MIT",
 "require": {"php": ">=8.0", "virtual/log": "^1.0 || ^2.0"}, "conflict": {"full/old": "<2.0"},
 "replace": {"full/part": "self.version"}, "provide": {"virtual/cache": "1.0"}, "suggest": {"full/more": "for more"},
 "bin": ["run"], "keywords": ["a", "b"], "extra": {"x": {"y": [1, 2.5, null]}},
 "autoload": {"psr-4": {"": "any/", "Full\\All\\": ["src", "more/"]}, "psr-0": {"Full_": "old/"},
   "classmap": ["models", "one.php"], "files": ["start.php", "end.php"], "exclude-from-classmap": ["/tests/", "**/no*"]}}
JSON
touch full/packages/all/start.php full/packages/all/end.php full/packages/all/run full/packages/all/one.php
mkdir full/packages/all/models
manifest full/packages/edge <<'JSON'
{"name": "full/edge", "version": "dev-main", "provide": {"virtual/log": "2.1"}}
JSON
manifest full/packages/tool <<'JSON'
{"name": "full/tool", "version": "0.3.1-beta2", "require": {"full/helper": "*"}}
JSON
manifest full/packages/helper <<'JSON'
{"name": "full/helper", "version": "1.0.0"}
JSON
keep full/app full ''

# the same project, installed without what is for development
rm -r full/app/vendor
(cd full/app && composer install --no-dev --no-interaction --no-plugins --quiet)
cp full/app/vendor/composer/installed.json "$kept/full_no_dev.installed.json"
