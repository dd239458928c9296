#!/bin/sh
# Holds `composer install` and `update` against Composer and PHP: the same project with three path packages is installed by both, in
# several modes, and updated to a next version of one package. The files of the packages must be the same, and the names, versions,
# urls and the content hash of the lock; PHP must load each class from the same file as with Composer's autoloader, which is
# the one that `composer lookup` names; and Composer must find nothing to do in the project that was installed here.
# Usage: bench/install_loads.sh, from anywhere, with the kit's `rt`, php and Composer on the PATH; it is skipped without the last
# two. The program is built first, by bin/composer, unless PROGRAM names a built one.
set -eu
top=$(cd "$(dirname "$0")/.." && pwd)
. "$top/bench/loads.sh"
cat > locked.php <<'PHP'
<?php
// What a lock says of its packages.
$lock = json_decode(file_get_contents('composer.lock'), true);
echo $lock['content-hash'], ' ', $lock['minimum-stability'], ' ', json_encode([$lock['stability-flags'], $lock['prefer-stable'], $lock['platform']]), "\n";
foreach (['packages', 'packages-dev'] as $list) {
    foreach ($lock[$list] as $package) {
        echo $list, ' ', $package['name'], ' ', $package['version'], ' ', $package['dist']['url'], "\n";
    }
}
PHP
# What one of the two has made of the project in the current folder. Usage: told NAMES..
told() {
    php locked.php
    (cd vendor && find . -path ./composer -prune -o -type f ! -path ./autoload.php -print | LC_ALL=C sort | xargs sha256sum)
    php loads.php "$@"
}
bad=0
# Says that two files differ. Usage: same FILE OTHER WORDS..
same() {
    if ! diff "$1" "$2" > different; then
        bad=$((bad + 1))
        shift 2
        echo "$*"
        cat different
    fi
}
mkdir ours theirs
for folder in ours theirs; do cp -r packages src tests composer.json loads.php locked.php "$folder"; done
for words in install 'install --no-dev' 'install -o' 'install -a' update 'install --no-dev -a'; do
    if [ "$words" = update ]; then
        for folder in ours theirs; do
            sed -i 's/1\.0\.3/1.1.0/' "$folder/packages/text/composer.json"
            printf '<?php\nnamespace Acme\\Text\\More;\nclass One { const NEW = 1; }\n' > "$folder/packages/text/src/One.php"
        done
    fi
    (cd theirs && composer $words --no-interaction --quiet && told "$@" > ../composers)
    (cd ours && "$PROGRAM" $words > ../lines || { echo "$words: status $?"; exit 1; })
    (cd ours && told "$@" > ../told && php loads.php "$@" > ../loaded && looked_up "$@" > ../looked)
    same composers told "$words: Composer's (<) and ours (>) differ:"
    same looked loaded "$words: lookup (<) and PHP (>) differ:"
    dev=
    case $words in *--no-dev*) dev=--no-dev ;; esac
    (cd ours && composer validate --no-check-publish --no-interaction 2>&1 | grep -i 'lock file' > ../said || true)
    (cd ours && composer install --dry-run $dev --no-interaction 2>&1 | grep '^  - ' >> ../said || true)
    same said /dev/null "$words: Composer says (<) of what was installed here:"
    echo "$words: $(tr '\n' ' ' < lines)$(grep -vc -- '-$' loaded) of $(wc -l < loaded) files loaded"
done
exit $((bad > 0))
