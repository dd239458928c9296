# Steps that the examples share. An example sets `project`, the folder that is copied, and calls them in turn.
# PROGRAM names the program, without it bin/composer of this repository. Composer itself is looked for on the PATH.

program=${PROGRAM:-$(CDPATH= cd -- "$(dirname -- "$0")/../.." && pwd -P)/bin/composer}

fail() {
    echo "example: $*" >&2
    exit 1
}

# A copy of a project in a folder of its own, which is removed at the end.
begin() {
    work=$(mktemp -d)
    trap 'rm -rf "$work"' EXIT
    cp -R "$1/." "$work"
    cd "$work"
}

# Runs the program with these words, and shows it.
run() {
    echo "\$ composer $*"
    "$program" "$@"
}

# The class behind the word opens this file.
opens() {
    found=$("$program" $1 lookup "$2")
    [ "$found" = "$3" ] || fail "$2 opens $found in place of $3"
    echo "$2 opens $3"
}

# All that is in the lock and in vendor of a project's folder.
state() {
    (cd "$1" && find composer.lock vendor -type f | LC_ALL=C sort | xargs -d '\n' sha256sum | sha256sum)
}

# Kills an update of the project in $1 after more and more time, and ends it by `recover`: each time the project is
# the one of before the update, or that of behind it.
kill_updates() {
    old=$(state "$1")
    cp -R "$work" "$work.old"
    "$program" -d "$1" update > /dev/null
    new=$(state "$1")
    [ "$old" != "$new" ] || fail "the update changes nothing"
    stopped=0
    for time in 0.004 0.005 0.006 0.007 0.008 0.009 0.010 0.011 0.012 0.013 0.014 0.015 0.016 0.018 0.020 0.025 0.030; do
        rm -rf "$work/$1/vendor" "$work/$1/composer.lock" "$work/$1/.install"
        cp -R "$work.old/$1/vendor" "$work.old/$1/composer.lock" "$work/$1/"
        timeout -s KILL "$time" "$program" -d "$1" update > /dev/null 2>&1 || true
        if [ -e "$1/.install" ]; then stopped=$((stopped + 1)); fi
        "$program" -d "$1" recover > /dev/null
        now=$(state "$1")
        [ "$now" = "$old" ] || [ "$now" = "$new" ] || fail "killed after $time s, the project is neither old nor new"
    done
    rm -rf "$work.old"
    echo "17 updates were killed, $stopped of them while they wrote: the project was the old or the new one each time"
}

# Where PHP is there: each of these classes is loaded from the file that `lookup` names.
loads() {
    folder=$1
    shift
    command -v php > /dev/null || { echo "PHP is not there: classes are not loaded"; return 0; }
    for class in "$@"; do
        wanted=$(realpath "$("$program" -d "$folder" lookup "$class")")
        found=$(php -r 'require $argv[1] . "/vendor/autoload.php"; echo (new ReflectionClass($argv[2]))->getFileName();' "$folder" "$class")
        [ "$found" = "$wanted" ] || fail "PHP loads $class from $found, and lookup names $wanted"
    done
    echo "PHP loads each of $# classes from the file that lookup names"
}

# Where Composer is there: it takes the lock for that of composer.json.
validates() {
    if ! composer --version 2> /dev/null | grep -q 'Composer version'; then
        echo "Composer is not there: the lock is not validated"
        return 0
    fi
    said=$(COMPOSER_ALLOW_SUPERUSER=1 composer validate --no-check-publish --no-interaction -d "$1" 2>&1) || [ $? = 1 ] || fail "$said"
    case $said in *'not up to date'*) fail "$said" ;; esac
    echo "Composer takes the lock for that of composer.json"
}
