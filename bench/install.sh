#!/bin/sh
# Times a fresh `composer install` of 100 packages with 100 files each, which are copied from a path repository, one where nothing
# has changed, and an `update` to a next version of each: the whole process, beside `cp -r` of the packages, a copy by python3
# with a sync of each file, `diff -rq` of the packages and their copies, and Composer's own commands, as they are, with a sync
# of each file behind them, and with a sync of each file when it is closed; then of twice as many packages, to see how the
# times grow.
# Usage: bench/install.sh, from anywhere, with the kit's `rt`, python3 and, if they are there, php, Composer and cc on the PATH.
# The program is built first, by bin/composer, unless PROGRAM names a built one. PACKAGES is the first number of packages (100),
# FILES the number of files of each (100). Files are made below $TMPDIR, so let it name the disk. Where MEASURE is set, it is a
# command that runs the measurements, as `chrt -f 10` does.
set -eu
top=$(cd "$(dirname "$0")/.." && pwd)
work=$(mktemp -d)
trap 'rm -rf "$work"' EXIT
cd "$work"
if [ -z "${PROGRAM:-}" ]; then
    "$top/bin/composer" files > /dev/null 2>&1 || [ $? -eq 14 ] || { echo 'the program is not built' >&2; exit 1; }
    PROGRAM=$top/out/bin/composer
fi
cat > times.py <<'PY'
# The milliseconds of installs in the project of the current folder, and of what stands beside them: the least of three rounds.
import os, shutil, subprocess, sys, time
program, packages, files, top = sys.argv[1:]
last = open('../last', 'w')

# The first part is not timed.
def least(name, before, timed):
    best = 1e9
    for _ in range(3):
        before()
        os.sync()
        start = time.time()
        timed()
        best = min(best, time.time() - start)
    print('%s ms %.0f' % (name, best * 1e3))
    print(name.replace(' ', '_'), '%.1f' % (best * 1e3), file=last)

def run(*words):
    subprocess.run(words, stdout=subprocess.DEVNULL, check=True)

def cleared(*names):
    def clear():
        for name in names:
            shutil.rmtree(name, ignore_errors=True)
    return clear

def nothing():
    pass

def synced(path):
    file = os.open(path, os.O_RDONLY)
    os.fsync(file)
    os.close(file)

def copy_synced(source, target):
    for folder, _, names in os.walk(source):
        made = os.path.join(target, os.path.relpath(folder, source))
        os.makedirs(made, exist_ok=True)
        for name in names:
            with open(os.path.join(folder, name), 'rb') as file, open(os.path.join(made, name), 'wb') as copy:
                copy.write(file.read())
                copy.flush()
                os.fsync(copy.fileno())

def all_synced():
    for folder, _, names in os.walk('vendor'):
        for name in names:
            synced(os.path.join(folder, name))

version = [0]
def next_version():
    version[0] += 1
    run('python3', top + '/bench/path_packages.py', packages, files, '1.%d.0' % version[0])

def measure(name, install, update, behind):
    cleared('vendor')()
    update()
    assert os.path.isfile('vendor/demo/p000/src/Version.php')
    least(name + ' fresh', cleared('vendor'), lambda: (install(), behind()))
    least(name + ' unchanged', nothing, lambda: (install(), behind()))
    least(name + ' update', next_version, lambda: (update(), behind()))

measure('ours', lambda: run(program, 'install'), lambda: run(program, 'update'), nothing)
least('diff -rq', nothing, lambda: subprocess.run(['diff', '-rq', 'packages', 'vendor/demo'], stdout=subprocess.DEVNULL, check=True))
least('cp -r', cleared('copy'), lambda: run('cp', '-r', 'packages', 'copy'))
least('copy with sync', cleared('copy'), lambda: copy_synced('packages', 'copy'))
if shutil.which('php') and shutil.which('composer'):
    os.remove('composer.lock')
    words = ['--no-plugins', '--no-scripts', '--no-interaction', '--quiet']
    for name, behind in (('Composer', nothing), ('Composer and syncs', all_synced)):
        measure(name, lambda: run('composer', 'install', *words), lambda: run('composer', 'update', *words), behind)
    if os.path.isfile('../synced_files.so'):
        preload = 'LD_PRELOAD=' + os.path.abspath('../synced_files.so')
        measure('Composer syncing', lambda: run('env', preload, 'composer', 'install', *words), lambda: run('env', preload, 'composer', 'update', *words), nothing)
PY
if command -v cc > /dev/null; then cc -O2 -shared -fPIC -o synced_files.so "$top/bench/synced_files.c" -ldl; fi
export COMPOSER_ALLOW_SUPERUSER=1 COMPOSER_MEMORY_LIMIT=-1
packages=${PACKAGES:-100}
files=${FILES:-100}
for count in "$packages" $((packages * 2)); do
    mkdir project
    (cd project && python3 "$top/bench/path_packages.py" "$count" "$files" && ${MEASURE:-} python3 ../times.py "$PROGRAM" "$count" "$files" "$top")
    rm -rf project
    cat last >> all
done
echo 'twice the packages take so many times as long:'
awk '$1 in once { printf "%s %.2f\n", $1, $2 / once[$1]; next } { once[$1] = $2 }' all
