#!/bin/sh
# Times `composer check` of a project whose lock has 4,096 packages, the whole process, beside `cat` of the same two files,
# beside PHP, which decodes both, and beside `composer validate`, which holds the lock against composer.json too. Usage:
# bench/check.sh [PACKAGES], from anywhere, with the kit's `rt`, python3 and, if they are there, php and Composer on the
# PATH. The program is built first, by bin/composer, unless PROGRAM names a built one. Where MEASURE is set, it is a
# command that runs the measurements, as `nice -n -5` does.
set -eu
top=$(cd "$(dirname "$0")/.." && pwd)
work=$(mktemp -d)
trap 'rm -rf "$work"' EXIT
cd "$work"
if [ -z "${PROGRAM:-}" ]; then
    "$top/bin/composer" check > /dev/null 2>&1 || [ $? -eq 3 ] || { echo 'the program is not built' >&2; exit 1; }
    PROGRAM=$top/out/bin/composer
fi
python3 - "${1:-4096}" <<'PY'
import hashlib, json, sys
count = int(sys.argv[1])
def package(i):
    entry = {'name': 'demo/p%d' % i, 'version': '1.%d.0' % (i % 7), 'dist': {'type': 'path', 'url': 'packages/p%d' % i, 'reference': '%040x' % i}}
    entry['require'] = {'demo/p%d' % j: '^1.0' for j in (2 * i, 2 * i + 1) if j <= count} or {'php': '>=8.1'}
    entry['type'] = 'library'
    entry['autoload'] = {'psr-4': {'Demo\\P%d\\' % i: 'src/'}, 'files': ['src/functions.php']}
    return entry
manifest = {'name': 'demo/root', 'description': 'A root', 'license': 'MIT', 'require': {'php': '>=8.1', 'demo/p1': '^1.0'},
            'repositories': [{'type': 'path', 'url': 'packages/*'}]}
hashed = json.dumps({key: manifest[key] for key in sorted(manifest) if key in ('name', 'require', 'repositories')}, separators=(',', ':')).replace('/', '\\/')
lock = {'_readme': ['one', 'two'], 'content-hash': hashlib.md5(hashed.encode()).hexdigest(), 'packages': sorted(map(package, range(1, count + 1)), key=lambda e: e['name']),
        'packages-dev': [], 'aliases': [], 'minimum-stability': 'stable', 'stability-flags': {}, 'prefer-stable': False, 'prefer-lowest': False,
        'platform': {'php': '>=8.1'}, 'platform-dev': {}, 'plugin-api-version': '2.6.0'}
open('composer.json', 'w').write(json.dumps(manifest, indent=4) + '\n')
open('composer.lock', 'w').write(json.dumps(lock, indent=4) + '\n')
PY
[ "$("$PROGRAM" check)" = 'hash current
meets' ]
cat > times.py <<'PY'
import os, shutil, subprocess, sys, time
def best(words):
    least = 99
    for _ in range(7):
        start = time.time()
        subprocess.run(words, stdout=subprocess.DEVNULL, stderr=subprocess.DEVNULL, check=True)
        least = min(least, time.time() - start)
    return least * 1e3
print('bytes', os.path.getsize('composer.lock'))
print('check ms %.1f' % best([sys.argv[1], 'check']))
print('cat ms %.1f' % best(['cat', 'composer.json', 'composer.lock']))
php = shutil.which('php')
if php:
    print('php ms %.1f' % best([php, '-d', 'memory_limit=-1', '-r', 'json_decode(file_get_contents("composer.json"), true); json_decode(file_get_contents("composer.lock"), true);']))
composer = shutil.which('composer')
if php and composer:
    print('composer validate ms %.1f' % best([composer, 'validate', '--no-check-publish', '--no-interaction', '--no-plugins', '--quiet']))
PY
${MEASURE:-} python3 times.py "$PROGRAM"
