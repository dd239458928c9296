#!/bin/sh
# Holds `composer check` against Composer itself: makes a project with path repositories, lets Composer lock it, changes its
# composer.json in many ways, and compares what `composer validate` of Composer says of the lock: whether it is up to date
# with composer.json, and whether what the root requires is in it.
# Usage: bench/check_agrees.sh, from anywhere, with the kit's `rt`, python3, php and Composer on the PATH. The program is
# built first, by bin/composer, unless PROGRAM names a built one.
set -eu
top=$(cd "$(dirname "$0")/.." && pwd)
work=$(mktemp -d)
trap 'rm -rf "$work"' EXIT
cd "$work"
if [ -z "${PROGRAM:-}" ]; then
    "$top/bin/composer" check > /dev/null 2>&1 || [ $? -eq 3 ] || { echo 'the program is not built' >&2; exit 1; }
    PROGRAM=$top/out/bin/composer
fi
mkdir -p packages/clock packages/log packages/tool
cat > packages/clock/composer.json <<'JSON'
{"name": "acme/clock", "version": "2.0.1"}
JSON
cat > packages/log/composer.json <<'JSON'
{"name": "acme/log", "version": "1.2.5", "require": {"acme/clock": "^2.0"}, "replace": {"acme/writer": "1.0"}}
JSON
cat > packages/tool/composer.json <<'JSON'
{"name": "acme/tool", "version": "0.3.1-beta2"}
JSON
cat > composer.json <<'JSON'
{"name": "shop/site", "require": {"php": ">=8.1", "acme/log": "^1.2"}, "require-dev": {"acme/tool": "^0.3@beta"},
 "repositories": [{"type": "path", "url": "packages/*"}, {"packagist.org": false}]}
JSON
composer update --no-interaction --no-plugins --quiet
cat > compare.py <<'PY'
import copy, json, subprocess, sys
program = sys.argv[1]
root = json.load(open('composer.json'))
changes = {
    'as locked': 'pass',
    'a description': "d['description'] = 'x'",
    'autoload rules': "d['autoload'] = {'psr-4': {'A\\\\': 'a'}}",
    'keys in another order': "d = dict(reversed(list(d.items())))",
    'inner keys in another order': "d['require'] = dict(reversed(list(d['require'].items())))",
    'another name': "d['name'] = 'shop/other'",
    'a version': "d['version'] = '3.0.0'",
    'a lower constraint': "d['require']['acme/log'] = '^1.0'",
    'a higher constraint': "d['require']['acme/log'] = '^2.0'",
    'a constraint to the exact version': "d['require']['acme/log'] = '1.2.5'",
    'a requirement more': "d['require']['acme/mail'] = '*'",
    'a requirement on what is locked': "d['require']['acme/clock'] = '^2.0'",
    'a requirement on what is locked, too high': "d['require']['acme/clock'] = '>2.0.1'",
    'a requirement on what is replaced': "d['require']['acme/writer'] = '^1.0'",
    'a requirement on what is replaced, too high': "d['require']['acme/writer'] = '^2.0'",
    'no requirements': "d['require'] = {}",
    'nothing for development': "del d['require-dev']",
    'a stable one for development': "d['require-dev']['acme/tool'] = '^1.0'",
    'more for development': "d['require-dev']['acme/test'] = '*'",
    'a stability': "d['minimum-stability'] = 'dev'",
    'stable preferred': "d['prefer-stable'] = True",
    'an extra': "d['extra'] = {'a': {'b': []}, 'c': 'e\\u00e9/'}",
    'a platform': "d['config'] = {'platform': {'php': '8.1.2'}}",
    'another setting': "d['config'] = {'sort-packages': True}",
    'another repository': "d['repositories'].append({'type': 'path', 'url': 'more/*'})",
    'something provided': "d['provide'] = {'acme/cache': '1.0'}",
}
# `composer validate` does not look at stabilities, nor at what packages require: here the lock's package of a lower stability
# is no longer asked for.
told_here = {'nothing for development'}
bad = 0
for name, code in changes.items():
    space = {'d': copy.deepcopy(root)}
    exec(code, space)
    json.dump(space['d'], open('composer.json', 'w'), indent=4)
    theirs = subprocess.run(['composer', 'validate', '--no-check-publish', '--no-interaction', '--no-plugins'], capture_output=True, text=True)
    text = theirs.stdout + theirs.stderr
    wanted = ['hash stale' if 'not up to date' in text else 'hash current',
              'breaks' if name in told_here or 'is not present in the lock file' in text or 'does not satisfy your constraint' in text else 'meets']
    ours = subprocess.run([program, 'check'], capture_output=True, text=True)
    given = [line.split(' unmet')[0].split(' not allowed')[0] for line in ours.stdout.splitlines()]
    if given != wanted or ours.returncode != (1 if wanted[1] == 'breaks' else 0):
        bad += 1
        print('%s: %s, and Composer %s' % (name, ours.stdout.splitlines() + [ours.stderr], wanted))
print('%d compared, %d differ' % (len(changes), bad))
sys.exit(bad > 0)
PY
python3 compare.py "$PROGRAM"
