#!/bin/sh
# Times `composer dump-autoload -o` over a project of many PHP files, the whole process, beside `cat` of the same files and,
# where it is installed, Composer's own; and over twice as many files. Usage: bench/dump.sh [FILES], from anywhere, with the
# kit's `rt`, python3 and, if they are there, php and composer on the PATH. FILES is 10,000 where it is not given, with
# 4,300 bytes each. The program is built first, by bin/composer, unless PROGRAM names a built one. Where MEASURE is set, it is a
# command that runs the measurements, as `nice -n -5` does.
set -eu
top=$(cd "$(dirname "$0")/.." && pwd)
work=$(mktemp -d)
trap 'rm -rf "$work"' EXIT
cd "$work"
if [ -z "${PROGRAM:-}" ]; then
    "$top/bin/composer" files > /dev/null 2>&1 || [ $? -eq 14 ] || { echo 'the program is not built' >&2; exit 1; }
    PROGRAM=$top/out/bin/composer
fi
cat > project.py <<'PY'
# Makes a project of so many PHP files with a class each, 100 in a folder, of about 4,300 bytes.
import os, sys
at, count = sys.argv[1], int(sys.argv[2])
method = '''
    /**
     * Gives the number %d, and says "class Nothing" and 'interface Nowhere' on the way.
     */
    public function number%d(array $given = [], ?string $text = null): int
    {
        // class Comment {}
        $text = $text ?? "no {$given[0]} class";
        return strlen($text) + count($given) + %d;
    }
'''
body = ''.join(method % (n, n, n) for n in range(12))
os.makedirs(at)
with open(at + '/composer.json', 'w') as manifest:
    manifest.write('{"name": "bench/dump", "autoload": {"psr-4": {"Bench\\\\": "src/"}}}')
for i in range(count):
    folder = '%s/src/Part%04d' % (at, i // 100)
    os.makedirs(folder, exist_ok=True)
    text = '<?php\n\ndeclare(strict_types=1);\n\nnamespace Bench\\Part%04d;\n\nfinal class Thing%06d implements \\Countable\n{\n' % (i // 100, i)
    text += body + '\n    public function count(): int\n    {\n        return %d;\n    }\n}\n' % i
    with open('%s/Thing%06d.php' % (folder, i), 'w') as file:
        file.write(text + '// ' + '-' * max(0, 4300 - len(text) - 4) + '\n')
PY
cat > times.py <<'PY'
import subprocess, sys, time
program, files, theirs = sys.argv[1], int(sys.argv[2]), sys.argv[3:]
def best(words, at, rounds):
    least = 999
    for _ in range(rounds):
        start = time.time()
        subprocess.run(words, cwd=at, stdout=subprocess.DEVNULL, stderr=subprocess.DEVNULL, check=True)
        least = min(least, time.time() - start)
    return least * 1e3
cat = ['sh', '-c', "find src -name '*.php' -print0 | xargs -0 cat > /dev/null"]
ours, read = best([program, 'dump-autoload', '-o'], 'one', 5), best(cat, 'one', 5)
twice = best([program, 'dump-autoload', '-o'], 'two', 5)
print('%d files: dump-autoload -o %.1f ms, find and xargs cat %.1f ms, ours / cat %.2f' % (files, ours, read, ours / read))
print('%d files: %.1f ms, growth %.2f' % (2 * files, twice, twice / ours))
if theirs:
    composer = best(theirs + ['dump-autoload', '-o', '--no-interaction', '--no-plugins'], 'theirs', 2)
    print("Composer's dump-autoload -o %.1f ms, theirs / ours %.1f" % (composer, composer / ours))
PY
files=${1:-10000}
python3 project.py one "$files"
python3 project.py two $((2 * files))
[ "$(cd one && "$PROGRAM" dump-autoload -o)" = "classes $files
generation 1" ]
theirs=$(command -v composer || true)
[ -z "$theirs" ] || cp -r one theirs
sync
COMPOSER_ALLOW_SUPERUSER=1 ${MEASURE:-} python3 times.py "$PROGRAM" "$files" $theirs
