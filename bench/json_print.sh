#!/bin/sh
# Times both printers of json_ordered and the content hash, beside PHP's json_encode and python3's json.dumps where
# they print the same form, and PHP's and python3's MD5, the value in memory, freeing included.
# Usage: bench/json_print.sh [build], with the kit's `rt`, python3 and, if there is one, php on the PATH.
. "$(dirname "$0")/head.sh"
print=$(program json_print 'json_ordered content_hash path_name' path_name json_ordered content_hash <<'RT'
// Reads JSON from standard input, and three times prints it in both forms and takes its content hash; writes the
// microseconds and the length of the text.
#![tactic(auto)]

ghost use Rattle.json_ordered.specs.JsonTree.{HasUtf8Texts};
ghost use Rattle.json_ordered.specs.Docs.{tree_of};

use content_hash::{content_hash, hashed_text};
use json_ordered::{Doc, print_hash_form, print_pretty, read};
use path_name::Text;
use std::alloc::AllocError;
use std::io;
use std::io::Read;
use std::time::Instant;

fn len(text: &Result<Text, AllocError>) -> usize {
    match text {
        Ok(text) => text.as_slice().len(),
        Err(_) => 0,
    }
}

fn rounds(rt: &HostRuntime, doc: &Doc) -> io::Result<()>
    requires { HasUtf8Texts (tree_of doc.now) }
{
    for _round in 0..3u8 {
        let start = Instant::now(rt)?;
        let text = print_pretty(rt.alloc(), doc);
        let size = len(&text);
        drop(text);
        let took = start.elapsed(rt)?.as_micros();
        println!(rt; "pretty {took} {size}")?;
        let start = Instant::now(rt)?;
        let text = print_hash_form(rt.alloc(), doc);
        let size = len(&text);
        drop(text);
        let took = start.elapsed(rt)?.as_micros();
        println!(rt; "compact {took} {size}")?;
        let size = len(&hashed_text(rt.alloc(), doc));
        let start = Instant::now(rt)?;
        let hash = content_hash(rt.alloc(), doc);
        let fine = hash.is_ok();
        let took = start.elapsed(rt)?.as_micros();
        println!(rt; "hash {took} {size} {fine}")?;
    }
    Ok(())
}

fn main(rt: HostRuntime) -> io::Result<()> {
    let mut bytes = Vec::new(rt.alloc());
    let mut input = rt.reader();
    input.read_to_end(&mut bytes)?;
    match read(rt.alloc(), &bytes) {
        Ok(doc) => rounds(&rt, &doc),
        Err(fault) => println!(rt; "{fault}"),
    }
}
RT
)
python3 "$top/bench/json_inputs.py" "$work"
if [ "${1:-}" = build ]; then exit 0; fi
cd "$work"
# What the two hash is the text of the whole value: a little more than the keys that count. A lock has none of these.
cat > by_python.py <<'PY'
import hashlib, json, sys, time
value = json.load(open(sys.argv[1], encoding='utf-8'))
forms = {
    'pretty': lambda: json.dumps(value, indent=4, ensure_ascii=False),
    'compact': lambda: json.dumps(value, separators=(',', ':')).replace('/', '\\/'),
    'hash': lambda: hashlib.md5(json.dumps(value, separators=(',', ':')).replace('/', '\\/').encode()).hexdigest(),
}
for form, printed in forms.items():
    for _ in range(3):
        start = time.time(); printed(); print(form, round((time.time() - start) * 1e6))
PY
cat > by_php.php <<'PHP'
<?php
$value = json_decode(file_get_contents($argv[1]));
$forms = [
    'pretty' => fn () => json_encode($value, JSON_PRETTY_PRINT | JSON_UNESCAPED_SLASHES | JSON_UNESCAPED_UNICODE),
    'compact' => fn () => json_encode($value),
    'hash' => fn () => md5(json_encode($value)),
];
foreach ($forms as $form => $printed) {
    for ($i = 0; $i < 3; $i++) {
        $start = microtime(true);
        $printed();
        echo $form, ' ', round((microtime(true) - $start) * 1e6), "\n";
    }
}
PHP
# Each is timed in three processes, by turns, since a machine may have other work at times: the least of nine counts.
echo "input form bytes print_us MB/s python_us python/ours php_us php/ours"
for input in lock lock_4096 manifest; do
    : > ours
    : > pythons
    : > phps
    for turn in 1 2 3; do
        "$print" < "$input" >> ours
        python3 by_python.py "$input" >> pythons
        if command -v php > /dev/null; then php -d memory_limit=-1 by_php.php "$input" >> phps; fi
    done
    for form in pretty compact hash; do
        case "$input $form" in lock*hash) continue ;; esac
        ours=$(grep "^$form " ours | least)
        size=$(grep "^$form " ours | head -1 | awk '{print $3}')
        python=$(grep "^$form " pythons | least)
        php=$(grep "^$form " phps | least)
        awk -v i="$input" -v f="$form" -v n="$size" -v o="$ours" -v p="$python" -v h="${php:-0}" 'BEGIN { printf "%s %s %d %d %d %d %.2f %d %.2f\n", i, f, n, o, n / (o + 0.001), p, p / (o + 0.001), h, h / (o + 0.001) }'
    done
done
