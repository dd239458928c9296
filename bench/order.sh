#!/bin/sh
# Times psr_routes::package_order and routes on lists of packages: ordinary ones, and ones that were made to be slow,
# beside python3's graphlib on those without circles.
# Usage: bench/order.sh, from anywhere, with the kit's `rt` and python3 on the PATH.
# Where MEASURE is set, it is a command that runs each measurement, as `nice -n -5` does.
set -eu
top=$(cd "$(dirname "$0")/.." && pwd)
work=$(mktemp -d)
trap 'rm -rf "$work"' EXIT
crates='path_name version_norm constraint_set json_ordered manifest_read class_paths psr_routes'
mkdir -p "$work/repo/crates/order_bench/src"
for crate in $crates; do cp -r "$top/crates/$crate" "$work/repo/crates/"; done
for crate in $crates; do grep "^$crate:" "$top/crates.txt"; done > "$work/repo/crates.txt"
echo 'order_bench: psr_routes manifest_read json_ordered path_name' >> "$work/repo/crates.txt"
cat > "$work/repo/crates/order_bench/src/main.rt" <<'RT'
// Reads a list of packages from standard input, orders them and lists their rows three times, and prints the
// microseconds of the order and of the rows each time.
#![tactic(auto)]

use json_ordered::Doc;
use manifest_read::{Manifest, Role};
use path_name::Path;
use psr_routes::{Placed, package_order, routes};
use std::alloc::Global;
use std::io;
use std::io::Read;
use std::time::Instant;

fn placed(alloc: Global, doc: &Doc) -> Option<Placed> {
    let manifest = manifest_read::from_doc(alloc, doc, Role::Member).ok()?;
    Some(Placed {
        package: manifest.package,
        at: Path::root(alloc),
        shown: Path::root(alloc),
        mirrored: false,
    })
}

fn members(alloc: Global, bytes: &[u8]) -> Option<Vec<Placed>> {
    let mut members = Vec::new(alloc);
    match json_ordered::read(alloc, bytes) {
        Ok(Doc::List(docs)) => {
            for doc in &docs {
                members.push(placed(alloc, doc)?).ok()?;
            }
        }
        _ => return None,
    }
    Some(members)
}

fn root(alloc: Global) -> Option<Manifest> {
    let doc = json_ordered::read(alloc, b"{}").ok()?;
    manifest_read::from_doc(alloc, &doc, Role::Root).ok()
}

fn main(rt: HostRuntime) -> io::Result<()> {
    let mut bytes = Vec::new(rt.alloc());
    let mut input = rt.reader();
    input.read_to_end(&mut bytes)?;
    let Some(members) = members(rt.alloc(), bytes.as_slice()) else {
        println!(rt; "no packages")?;
        return Ok(());
    };
    let Some(root) = root(rt.alloc()) else {
        return Ok(());
    };
    if members.len() > 1_000_000 {
        return Ok(());
    }
    let project = Path::root(rt.alloc());
    for _round in 0..3u8 {
        let start = Instant::now(&rt)?;
        let order = package_order(rt.alloc(), members.as_slice());
        let took = start.elapsed(&rt)?.as_micros();
        let start = Instant::now(&rt)?;
        let rows = routes(rt.alloc(), &project, &root, members.as_slice(), true);
        let more = start.elapsed(&rt)?.as_micros();
        println!(rt; "{took} {more} {} {}", order.is_ok(), rows.is_ok())?;
    }
    Ok(())
}
RT
(cd "$work/repo" && git init -q . && cd crates/order_bench && rt run < /dev/null > "$work/build.log" 2>&1) || { tail "$work/build.log"; exit 1; }
cd "$work"
python3 - <<'PY'
import json, random
random.seed(7)
def write(name, packages):
    open(name, 'w').write(json.dumps([{'name': n, 'require': {r: '*' for r in needs},
        'autoload': {'psr-4': {'P%d\\' % i: 'src', 'P%d\\T\\' % i: ['a', 'b']}}} for i, (n, needs) in enumerate(packages)]))
names = ['v%d/p%d' % (i % 97, i) for i in range(4096)]
write('4096_with_50000', [(n, random.sample(names[:i], min(i, 12)) if i else []) for i, n in enumerate(names)])
write('4096_in_any_order', [(n, random.sample(names, 12)) for n in names])
write('chain_4096', [(n, names[i + 1:i + 2]) for i, n in enumerate(names)])
write('circle_4096', [(n, [names[(i + 1) % 4096]]) for i, n in enumerate(names)])
write('one_name_2048_required_by_2048', [('a/a', []) for _ in range(2048)] + [('b/b%d' % i, ['a/a']) for i in range(2048)])
write('one_name_4096_requires_itself', [('a/a', ['a/a']) for _ in range(4096)])
write('one_with_50000', [('a/a', ['b/b%d' % i for i in range(50000)])] + [('b/b%d' % i, []) for i in range(4095)])
PY
cat > graph.py <<'PY'
# the microseconds of graphlib's order of the packages in a file, the best of three, or - where they go round in a circle
import graphlib, json, sys, time
packages = json.load(open(sys.argv[1]))
names = {p['name'] for p in packages}
best = None
try:
    for _ in range(3):
        start = time.perf_counter()
        order = graphlib.TopologicalSorter()
        for p in packages:
            order.add(p['name'], *[r for r in p['require'] if r in names and r != p['name']])
        list(order.static_order())
        took = time.perf_counter() - start
        best = took if best is None else min(best, took)
    print(int(best * 1e6))
except graphlib.CycleError:
    print('-')
PY
echo 'input packages links order_us graphlib_us rows_us'
for input in 4096_with_50000 4096_in_any_order chain_4096 circle_4096 one_name_2048_required_by_2048 one_name_4096_requires_itself one_with_50000; do
    ${MEASURE:-} "$work/repo/crates/order_bench/out/order_bench" < "$input" > took
    graph=$(${MEASURE:-} python3 graph.py "$input")
    python3 - "$input" "$graph" <<'PY'
import json, sys
packages = json.load(open(sys.argv[1]))
rounds = [line.split() for line in open('took')]
print(sys.argv[1], len(packages), sum(len(p['require']) for p in packages), min(int(r[0]) for r in rounds), sys.argv[2], min(int(r[1]) for r in rounds))
PY
done
