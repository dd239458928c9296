#!/bin/sh
# Times pkg_pool::load of a project whose path repository has many packages: each name in 512 versions, and each folder's
# composer.json read; beside `find` and `xargs cat` over the same files, PHP's json_decode of each, and Composer's own
# PathRepository.
# Usage: bench/pool.sh [build], with the kit's `rt` and python3 on the PATH and, for the last two, php and Debian's composer.
# PACKAGES is how many packages there are at most (4,096, which is the limit of a pool); a half and a quarter of them are
# taken too.
. "$(dirname "$0")/head.sh"
pool=$(program pool_times 'pkg_pool manifest_read json_ordered tree_std tree_dev path_name' path_name tree_dev tree_std version_norm constraint_set json_ordered content_hash manifest_read pkg_pool <<'RT'
// Loads the pool of a project with the path repository `packages/*` five times, and prints the microseconds of each load,
// and how many candidates there are.
#![tactic(auto)]

ghost use Rattle.std.specs.Prelude.{IfSome};
ghost use Rattle.manifest_read.specs.WellFormed.{IsManifest};
ghost use Rattle.manifest_read.specs.declared.types.Role.TheVariants.{Root};

use manifest_read::{Manifest, Role, from_doc};
use path_name::Path;
use pkg_pool::{load, manifests_have_paths};
use std::alloc::Global;
use std::io;
use std::rt::Clock;
use std::time::Instant;
use tree_dev::{Entries, Tree};
use tree_std::FolderTree;

const ROOT: &[u8] = b"{\"repositories\":[{\"type\":\"path\",\"url\":\"packages/*\"}]}";

fn root_of(alloc: Global) -> Option<Manifest>
    ensures { IfSome result (λ manifest. IsManifest Root manifest) }
{
    let doc = json_ordered::read(alloc, ROOT).ok()?;
    from_doc(alloc, &doc, Role::Root).ok()
}

// How many candidates there are. None: the pool is refused.
fn candidates<T: Tree>(alloc: Global, tree: &mut T) -> Option<usize> {
    let root = root_of(alloc)?;
    manifests_have_paths(&root);
    let project = Path::root(alloc);
    let mut left = Entries { left: 1_000_000 };
    let pool = load(alloc, tree, &project, root, &mut left).ok()?;
    Some(pool.candidates.as_slice().len())
}

fn run<T: Tree>(rt: &(impl Clock + Print), alloc: Global, tree: &mut T) -> io::Result<()> {
    let start = Instant::now(rt)?;
    let count = candidates(alloc, tree);
    let took = start.elapsed(rt)?.as_micros();
    match count {
        Some(count) => println!(rt; "{took} {count}"),
        None => println!(rt; "refused"),
    }
}

fn main(rt: HostRuntime) -> io::Result<()> {
    for _round in 0..5u8 {
        run(&rt, rt.alloc(), &mut FolderTree::new(&rt))?;
    }
    Ok(())
}
RT
)
if [ "${1:-}" = build ]; then exit 0; fi
cd "$work"
cat > make.py <<'PY'
# Makes so many packages of 512 versions a name below `packages`, each with some requirements and autoload rules.
import json, os, shutil, sys
shutil.rmtree('packages', ignore_errors=True)
for i in range(int(sys.argv[1])):
    name, version = i // 512, i % 512
    os.makedirs('packages/p%05d' % i)
    package = {'name': 'acme/name%d' % name, 'version': '%d.%d.%d' % (version // 64, version // 8 % 8, version % 8),
        'description': 'One of many packages, described in a line as packages are.',
        'require': {'php': '>=8.1', **{'acme/name%d' % other: '^%d.0 || ~%d.2' % (version // 64, version % 8) for other in range(8) if other != name}},
        'autoload': {'psr-4': {'Acme\\Name%d\\' % name: 'src/'}, 'files': ['boot.php']}}
    json.dump(package, open('packages/p%05d/composer.json' % i, 'w'), indent=4)
os.sync()
PY
cat > others.py <<'PY'
import subprocess, time
best = 99
for _ in range(5):
    start = time.time(); subprocess.run(['sh', '-c', "find packages -name composer.json -print0 | xargs -0 cat > /dev/null"], check=True); best = min(best, time.time() - start)
print(round(best * 1e6))
PY
cat > read.php <<'PHP'
<?php
// The least microseconds of three rounds: json_decode of each composer.json, and Composer's PathRepository, where it is
// there, with the number of its packages.
$best = [INF, INF];
for ($round = 0; $round < 3; $round++) {
    $start = hrtime(true);
    foreach (glob('packages/*/composer.json') as $file) { json_decode(file_get_contents($file), true); }
    $best[0] = min($best[0], hrtime(true) - $start);
}
$composer = '/usr/share/php/Composer/autoload.php';
$count = 0;
if (is_file($composer)) {
    require $composer;
    for ($round = 0; $round < 3; $round++) {
        $start = hrtime(true);
        $repository = new Composer\Repository\PathRepository(['url' => 'packages/*'], new Composer\IO\NullIO(), new Composer\Config());
        $count = count($repository->getPackages());
        $best[1] = min($best[1], hrtime(true) - $start);
    }
}
echo round($best[0] / 1000), ' ', $best[1] === INF ? '-' : round($best[1] / 1000), ' ', $count;
PHP
most=${PACKAGES:-4096}
echo 'packages bytes ours_us cat_us json_decode_us composer_us composer_packages'
for count in $((most / 4)) $((most / 2)) "$most"; do
    python3 make.py "$count"
    ours=$("$pool" | awk -v wanted="$count" '
        $2 != wanted { print "refused, or not all are there"; exit 1 }
        NR == 1 || $1 < least { least = $1 } END { print least }')
    php=$(command -v php > /dev/null && php -d memory_limit=-1 read.php || echo '- - -')
    echo "$count $(cat packages/*/composer.json | wc -c) $ours $(python3 others.py) $php"
done
