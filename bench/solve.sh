#!/bin/sh
# Times the solver: a chain of 4,096 packages of which each requires the next one, 4,096 packages that the root requires, each
# in four versions, and pigeons of which each takes one of a number of holes, in one hole less than there are pigeons (there
# is no plan, and every way to put them is tried) and in as many.
# Usage: bench/solve.sh [build], with the kit's `rt` on the PATH.
. "$(dirname "$0")/head.sh"
solve=$(program solve_times 'plan_solve pkg_pool manifest_read json_ordered path_name' path_name version_norm constraint_set json_ordered content_hash tree_dev manifest_read pkg_pool plan_rules plan_solve <<'RT'
// Makes pools of packages and three times solves each; writes the microseconds and how many members the plan has.
#![tactic(auto)]

use manifest_read::{Manifest, Package, Role, from_doc};
use path_name::{FolderRef, Items, Path, Text};
use pkg_pool::{Candidate, Pool};
use plan_solve::{Answer, solve};
use std::alloc::Global;
use std::io;
use std::time::Instant;

fn manifest(alloc: Global, text: &str, role: Role) -> Option<Manifest> {
    let doc = json_ordered::read(alloc, text.as_bytes()).ok()?;
    from_doc(alloc, &doc, role).ok()
}

fn package_of(manifest: Manifest) -> Package {
    manifest.package
}

fn candidate(alloc: Global, text: &str) -> Option<Candidate> {
    let url = FolderRef::read(alloc, b"p").ok()?;
    let manifest = manifest(alloc, text, Role::Member)?;
    Some(Candidate {
        package: package_of(manifest),
        repository: 0,
        url,
        folder: Path::root(alloc),
        reference: Text::empty(alloc),
    })
}

// A root that requires packages of so many numbers.
fn root(alloc: Global, count: u32) -> Option<Manifest> {
    let mut text = format!(in alloc; "{{\"require\":{{\"c/c0\":\"*\"").ok()?;
    for number in 1..count {
        let link = format!(in alloc; ",\"c/c{number}\":\"*\"").ok()?;
        text.push_str(link.as_str()).ok()?;
    }
    text.push_str("}}").ok()?;
    manifest(alloc, text.as_str(), Role::Root)
}

fn pool(root: Manifest, candidates: Vec<Candidate>) -> Pool {
    let candidates = Items::of(candidates);
    Pool { root, candidates }
}

// Each package requires the next one.
fn chain(alloc: Global, count: u32) -> Option<Pool> {
    let mut candidates = Vec::new(alloc);
    for number in 1..count {
        let before = number.saturating_sub(1);
        let text = format!(in alloc; "{{\"name\":\"c/c{before}\",\"version\":\"1.0.0\",\"require\":{{\"c/c{number}\":\"^1.0\"}}}}").ok()?;
        candidates.push(candidate(alloc, text.as_str())?).ok()?;
    }
    let last = count.saturating_sub(1);
    let text = format!(in alloc; "{{\"name\":\"c/c{last}\",\"version\":\"1.0.0\"}}").ok()?;
    candidates.push(candidate(alloc, text.as_str())?).ok()?;
    Some(pool(root(alloc, 1)?, candidates))
}

// Packages in four versions each, all required by the root.
fn wide(alloc: Global, count: u32) -> Option<Pool> {
    let mut candidates = Vec::new(alloc);
    for number in 0..count {
        for version in 1u32..5 {
            let text = format!(in alloc; "{{\"name\":\"c/c{number}\",\"version\":\"{version}.0.0\"}}").ok()?;
            candidates.push(candidate(alloc, text.as_str())?).ok()?;
        }
    }
    Some(pool(root(alloc, count)?, candidates))
}

// Each package takes one of some names, one in each version.
fn pigeons(alloc: Global, count: u32, holes: u32) -> Option<Pool> {
    let mut candidates = Vec::new(alloc);
    for number in 0..count {
        for hole in 0..holes {
            let text = format!(in alloc; "{{\"name\":\"c/c{number}\",\"version\":\"{hole}.0.0\",\"replace\":{{\"h/h{hole}\":\"1.0\"}}}}").ok()?;
            candidates.push(candidate(alloc, text.as_str())?).ok()?;
        }
    }
    Some(pool(root(alloc, count)?, candidates))
}

fn members(alloc: Global, pool: &Pool) -> usize {
    match solve(alloc, pool) {
        Ok(Answer::Plan(selection)) => selection.members.as_slice().len(),
        Ok(Answer::NoPlan) => 0,
        Err(_) => 0,
    }
}

fn times(rt: &HostRuntime, name: &str, pool: Option<Pool>) -> io::Result<()> {
    let Some(pool) = pool else {
        return println!(rt; "{name} isn't made");
    };
    for _round in 0..3u8 {
        let start = Instant::now(rt)?;
        let count = members(rt.alloc(), &pool);
        let took = start.elapsed(rt)?.as_micros();
        println!(rt; "{name} {took} {count}")?;
    }
    Ok(())
}

fn main(rt: HostRuntime) -> io::Result<()> {
    times(&rt, "chain_1024", chain(rt.alloc(), 1024))?;
    times(&rt, "chain_4096", chain(rt.alloc(), 4096))?;
    times(&rt, "wide_1024", wide(rt.alloc(), 1024))?;
    times(&rt, "wide_4096", wide(rt.alloc(), 4096))?;
    times(&rt, "pigeons_6_in_5", pigeons(rt.alloc(), 6, 5))?;
    times(&rt, "pigeons_7_in_6", pigeons(rt.alloc(), 7, 6))?;
    times(&rt, "pigeons_8_in_7", pigeons(rt.alloc(), 8, 7))?;
    times(&rt, "pigeons_6_in_6", pigeons(rt.alloc(), 6, 6))
}
RT
)
if [ "${1:-}" = build ]; then exit 0; fi
: > "$work/ours"
for turn in 1 2 3; do
    "$solve" >> "$work/ours"
done
echo "pool us members"
for part in chain_1024 chain_4096 wide_1024 wide_4096 pigeons_6_in_5 pigeons_7_in_6 pigeons_8_in_7 pigeons_6_in_6; do
    members=$(grep "^$part " "$work/ours" | head -1 | awk '{print $3}')
    echo "$part $(grep "^$part " "$work/ours" | least) $members"
done
