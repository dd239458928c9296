#!/bin/sh
# Times FolderTree's list, read and write over 10,000 files beside find, cat and a copy with fsync per file.
# Usage: bench/files.sh [build], with the kit's `rt` and python3 on the PATH. FOLDERS is the number of folders of 100 files each
# (100). Files are made below $TMPDIR, or below BENCH_FOLDER, so let it name the disk.
. "$(dirname "$0")/head.sh"
files=$(program files_times 'path_name tree_dev tree_std' path_name tree_dev tree_std <<'RT'
// Lists and reads the files two folders below `tree`, writes them below `copy`, and prints the microseconds
// of each.
#![tactic(auto)]

use path_name::{Path, Text};
use std::alloc::Global;
use std::io;
use std::io::ErrorKind;
use std::rt::Clock;
use std::time::Instant;
use tree_dev::{Did, FILE_BYTES, ListAnswer, ReadAnswer, Tree};
use tree_std::FolderTree;

fn failed() -> io::Error {
    io::Error::from(ErrorKind::Other)
}

fn path(alloc: Global, text: &[u8]) -> io::Result<Path> {
    Path::read(alloc, text).map_err(|_| failed())
}

// The paths of a folder's entries.
fn entries<T: Tree>(alloc: Global, tree: &mut T, folder: &Path) -> io::Result<Vec<Path>> {
    let Ok(ListAnswer::Names(names)) = tree.list(alloc, folder, u32::MAX) else {
        return Err(failed());
    };
    let mut paths = Vec::new(alloc);
    for name in names.as_slice() {
        let entry = folder.follow(alloc, name.as_slice()).map_err(|_| failed())?;
        paths.push(entry)?;
    }
    Ok(paths)
}

fn add_all(paths: &mut Vec<Path>, more: Vec<Path>) -> io::Result<()> {
    for entry in more {
        paths.push(entry)?;
    }
    Ok(())
}

fn files<T: Tree>(alloc: Global, tree: &mut T, root: &Path) -> io::Result<Vec<Path>> {
    let mut all = Vec::new(alloc);
    for folder in entries(alloc, tree, root)?.as_slice() {
        let more = entries(alloc, tree, folder)?;
        add_all(&mut all, more)?;
    }
    Ok(all)
}

fn contents<T: Tree>(alloc: Global, tree: &mut T, paths: &[Path]) -> io::Result<Vec<Text>> {
    let mut texts = Vec::new(alloc);
    for at in paths {
        let Ok(ReadAnswer::Bytes(text)) = tree.read(alloc, at, FILE_BYTES) else {
            return Err(failed());
        };
        texts.push(text)?;
    }
    Ok(texts)
}

// A path below `tree`, seen below another folder.
fn below(alloc: Global, at: &Path, tree: &Path, copy: &Path) -> io::Result<Path> {
    match at.below(tree) {
        None => Err(failed()),
        Some(rest) => copy.follow(alloc, rest).map_err(|_| failed()),
    }
}

fn make_folders<T: Tree>(alloc: Global, tree: &mut T, root: &Path, copy: &Path) -> io::Result<()> {
    tree.make_dir(copy).map_err(|_| failed())?;
    for folder in entries(alloc, tree, root)?.as_slice() {
        tree.make_dir(&below(alloc, folder, root, copy)?).map_err(|_| failed())?;
    }
    Ok(())
}

fn write_all<T: Tree>(tree: &mut T, paths: &[Path], texts: &[Text]) -> io::Result<()> {
    for (at, text) in paths.iter().zip(texts.iter()) {
        let Ok(Did::Done) = tree.write(at, text.as_slice()) else {
            return Err(failed());
        };
    }
    Ok(())
}

fn copies(alloc: Global, paths: &[Path], root: &Path, copy: &Path) -> io::Result<Vec<Path>> {
    let mut all = Vec::new(alloc);
    for at in paths {
        all.push(below(alloc, at, root, copy)?)?;
    }
    Ok(all)
}

fn run<T: Tree>(rt: &(impl Clock + Print), alloc: Global, tree: &mut T) -> io::Result<()> {
    let root = path(alloc, b"tree")?;
    let copy = path(alloc, b"copy")?;
    let start = Instant::now(rt)?;
    let paths = files(alloc, tree, &root)?;
    let listed = start.elapsed(rt)?.as_micros();
    let start = Instant::now(rt)?;
    let texts = contents(alloc, tree, paths.as_slice())?;
    let read = start.elapsed(rt)?.as_micros();
    make_folders(alloc, tree, &root, &copy)?;
    let to = copies(alloc, paths.as_slice(), &root, &copy)?;
    let start = Instant::now(rt)?;
    write_all(tree, to.as_slice(), texts.as_slice())?;
    let written = start.elapsed(rt)?.as_micros();
    println!(rt; "{listed} {read} {written}")
}

fn main(rt: HostRuntime) -> io::Result<()> {
    run(&rt, rt.alloc(), &mut FolderTree::new(&rt))
}
RT
)
if [ "${1:-}" = build ]; then exit 0; fi
rm -rf "$work/here"
mkdir "$work/here"
cd "$work/here"
python3 - "${FOLDERS:-100}" <<'PY'
import os, sys
line = b'    /** A line of a class, as classes have them. */ public function name(string $name): string { return $name; }\n'
for folder in range(int(sys.argv[1])):
    os.makedirs('tree/folder%03d' % folder)
    for file in range(100):
        with open('tree/folder%03d/File%03d.php' % (folder, file), 'wb') as to:
            to.write(b'<?php\nclass File%d {\n' % file + line * (file * 130 // 100) + b'}\n')
os.sync()
PY
python3 - "$files" <<'PY'
import os, shutil, subprocess, sys, time
def timed(call):
    start = time.time(); call(); return (time.time() - start) * 1e6
def shell(line):
    return lambda: subprocess.run(['sh', '-c', line], check=True)
paths = [os.path.join(folder, name) for folder, _, names in os.walk('tree') for name in names]
texts = [open(path, 'rb').read() for path in paths]
def copy_with_fsync(to):
    for folder in set(os.path.dirname(path) for path in paths): os.makedirs(to + folder[4:])
    def copy():
        for path, text in zip(paths, texts):
            file = os.open(to + path[4:], os.O_WRONLY | os.O_CREAT | os.O_EXCL)
            os.write(file, text); os.fsync(file); os.close(file)
    return timed(copy)
os.makedirs('bad/tree/folder')
open(b'bad/tree/folder/no utf-8 \xff', 'w').close()
assert subprocess.run([sys.argv[1]], cwd='bad', capture_output=True).returncode != 0
def once(number):
    line = subprocess.run([sys.argv[1]], capture_output=True, check=True).stdout
    assert subprocess.run(['diff', '-r', 'tree', 'copy']).returncode == 0
    shutil.rmtree('copy')
    find = timed(shell('find tree -type f > /dev/null'))
    cat = timed(shell('find tree -type f -print0 | xargs -0 cat > /dev/null'))
    copied = copy_with_fsync('py%d' % number)
    return list(map(int, line.split())) + [find, cat, copied]
rows = [once(number) for number in range(3)]
size = sum(map(len, texts))
best = [min(row[k] for row in rows) for k in range(6)]
print('%d files, %.1f MB' % (len(paths), size / 1e6))
for name, a, other, b in zip(('list', 'read', 'write'), best, ('find', 'find and cat', 'python3 with fsync'), best[3:]):
    print('%s %.1f ms, %s %.1f ms, ratio %.2f' % (name, a / 1e3, other, b / 1e3, b / a))
PY
