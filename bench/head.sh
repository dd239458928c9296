# What the scripts here share: sourced by them, as `. "$(dirname "$0")/head.sh"`.
# With BENCH_FOLDER set, the work is done in that folder and kept, and a second run builds nothing again: so that one run,
# with the word `build`, builds while the machine is busy, and another measures when it is not.
set -eu
top=$(cd "$(dirname "$0")/.." && pwd)
if [ -n "${BENCH_FOLDER:-}" ]; then
    work=$BENCH_FOLDER
    mkdir -p "$work"
else
    work=$(mktemp -d)
    trap 'rm -rf "$work"' EXIT
fi

# Builds a program, whose main.rt comes from standard input, over copies of crates of this repository, and prints its
# path. Usage: program NAME 'CRATES THAT IT CALLS' CRATES THAT ARE COPIED..
program() {
    name=$1
    calls=$2
    shift 2
    repo="$work/$name"
    cat > "$work/$name.rt"
    if ! cmp -s "$work/$name.rt" "$repo/crates/$name/src/main.rt" || [ ! -x "$repo/crates/$name/out/$name" ]; then
        rm -rf "$repo"
        mkdir -p "$repo/crates/$name/src"
        for crate in "$@"; do
            cp -r "$top/crates/$crate" "$repo/crates/"
            grep "^$crate:" "$top/crates.txt" >> "$repo/crates.txt"
        done
        echo "$name: $calls" >> "$repo/crates.txt"
        cp "$work/$name.rt" "$repo/crates/$name/src/main.rt"
        # The program is run there too, where it may find nothing to work on.
        (cd "$repo" && git init -q . && cd "crates/$name" && rt run < /dev/null > "$work/$name.log" 2>&1) || true
        [ -x "$repo/crates/$name/out/$name" ] || { tail "$work/$name.log" >&2; return 1; }
    fi
    echo "$repo/crates/$name/out/$name"
}

# The least of the second words of lines.
least() {
    awk '{print $2}' | sort -n | head -1
}
