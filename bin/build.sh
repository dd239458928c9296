# The build behind bin/composer, which reads this file only where the program may not be the one that its
# sources give. It sets `top`, the repository's folder, and `built`, where the program is kept with the list
# of its sources, their checksums, and the time at which its build started.

# Not built: with which status, and why.
not_built() {
    status=$1
    shift
    printf 'composer: not built: %s\n' "$*" >&2
    exit "$status"
}

# The crates of this repository that the program stands on, by crates.txt.
crates() {
    awk '{
            sub(/#.*/, "")
            crate = $1
            if (!sub(/:$/, "", crate)) next
            $1 = ""
            stands_on[crate] = $0
        }
        END {
            left = "composer_cmd"
            while (split(left, names, " ") > 0) {
                left = ""
                for (i in names) {
                    if (!(names[i] in stands_on) || (names[i] in seen)) continue
                    seen[names[i]] = 1
                    print "crates/" names[i]
                    left = left " " stands_on[names[i]]
                }
            }
        }' "$top/crates.txt"
}

# Finds what the prover reads, and does with it what `find` is told. The folder of the repository is the current one.
sources() {
    # Each name is a word of its own.
    find crates.txt HANDLES $(crates) \( -name out -o -name must-fail -o -name data \) -prune -o "$@"
}

# The files and folders that the prover reads, each behind the repository's folder, with a NUL behind it.
listed() {
    (CDPATH= cd -- "$top" && sources -printf "$(printf '%s' "$top" | sed 's/[\\%]/&&/g')/%p\0")
}

# The checksums of the files among them.
contents() {
    (CDPATH= cd -- "$top" && sources -type f -print0 | LC_ALL=C sort -z | xargs -0 sha256sum)
}

# Proves and builds. One start does so at a time, and one that comes meanwhile waits for it. The program is
# put in its place whole, as the last step, so that a build that fails or is stopped leaves none.
build() {
    mkdir -p "$built" 2>/dev/null && [ -w "$built" ] || not_built 70 "$built can't be written"
    exec 9>"$built/lock"
    if ! flock -n 9; then
        echo 'composer: another start is building; waiting for it' >&2
        flock 9
    fi
    # What a build left that was killed.
    rm -rf "$built"/work.*
    work=$(mktemp -d "$built/work.XXXXXX")
    trap 'rm -rf "$work"' EXIT
    trap 'exit 130' INT
    trap 'exit 143' TERM
    # What changes from now on shows at the next start.
    touch -d '1 second ago' "$work/started"
    listed >"$work/listed"
    contents >"$work/contents"
    [ -x "$built/composer" ] && cmp -s "$work/contents" "$built/contents" || prove
    mv -f "$work/listed" "$built/listed"
    mv -f "$work/started" "$built/started"
    rm -rf "$work"
    trap - EXIT INT TERM
    exec 9>&-
}

prove() {
    rm -f "$built/composer" "$built/started" "$built/listed" "$built/contents" "$built/log"
    command -v rt >/dev/null 2>&1 || not_built 69 'the Rattle kit is needed, with its command rt on the PATH'
    echo 'composer: proving and building, which takes some two hours of one processor the first time, and less on several' >&2
    program=$top/crates/composer_cmd/out/composer_cmd
    rm -f "$program"
    # Without words the program ends with its usage, so its status says nothing here.
    (CDPATH= cd -- "$top/crates/composer_cmd" && rt run </dev/null 2>&1) 9>&- | tee "$work/log" \
        | sed -u -n 's/^rt: \([a-z0-9_]*\) proved$/composer: \1 is proved/p' >&2
    if ! [ -x "$program" ]; then
        mv -f "$work/log" "$built/log"
        not_built 70 "a proof or the build failed: $built/log has the prover's words"
    fi
    cp "$program" "$work/composer"
    mv -f "$work/contents" "$built/contents"
    mv -f "$work/composer" "$built/composer"
}
