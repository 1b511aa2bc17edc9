#!/usr/bin/env bash
# Runs the program in the caller's folder, with the caller's words and input, and ends with its status. Where it isn't
# built from the present sources, it is proved and built first, crates that don't stand on each other at the same time,
# which is told on standard error. What is done stays in crates/*/out: a run that was broken off goes on where it was,
# and `rt check` in a crate finds those below it.
set -u
root=$(cd "$(dirname "${BASH_SOURCE[0]}")" && pwd) || exit 70
program=$root/crates/strsolve/out/strsolve

is_built() {
    [ -x "$program" ] && [ -z "$(find "$root/crates.txt" "$root/crates"/*/{src,specs,proofs} -type f \
        -newer "$program" -print -quit 2>/dev/null)" ]
}

build() {
    mkdir -p "$root/out"
    exec 9>"$root/out/lock"
    flock 9
    # Another run may have built it meanwhile.
    if ! is_built; then
        echo "strsolve: proving and building the program, crate by crate, which takes long the first time" >&2
        touch "$root/out/begun"
        rm -f "$program"
        if ! python3 "$root/build.py" </dev/null 1>&2 9>&-; then
            echo "strsolve: it could not be built" >&2
            exit 70
        fi
        # What was changed since is newer.
        touch -r "$root/out/begun" "$program"
    fi
    exec 9>&-
}

is_built || build
# Terms may stand 1,000 deep in one another, which takes up to 2 MB of stack.
ulimit -S -s 65536 2>/dev/null || true
exec "$program" "$@"
