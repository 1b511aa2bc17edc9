#!/usr/bin/env bash
# Tries the wrong bodies that the gate leaves out, beside those that it tries: the prover has to refuse each.
#
#     bash wrong-bodies/try.sh [CRATE ..]     all crates, where none is named
#
# Works in a copy of the files that git knows, with the libraries that ./strsolve.sh or `rt check` left in crates/*/out;
# those that aren't there are proved first. The last line is that of `rt must-fail`.
set -eu
cd "$(dirname "$0")/.."
copy=$(mktemp -d)
trap 'rm -rf "$copy"' EXIT
git ls-files -z -- crates crates.txt HANDLES | xargs -0 cp --parents -t "$copy"
find crates -path '*/out/rlib' -prune -print0 | xargs -0r cp -R --parents -t "$copy"
git init -q "$copy"
names=("$@")
if [ ${#names[@]} -eq 0 ]; then
    mapfile -t names < <(find wrong-bodies -mindepth 1 -maxdepth 1 -type d -printf '%f\n' | sort)
fi
for name in "${names[@]}"; do
    mkdir -p "$copy/crates/$name/must-fail"
    find "wrong-bodies/$name" -name '*.edit' -exec cp -t "$copy/crates/$name/must-fail" {} +
done
cd "$copy"
rt must-fail "${names[@]}"
