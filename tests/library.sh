#!/usr/bin/env bash
# Writes target/staticlib/libfingerkerf.a: the proved crate fingerkerf_c as a static library.
# 'tests/library.sh fresh', right after rt ci in a fresh clone, takes the libraries that rt ci left in crates/*/out and proves the exports
# alone. Else rt lib proves and builds what has no library of its present text.
set -euo pipefail
cd "$(dirname "$0")/.."
mkdir -p target/staticlib
archive=$PWD/target/staticlib/libfingerkerf.a
uses=$(sed -n 's/^fingerkerf_c staticlib: *//p' crates.txt)
cd crates/fingerkerf_c
if [ "${1:-}" = fresh ] && [ -e ../fingerkerf/out/rlib/fingerkerf.rlib/format ]; then
    kit=$(dirname "$(dirname "$(readlink -f "$(command -v rt)")")")
    words=(--crate-name fingerkerf_c src/lib.rt --crate-type staticlib --extern "std=$kit/rlibs/std.rlib" -L "dependency=$kit/rlibs")
    for name in $uses; do
        words+=(--extern "$name=../$name/out/rlib/$name.rlib")
    done
    for folder in ../*/out/rlib; do
        words+=(-L "dependency=$folder")
    done
    words+=(--antt-project "$kit/rattle/logic/antt-project.json" --logic-built "$kit/logic_built" --toolchain "$kit/toolchain")
    "$kit/bin/rattle" build "${words[@]}" --links fingerkerf_c= -o "$archive"
else
    rt lib
    cp out/libfingerkerf_c.a "$archive"
fi
