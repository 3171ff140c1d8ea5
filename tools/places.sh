#!/usr/bin/env bash
# Counts for docs/DESIGN-PASS.md the lines of crates/*/src in which each of its points can show: tools/places.sh [COMMIT]. With -l behind
# the commit it prints the lines. Without a commit it reads HEAD.
set -euo pipefail
cd "$(dirname "$0")/.."
commit=${1:-HEAD}
show=${2:-}

lines() { { git grep -nE "$@" "$commit" -- 'crates/*/src/*.rt' || true; } | sed 's/^[^:]*://'; }

count() {
    local name=$1
    shift
    printf '%5d  %s\n' "$(lines "$@" | wc -l)" "$name"
    if [ "$show" = -l ]; then lines "$@" | sed 's/^/           /'; fi
}

echo "1: enums of our own, functions that take a refusal out of one, flags and numbers for kinds"
count 'enum declared' '^(pub )?enum '
count 'fn why_..' 'fn why_'
count 'a kind as a number' 'kind: (u8|usize)|match kind'
count 'a flag or a count that says whether the value beside it counts' 'codeword: bool|answer: StackOpened|pub planes: usize'
echo "2: twins: names declared more than once, once stack and plane are cut from them"
twins() {
    git grep -hoE '\bfn [a-z_0-9]+' "$commit" -- 'crates/*/src/*.rt' ':!crates/fingerkerf*' | sed 's/_stack$//; s/stack_//; s/plane_//; s/^fn //' \
        | sort | uniq -c | awk '$1 > 1 {print $2 " " $1}'
}
printf '%5d  %s\n' "$(twins | wc -l)" "name"
if [ "$show" = -l ]; then twins | sed 's/^/           /'; fi
count 'fn of_..' 'fn of_'
echo "3: loops that count by hand"
count 'while' '\bwhile '
echo "4: conversion, comparison and printing by hand"
count 'wide, long, byte, copy' '\b(wide|long|byte|copy)\('
count 'as u8 and its like' ' as (u8|u16|u32|u64|usize)'
count 'derive' 'derive\('
echo "5: facts and parameters that travel together"
count 'Ready, StackReady, Described, Asks, Received, Radices, Sized, Listable in a clause' \
    '\{.*\b(Ready|StackReady|Described|WhereReady|Asks|Received|Radices|Sized|Listable|Narrow|Place|Placed|PlanePlaced|StackPlaced)\b'
count 'matrix, body or columns with parameters beside' 'matrix: &\[u8\], (p|a):|body: &\[u8\], s: |columns: &\[u8; 1024\]|parameters: Parameters|p: Parameters'
echo "6: buffers with a length or a place beside, parallel arrays"
count 'a place in a buffer' 'place: usize|at: usize|end: usize|start: usize'
count 'parallel numbers or arrays' 'planes: \[Plane; 6\]|\b[cm][123]: usize|keys: &(mut )?\[u64; 8192\]'
count 'a buffer on the stack' '= \[[0-9]+u(8|16|64); [0-9]+\]'
echo "7: switches on which step to run"
count 'match name, if .._cases::run' 'match name|_cases::run'
echo "8: proofs"
printf '%5d  %s\n' "$(git grep -c '' "$commit" -- 'crates/*/proofs/*/*.antt' 'crates/*/proofs/*/*/*.antt' | awk -F: '{s += $NF} END {print s}')" 'line of answers and invariants'
printf '%5d  %s\n' "$(git grep -c '' "$commit" -- 'crates/*/proofs/*.antt' | awk -F: '{s += $NF} END {print s}')" 'line of proofs in all'
