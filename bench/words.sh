#!/usr/bin/env bash
# How long the words of a file of 1 MiB and of one of 2 MiB take; run by hand, at the top of the repository, once
# the crates are checked. It builds the program words_main.rt.txt in a copy of the repository, as `rt run` builds it.
# (A .rt file that belongs to no crate of crates.txt would fail the merge gate.)
set -eu
cd "$(dirname "$0")/.."
copy=$(mktemp -d)
trap 'rm -rf "$copy"' EXIT
mkdir "$copy/crates"
cp -a crates/mp_logic crates/mp_lex crates/mp_names crates/mp_words "$copy/crates"
mkdir -p "$copy/crates/bench_words/src"
cp bench/words_main.rt.txt "$copy/crates/bench_words/src/main.rt"
grep -E '^mp_(logic|lex|names|words):' crates.txt > "$copy/crates.txt"
printf 'bench_words: mp_words mp_names mp_logic anyhow\n' >> "$copy/crates.txt"
line='rule step_17 : <H>; x: '"'"'A[k{y. '"'"'z; f["a \"b\"", -12]}] >- cut{'"'"'x1} ==> >- 0 # a comment, 72 bytes'
for size in 1048576 2097152; do
    yes "$line" | head -c $size | head -n -1 > "$copy/text.$size" || true
done
cd "$copy/crates/bench_words"
for size in 1048576 2097152; do
    rt run -- "$copy/text.$size" 101
done
