#!/usr/bin/env bash
# How long a sequent of 10,000 nodes and one of 20,000 nodes take to read and to print again; run by hand, at the top of
# the repository, once the crates are checked. It builds texts_main.rt.txt in a copy of the repository, as `rt run` does.
set -eu
cd "$(dirname "$0")/.."
copy=$(mktemp -d)
trap 'rm -rf "$copy"' EXIT
mkdir "$copy/crates"
cp -a crates/mp_logic crates/mp_lex crates/mp_names crates/mp_term crates/mp_words crates/mp_termtext "$copy/crates"
mkdir -p "$copy/crates/bench_texts/src"
cp bench/texts_main.rt.txt "$copy/crates/bench_texts/src/main.rt"
grep -E '^mp_(logic|lex|names|term|words|termtext):' crates.txt > "$copy/crates.txt"
printf 'bench_texts: mp_termtext mp_names mp_logic anyhow\n' >> "$copy/crates.txt"
for nodes in 10000 20000; do
    # one hypothesis, one operator above, and pairs of a binder's operator and its variable
    python3 - "$nodes" > "$copy/sequent.$nodes" <<'END'
import sys
pairs = (int(sys.argv[1]) - 2) // 2
print("h: nat >- f{" + "; ".join("x. lam{'x}" for _ in range(pairs)) + "}")
END
done
cd "$copy/crates/bench_texts"
for nodes in 10000 20000; do
    rt run -- "$copy/sequent.$nodes" 51
done
