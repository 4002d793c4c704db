#!/usr/bin/env bash
# How long one step takes, as the hypotheses and the rule's second-order variables grow: and_i on goals of 0 to 200 hypotheses
# of 11 nodes, a match that fails at the conclusion's operator or at one below it, and a rule of 625 to 2,500 second-order
# variables. Run by hand, at the top of the repository, once the crates are checked. `rt try` interprets steps_main.rt.txt in a
# copy of the repository, and proves nothing of it: times are in nanoseconds of the interpreter, so their ratios alone tell
# something. bench/steps.py times the program as it is built.
set -eu
cd "$(dirname "$0")/.."
copy=$(mktemp -d)
trap 'rm -rf "$copy"' EXIT
mkdir "$copy/crates"
for crate in logic names term subst schema match build; do
    cp -a "crates/mp_$crate" "$copy/crates"
done
mkdir -p "$copy/crates/bench_steps/src"
cp bench/steps_main.rt.txt "$copy/crates/bench_steps/src/main.rt"
grep -E '^mp_(logic|names|term|subst|schema|match|build):' crates.txt > "$copy/crates.txt"
printf 'bench_steps: mp_build mp_match mp_schema mp_term mp_logic anyhow\n' >> "$copy/crates.txt"
cd "$copy/crates/bench_steps"
rt try --seconds 300
