#!/usr/bin/env bash
# How long theories of 256 KiB, 512 KiB and 1 MiB take to read: of very many short rules, of one rule whose names are few,
# and of one rule whose names are all distinct; run by hand, at the top of the repository, once the crates are checked. It
# builds theories_main.rt.txt in a copy of the repository, as `rt run` does.
set -eu
cd "$(dirname "$0")/.."
copy=$(mktemp -d)
trap 'rm -rf "$copy"' EXIT
mkdir "$copy/crates"
for crate in logic lex names term subst words termtext schema theory patterntext schematext theorytext; do
    cp -a "crates/mp_$crate" "$copy/crates"
done
mkdir -p "$copy/crates/bench_theories/src"
cp bench/theories_main.rt.txt "$copy/crates/bench_theories/src/main.rt"
grep -E '^mp_(logic|lex|names|term|subst|words|termtext|schema|theory|patterntext|schematext|theorytext):' crates.txt > "$copy/crates.txt"
printf 'bench_theories: mp_theorytext mp_theory mp_names mp_logic anyhow\n' >> "$copy/crates.txt"
for kind in rules few distinct; do
    for size in 262144 524288 1048576; do
        python3 - "$kind" "$size" > "$copy/$kind.$size" <<'END_OF_MAKER'
import sys
kind, size = sys.argv[1], int(sys.argv[2])


def rules():
    """Rules r0, r1, .. without premises."""
    text = "".join(f"rule r{n} : ==> >- a\n" for n in range(size // 18))[:size]
    return text[: text.rindex("\n") + 1]


def one_rule(variable):
    """One rule of 16 premises, each an operator above as many variables as there is room for."""
    share, text, n = size // 16 - 8, [], 0
    for _ in range(16):
        parts, used = [], 0
        while used < share - 8 and len(parts) < 19_000:
            parts.append(variable(n))
            used += len(parts[-1]) + 1
            n += 1
        text.append(">- f{" + ";".join(parts) + "}")
    return "rule r : " + ", ".join(text) + " ==> >- a\n"


made = {"rules": rules, "few": lambda: one_rule(lambda n: f"'A{n % 8}"), "distinct": lambda: one_rule(lambda n: f"'A{n}")}
print(made[kind](), end="")
END_OF_MAKER
    done
done
cd "$copy/crates/bench_theories"
for kind in rules few distinct; do
    for size in 262144 524288 1048576; do
        rt run -- "$copy/$kind.$size" 5
    done
done
