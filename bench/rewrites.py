#!/usr/bin/env python3
"""How long `metatac seq` takes for a chain of 60 rewrites deep in a large goal, beside a chain of 60 rules that leave a goal of the
same size; run by hand, at the top of the repository, once the program is built (`rt run` in crates/metatac leaves it as out/metatac).

usage: bench/rewrites.py [PROGRAM] [RUNS]
It prints the least processor time of RUNS runs (9 if left out) of each, with its ratio to the other and to that of half the size. What
the program must print is compared.
"""
import resource
import subprocess
import sys
import tempfile
from pathlib import Path

STEPS = 60
THEORY = """rewrite beta : app{lam{x. 'B['x]}; 'A} <-> 'B['A]
rule turn : >- pair{'B; 'A} ==> >- pair{'A; 'B}
rule pair_i : ==> >- pair{'A; 'B}
"""


def wide(nodes):
    """A term of so many nodes."""
    return "f{" + "; ".join(["a"] * (nodes - 1)) + "}"


def chain(left):
    """A term that so many rewrites by beta, each at its root, make a constant of: each passes on what it was applied to."""
    term, level = f"'x{left}" if left else "c", left
    while level:
        inner = f"'x{level - 1}" if level > 1 else "c"
        term = f"app{{lam{{x{level}. {term}}}; {inner}}}"
        level -= 1
    return term


def rewriting(nodes):
    """The goal of so many nodes, the strategy and the lines that are due."""
    big = wide(nodes - 4 * STEPS - 2)
    goals = [f"pair{{{big}; {chain(STEPS - done)}}}" for done in range(STEPS + 1)]
    lines = [f"rw beta concl [2] | >- {goal}" for goal in goals[:-1]] + [f"rule pair_i | >- {goals[-1]}"]
    return goals[0], "rw beta concl [2] then " * STEPS + "rule pair_i", lines


def turning(nodes):
    """The same by rules that leave a goal of the same size."""
    big, small = wide(nodes - 4 * STEPS - 2), chain(STEPS)
    goals = [f"pair{{{big}; {small}}}", f"pair{{{small}; {big}}}"]
    lines = [f"rule turn | >- {goals[k % 2]}" for k in range(STEPS)] + [f"rule pair_i | >- {goals[STEPS % 2]}"]
    return goals[0], "rule turn then " * STEPS + "rule pair_i", lines


def processor_time():
    """The processor time of all runs so far, in seconds."""
    used = resource.getrusage(resource.RUSAGE_CHILDREN)
    return used.ru_utime + used.ru_stime


def least(program, runs, goal, strategy, lines):
    """The least processor time of the runs."""
    due = "goal g: closed\n" + "".join("  " * depth + line + "\n" for depth, line in enumerate(lines))
    with tempfile.TemporaryDirectory() as folder:
        Path(folder, "t").write_text(THEORY)
        Path(folder, "s").write_text(f"goal g : >- {goal} by {strategy}\n")
        times = []
        for _ in range(runs):
            begin = processor_time()
            done = subprocess.run([program, "seq", "t", "s"], cwd=folder, capture_output=True, timeout=300)
            times.append(processor_time() - begin)
            if done.returncode or done.stdout != due.encode():
                sys.exit(f"another answer: status {done.returncode}, {done.stdout[:200]!r}")
    return min(times)


def main():
    program = Path(sys.argv[1] if len(sys.argv) > 1 else "crates/metatac/out/metatac").resolve()
    runs = int(sys.argv[2]) if len(sys.argv) > 2 else 9
    before = None
    for nodes in [5000, 10000]:
        rewrites, rules = (least(program, runs, *made(nodes)) for made in (rewriting, turning))
        doubled = f", {rewrites / before:.2f} of half the size" if before else ""
        print(f"{nodes:6,} nodes: {STEPS} rewrites {rewrites * 1000:7.1f} ms, {STEPS} rules {rules * 1000:7.1f} ms, "
              f"ratio {rewrites / rules:.2f}{doubled}", flush=True)
        before = rewrites


main()
