#!/usr/bin/env python3
"""How long one step takes as the hypotheses and the rule's second-order variables grow; run by hand, at the top of the
repository, once the program is built (`rt run` in crates/metatac leaves it as out/metatac).

usage: bench/steps.py [PROGRAM] [RUNS]
The first table: and_i on goals of 0 to 200 hypotheses of 11 nodes. A chain of LEVELS times and_i on a conclusion that is a
whole tree of conjunctions makes 2 ^ LEVELS - 1 steps, and a last rule that doesn't fit fails on the leftmost leaf, so that one
goal is printed and not each of them. The same goal on which that rule fails at once is taken off. The second table: one step
of a rule of so many second-order variables, and the same without the step. Times are the least processor times of RUNS runs
(7 if left out), and the last column is the ratio to the line before.
"""
import resource
import subprocess
import sys
import tempfile
from pathlib import Path

LEVELS = 11
AND = "rule and_i : <H> >- 'A<H>, <H> >- 'B<H> ==> <H> >- and{'A<H>; 'B<H>}\nrule no : ==> <H> >- nothing\n"


def processor_time():
    used = resource.getrusage(resource.RUSAGE_CHILDREN)
    return used.ru_utime + used.ru_stime


def least(program, runs, theory, script, begins):
    """The least processor time of the runs, in seconds. What is printed has to begin so."""
    with tempfile.TemporaryDirectory() as folder:
        Path(folder, "t").write_text(theory)
        Path(folder, "s").write_text(script)
        times = []
        for _ in range(runs):
            begin = processor_time()
            done = subprocess.run([program, "seq", "t", "s"], cwd=folder, capture_output=True, timeout=300)
            times.append(processor_time() - begin)
            if not done.stdout.startswith(begins.encode()):
                sys.exit(f"another answer: status {done.returncode}, {done.stdout[:200]!r}, {done.stderr[:200]!r}")
    return min(times)


def hypotheses(count):
    """So many hypotheses of 11 nodes with a binder, each of which names the one before it."""
    def last(number):
        return f"'h{number - 1}" if number else "c"
    return "; ".join(f"h{k}: all{{x. imp{{eq{{'x; {last(k)}}}; or{{and{{c; c}}; not{{c}}}}}}}}" for k in range(count))


def conjunctions(levels):
    return f"and{{{conjunctions(levels - 1)}; {conjunctions(levels - 1)}}}" if levels else "c"


def steps(program, runs):
    print("hypotheses   a step, us   ratio")
    before = None
    for count in [0, 10, 50, 100, 200]:
        goal = f"{hypotheses(count)} >- {conjunctions(LEVELS)}"
        failed = "goal g: failed NoMatch at strategy "
        chain = "rule and_i then " * LEVELS + "rule no"
        whole = least(program, runs, AND, f"goal g : {goal} by {chain}\n", failed)
        empty = least(program, runs, AND, f"goal g : {goal} by rule no\n", failed)
        step = (whole - empty) / (2 ** LEVELS - 1) * 1e6
        print(f"{count:10} {step:12.2f} {step / before if before else 0:7.2f}", flush=True)
        before = step


def variables(program, runs):
    print("variables   with the step, ms   without, ms   the step, ms   ratio")
    before = None
    for count in [1250, 2500, 5000, 10000]:
        uses = "; ".join(f"'A{k}" for k in range(count))
        theory = f"rule wide : >- g{{{uses}}} ==> >- f{{{uses}}}\n"
        goal = f">- f{{{'; '.join(['c'] * count)}}}"
        left = "goal g: "
        whole = least(program, runs, theory, f"goal g : {goal} by rule wide\n", left)
        empty = least(program, runs, theory, f"goal g : {goal} by id\n", left)
        step = (whole - empty) * 1e3
        print(f"{count:9} {whole * 1e3:19.2f} {empty * 1e3:13.2f} {step:14.2f} {step / before if before else 0:7.2f}", flush=True)
        before = step


def main():
    program = Path(sys.argv[1] if len(sys.argv) > 1 else "crates/metatac/out/metatac").resolve()
    runs = int(sys.argv[2]) if len(sys.argv) > 2 else 7
    steps(program, runs)
    variables(program, runs)


if __name__ == "__main__":
    main()
