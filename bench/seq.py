#!/usr/bin/env python3
"""How long `metatac seq` takes on long theories, large goals, scripts of many goals and trees of many lines, and
`metatac drill` on many goals with a section each; run by hand, at the top of the repository, once the program is built
(`rt run` in crates/metatac leaves it as out/metatac).

usage: bench/seq.py [PROGRAM] [RUNS]
It prints the least wall time and the least processor time of RUNS runs (5 if left out) for each size. What the program
must print is compared.
"""
import resource
import subprocess
import sys
import tempfile
import time
from pathlib import Path

USED = "rule and_i : >- 'A, >- 'B ==> >- and{'A; 'B}\nrule any_i : ==> >- 'A\n"


def padding(number):
    """A rule that no goal uses, of about 170 bytes."""
    name = f"pad_{number:06d}_of_the_theory_whose_reading_is_timed"
    return (f"rule {name} : >- imp{{'A; or{{'B; all{{'C; d}}}}}}, >- imp{{'B; or{{'A; none}}}}, >- 'C\n"
            f"  ==> >- imp{{and{{'A; 'B}}; or{{and{{'B; 'C}}; eq{{'A; 'C}}}}}}\n")


def theory(size):
    """A theory of at most `size` bytes."""
    rules, left, number = [], size - len(USED), 0
    while left >= len(rule := padding(number)):
        rules.append(rule)
        left -= len(rule)
        number += 1
    return "".join(rules) + USED


def wide(nodes):
    """A term of so many nodes."""
    return "f{" + "; ".join(["a"] * (nodes - 1)) + "}"


def goal(nodes):
    """A term of so many nodes that the rule and_i splits, and its two parts."""
    first = wide(nodes // 2)
    second = wide(nodes - 1 - nodes // 2)
    return f"and{{{first}; {second}}}", first, second


def processor_time():
    """The processor time of all runs so far, in seconds."""
    used = resource.getrusage(resource.RUSAGE_CHILDREN)
    return used.ru_utime + used.ru_stime


def run(program, runs, label, theory_text, script, due, schedule=None):
    with tempfile.TemporaryDirectory() as folder:
        words = ["seq", "t", "s"] if schedule is None else ["drill", "t", "s", "d"]
        Path(folder, "t").write_text(theory_text)
        Path(folder, "s").write_text(script)
        Path(folder, "d").write_text(schedule or "")
        walls, works = [], []
        for _ in range(runs):
            begin, worked = time.perf_counter(), processor_time()
            done = subprocess.run([program, *words], cwd=folder, capture_output=True, timeout=300)
            walls.append(time.perf_counter() - begin)
            works.append(processor_time() - worked)
            if done.returncode or done.stdout != due.encode():
                sys.exit(f"another answer: status {done.returncode}, {done.stdout[:200]!r}")
    print(f"{label}: {min(walls) * 1000:8.1f} ms, {min(works) * 1000:8.1f} ms of processor", flush=True)


def large(program, runs, size, nodes):
    """A theory of distinct rules of about 170 bytes, the last two of which are used, and one goal of two steps."""
    whole, first, second = goal(nodes)
    due = f"goal g: closed\nrule and_i | >- {whole}\n  rule any_i | >- {first}\n  rule any_i | >- {second}\n"
    script = f"goal g fuel 5 : >- {whole} by rule and_i then rule any_i\n"
    text = theory(size)
    run(program, runs, f"theory {len(text):9,} bytes, {text.count('rule '):6,} rules, goal {nodes:6,} nodes", text, script, due)


def many(program, runs, count):
    """A script of so many goals of about 700 bytes, each with a hypothesis and closed by two steps."""
    whole, first, second = goal(200)
    goals = "".join(f"goal g{k} : h: all{{nat; x. p{{'x}}}} >- {whole} by rule and_h then rule any_h\n" for k in range(count))
    hyp = "x1: all{nat; x1. p{'x1}} >- "
    due = "".join(f"goal g{k}: closed\nrule and_h | {hyp}{whole}\n  rule any_h | {hyp}{first}\n  rule any_h | {hyp}{second}\n"
                  for k in range(count))
    rules = "rule and_h : <H> >- 'A<H>, <H> >- 'B<H> ==> <H> >- and{'A<H>; 'B<H>}\nrule any_h : ==> <H> >- 'A<H>\n"
    run(program, runs, f"script {len(goals):9,} bytes, {count:6,} goals", rules, goals, due)


def tall(program, runs, depth):
    """A tree of 2 ^ (depth + 1) - 1 lines: each step but the last ones doubles its goal."""
    def lines(level):
        term = "d{" * (depth - level) + "c" + "}" * (depth - level)
        here = "  " * level + f"rule {'two' if level < depth else 'one'} | >- {term}\n"
        return here + 2 * lines(level + 1) if level < depth else here

    term = "d{" * depth + "c" + "}" * depth
    script = f"goal g : >- {term} by " + "rule two then " * depth + "rule one\n"
    due = "goal g: closed\n" + lines(0)
    run(program, runs, f"tree of {2 ** (depth + 1) - 1:6,} lines, {len(due):9,} bytes",
        "rule two : >- 'A, >- 'A ==> >- d{'A}\nrule one : ==> >- c\n", script, due)


def drilled(program, runs, count):
    """A script of so many goals, each closed by one step, and a schedule with a section for each."""
    goals = "".join(f"goal g{k} : >- c by rule one\n" for k in range(count))
    sections = "".join(f"goal g{k} claim 1 send 1\n" for k in range(count))
    due = "".join(f"drill g{k}\nclaim 1: ticket 1\nsend 1 256: taken\ngoal g{k}: closed\nrule one | >- c\n" for k in range(count))
    run(program, runs, f"drill of {count:6,} goals", "rule one : ==> >- c\n", goals, due, sections)


def named(program, runs, size, names):
    """A theory of one rule with 16 premises of about `size` bytes together, each of them the use of a second-order variable
    over and over: of `names` of them in turn, or each time of another one where that is 0."""
    uses, number = [], 0
    while sum(len(u) for u in uses) < size:
        left = size - sum(len(u) for u in uses)
        more = [f"'A{(number + k) % names if names else number + k}" for k in range(max(1, left // 8))]
        number += len(more)
        uses += more
    part = -(-len(uses) // 16)
    premises = ", ".join(f">- f{{{'; '.join(uses[k * part:(k + 1) * part])}}}" for k in range(16))
    rule = f"rule one : {premises} ==> >- c\n"
    run(program, runs, f"one rule {len(rule):9,} bytes, {names or len(uses):7,} names", rule, "", "")


def main():
    program = Path(sys.argv[1] if len(sys.argv) > 1 else "crates/metatac/out/metatac").resolve()
    runs = int(sys.argv[2]) if len(sys.argv) > 2 else 5
    for size, nodes in [(0, 10), (524288, 10), (1048576, 10), (0, 10000), (0, 20000), (1048576, 20000)]:
        large(program, runs, max(size, len(USED)), nodes)
    for names in [8, 0]:
        for size in [150000, 300000, 600000]:
            named(program, runs, size, names)
    for count in [200, 400, 800]:
        many(program, runs, count)
    for depth in [12, 13, 14]:
        tall(program, runs, depth)
    for count in [5000, 10000, 20000]:
        drilled(program, runs, count)


if __name__ == "__main__":
    main()
