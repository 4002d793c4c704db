#!/usr/bin/env python3
"""Tries the cases of crates/cases/data on the program as it is built, over real files and a real standard output; run by hand, at
the top of the repository.

usage: bench/hostile/cases.py [PROGRAM] [FILE ..]
Cases in which a listed read or write fails want a shelf or an output of their own: they are left to crates/cases and counted as
skipped. What refuses a file is compared with reader.py too, which works it out from docs/FORMATS.md. The last line has the counts,
and the status is 1 where a case fails.
"""

import os
import re
import subprocess
import sys
import tempfile
from pathlib import Path

sys.path.insert(0, str(Path(__file__).resolve().parent))
import reader

DATA = Path(__file__).resolve().parent.parent.parent / "crates/cases/data"
KINDS = {"seq": ["theory", "script"], "drill": ["theory", "script", "schedule"], "replay": ["theory", "script", "trees"]}
ESCAPES = {"n": b"\n", "r": b"\r", "t": b"\t", "\\": b"\\", "%": b"\\%"}


def unquoted(text):
    """The bytes of a text between quotes; `%` stays, and an escaped one keeps its backslash."""
    parts = re.findall(r"\\x[0-9a-f]{2}|\\.|[^\\]", text[1:-1])
    return b"".join(bytes([int(part[2:], 16)]) if part[:2] == "\\x" else ESCAPES[part[1]] if part[0] == "\\" else part.encode()
                    for part in parts)


def part_of(line, texts):
    """The bytes of a part of a text; None where the line is none."""
    plain = lambda text: unquoted(text).replace(b"\\%", b"%")
    if line.startswith("|"):
        return line[2 if line[1:2] == " " else 1:].encode() + b"\n"
    if line.startswith('"'):
        return plain(line)
    if line.startswith("= "):
        return texts[line[2:]]
    found = re.match(r"(\d+)(?:\.\.(\d+))? \* (.*)", line)
    if not found:
        return None
    if not found[2]:
        return plain(found[3]) * int(found[1])
    pieces = re.split(rb"(?<!\\)%", unquoted(found[3]))
    pieces = [piece.replace(b"\\%", b"%") for piece in pieces]
    return b"".join((b"%d" % number).join(pieces) for number in range(int(found[1]), int(found[2]) + 1))


class Case:
    """A case, or a base."""

    def __init__(self, name, place):
        self.name, self.place = name, place
        self.words, self.files, self.put, self.any, self.status, self.fails = None, {}, None, False, None, False

    def over(self, base):
        """The case with what its base has and it doesn't."""
        whole = Case(self.name, self.place)
        whole.words = self.words if self.words is not None else base.words
        whole.files = {**base.files, **self.files}
        own = self if self.put is not None or self.any else base
        whole.put, whole.any = own.put, own.any
        whole.status = self.status if self.status is not None else base.status
        whole.fails = self.fails or base.fails
        return whole


def read_cases(path):
    """The cases of a file."""
    texts, base, current, cases, target = {}, Case("", ""), Case("", ""), [], None
    for number, line in enumerate(path.read_text(encoding="utf-8").split("\n"), 1):
        if line.endswith(" ") or any(ord(c) < 32 or ord(c) == 127 for c in line):
            sys.exit(f"{path.name}:{number}: a space at the end, or a control character")
        line = line.lstrip(" ")
        if not line or line.startswith("#"):
            continue
        part = part_of(line, texts)
        if part is None:
            key, _, rest = line.partition(" ")
            rest = rest.lstrip(" ")
            target = None
            if key == "text":
                name, _, rest = rest.partition(" ")
                texts[name] = b""
                target = lambda part, name=name: texts.__setitem__(name, texts[name] + part)
            elif key in ("base", "case"):
                cases += [current.over(base)] if current.name else []
                place = f"{path.name}:{number}"
                current = Case(rest, place) if key == "case" else Case("", place)
                if key == "base":
                    base = current
                continue
            elif key == "words":
                current.words = [word.encode() for word in rest.split()]
                continue
            elif key == "status":
                current.status = int(rest)
                continue
            elif key in ("reads_fail", "writes_fail"):
                current.fails = True
                continue
            elif key == "word":
                current.words = (current.words or []) + [b""]
                target = lambda part, it=current: it.words.__setitem__(-1, it.words[-1] + part)
            elif key == "file":
                name, _, rest = rest.partition(" ")
                current.files[name] = b""
                target = lambda part, it=current, name=name: it.files.__setitem__(name, it.files[name] + part)
            elif key in ("out", "put"):
                current.any = rest == "any"
                if current.any:
                    continue
                current.put = current.put or b""
                target = lambda part, it=current: setattr(it, "put", it.put + part)
            else:
                sys.exit(f"{path.name}:{number}: no such key")
            if not rest.strip():
                continue
            part = part_of(rest.strip(), texts)
        target(part)
    return cases + ([current.over(base)] if current.name else [])


def named(word):
    return word.decode("utf-8", "surrogateescape")


def refused_by_rules(case):
    """What reader.py says of the case's files; the empty text where it says that none is refused, and None where it can't tell."""
    words = case.words
    kinds = KINDS.get(words[0].decode("utf-8", "replace") if words else "")
    if not kinds or kinds[-1] == "trees" or len(words) != len(kinds) + 1:
        return None
    files = []
    for kind, word in zip(kinds, words[1:]):
        if named(word) not in case.files:
            return None
        files.append((kind, case.files[named(word)]))
        line = reader.refusal(files)
        if line is not None:
            return line
    return b""


def run(program, case):
    with tempfile.TemporaryDirectory() as folder:
        for name, text in case.files.items():
            Path(folder, name).write_bytes(text)
        # A word may be no UTF-8, and a file's name is at most 255 bytes.
        done = subprocess.run([os.fsencode(program), *case.words], cwd=folder, capture_output=True, timeout=120)
        return done.stdout, done.returncode


def main():
    sys.setrecursionlimit(100_000)
    program = str(Path(sys.argv[1] if len(sys.argv) > 1 else "crates/metatac/out/metatac").resolve())
    paths = [Path(path) for path in sys.argv[2:]] or sorted(DATA.glob("*.cases"))
    passed = failed = skipped = compared = 0
    for path in paths:
        for case in read_cases(path):
            if case.fails:
                skipped += 1
                continue
            put, status = run(program, case)
            told = []
            if status != case.status or not case.any and put != case.put:
                told.append(f"  program: status {status}, {put[:200]!r}")
            line = refused_by_rules(case)
            if line is not None:
                compared += 1
                due = case.put if case.put is not None and case.put.startswith(b"refused") else b""
                if line != due:
                    told.append(f"  reader.py: {line!r}")
            if told:
                failed += 1
                print(f"{case.place}: {case.name}", f"  due: status {case.status}, {(case.put or b'')[:200]!r}", *told, sep="\n")
            else:
                passed += 1
    print(f"{passed} passed, {failed} failed, {skipped} skipped; {compared} compared with reader.py")
    return 1 if failed else 0


if __name__ == "__main__":
    sys.exit(main())
