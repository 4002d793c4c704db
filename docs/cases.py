"""The cases that are made from library/ and from docs/TUTORIAL.md. docs/make calls this, and says where they go.

In library/ each NAME.script has its theory, NAME.theory or, for NAME_fails.script, that of NAME, and NAME.trees, which is what `seq` has
to print of it.

In docs/TUTORIAL.md a fenced text is a file or a console:

    ```theory NAME         the file NAME, also after `script`, `schedule` or `trees`
    ```theory NAME more    what is added at its end
    ```console             commands and what they print

In a console a line `$ metatac WORD WORD ..` is a command, and what it has to print follows. `$ metatac .. > NAME` keeps what the same
command printed before as the file NAME. `$ echo $?` and a number is the status of the command before it, which else is 0.
"""

import re
from collections import Counter

# Commands that the program doesn't have yet: consoles with them are left out, and the library isn't replayed.
NOT_YET = set()

KINDS = {"theory", "script", "schedule", "trees"}


class Case:
    """A run: the words of a command, the files by their names, what has to be printed, and the status."""

    def __init__(self, name, words, texts, out, status, out_name="out"):
        self.name, self.words, self.texts, self.out, self.status = name, words, texts, out, status
        self.out_name = out_name  # What it may be called where several cases have it.

    def all_texts(self):
        """The files and what has to be printed, each with a name."""
        return {**self.texts, self.out_name: self.out}


def part_lines(text):
    """A text as the parts of a case: a line for each of its lines."""
    lines = text.split("\n")
    if lines.pop():
        raise ValueError("a text has no newline at its end")
    return [f"    | {line}" if line else "    |" for line in lines]


class Suite:
    """A file of cases. A text that several cases have stands before the first of them, and is named there."""

    def __init__(self, head, cases):
        self.lines = [f"# {head}"]
        self.uses = Counter(text for case in cases for text in case.all_texts().values())
        self.labels = {}  # The name of each text that has one.
        for case in cases:
            self.add(case)

    def add(self, case):
        self.lines.append("")
        for name, text in case.all_texts().items():
            if text and self.uses[text] > 1 and text not in self.labels:
                self.label(name, text)
        self.lines += [f"case {case.name}", f"words {' '.join(case.words)}"]
        for name, text in case.texts.items():
            self.write(f"file {name}", text)
        self.write("out", case.out)
        self.lines.append(f"status {case.status}")

    def label(self, name, text):
        taken = set(self.labels.values())
        names = [name, *(f"{name}_{number}" for number in range(2, len(taken) + 3))]
        self.labels[text] = next(it for it in names if it not in taken)
        self.lines += [f"text {self.labels[text]}", *part_lines(text), ""]

    def write(self, key, text):
        if text in self.labels:
            self.lines.append(f"{key} = {self.labels[text]}")
        else:
            self.lines += [key, *part_lines(text)] if text else [f'{key} ""']

    def text(self):
        return "\n".join(self.lines) + "\n"


# ## The library

RESULT = re.compile(r"^goal (\w+): (closed|(\d+) open|failed)", re.M)


class Proofs:
    """A script of the library, with its theory and what is printed of it."""

    def __init__(self, path):
        self.path = path
        self.name = path.stem
        self.theory = path.with_suffix(".theory")
        if not self.theory.exists():
            self.theory = path.with_name(self.name.removesuffix("_fails") + ".theory")
        self.trees = path.with_suffix(".trees").read_text(encoding="utf-8")
        self.results = RESULT.findall(self.trees)

    def closed(self):
        return sum(result == "closed" for _, result, _ in self.results)

    def status(self):
        return 0 if self.closed() == len(self.results) else 1

    def replayed(self):
        """What `replay` has to print of the trees."""
        said = {"closed": "valid closed", "failed": "failed unchecked"}
        return "".join(f"goal {name}: {said.get(result, f'valid {count} open')}\n" for name, result, count in self.results)


def proofs(top):
    return [Proofs(path) for path in sorted((top / "library").glob("*.script"))]


def library_suite(top):
    """The text of crates/cases/data/library.cases."""
    cases = []
    for it in proofs(top):
        texts = {path.name: path.read_text(encoding="utf-8") for path in (it.theory, it.path)}
        trees = f"{it.name}.trees"
        cases.append(Case(f"{it.name}: seq", ["seq", *texts], texts, it.trees, it.status(), trees))
        if "replay" not in NOT_YET:
            texts = {**texts, trees: it.trees}
            cases.append(Case(f"{it.name}: replay", ["replay", *texts], texts, it.replayed(), it.status()))
    return Suite("docs/make writes this from library/: what has to be printed of each script there.", cases).text()


def library_table(top):
    """The head and the rows of a table: for each script its theory and how many goals it has."""
    rows, all_closed = [], 0
    for it in proofs(top):
        closed = it.closed()
        all_closed += closed
        rows.append((f"`{it.path.name}`", f"`{it.theory.name}`", str(closed), str(len(it.results) - closed)))
    rows.append(("all", "", str(all_closed), ""))
    return ("Script", "Theory", "Closed", "Not closed"), rows


def laws_of(path):
    """The text of a theory without its comments, with one space between words."""
    return " ".join(re.sub("#.*", "", path.read_text(encoding="utf-8")).split())


def library_faults(top):
    """The rules and rewrites of a theory that no proof uses, and goals without a comment above them."""
    lines, used = [], {}
    if laws_of(top / "library" / "fol.theory") != laws_of(top / "crates" / "metatac" / "data" / "fol"):
        lines.append("library/fol.theory: it hasn't the laws of crates/metatac/data/fol")
    for it in proofs(top):
        steps = set(re.findall(r"^ *(?:rule|rw) (\w+)", it.trees, re.M))
        used.setdefault(it.theory, set()).update(steps)
        script = it.path.read_text(encoding="utf-8")
        if [name for name, _, _ in it.results] != re.findall(r"^goal (\w+)", script, re.M):
            lines.append(f"library/{it.name}.trees: its goals aren't those of the script")
        for name in re.findall(r"\n\ngoal (\w+)", script):
            lines.append(f"library/{it.path.name}: goal {name} has no comment above it")
    for theory, steps in used.items():
        for name in re.findall(r"^(?:rule|rewrite) (\w+)", theory.read_text(encoding="utf-8"), re.M):
            if name not in steps:
                lines.append(f"library/{theory.name}: no proof has a step by {name}")
    return lines


# ## The tutorial


class Tutorial:
    """The files and commands of docs/TUTORIAL.md, read from the front."""

    def __init__(self, top):
        self.files, self.unused, self.cases, self.wrong = {}, {}, [], []
        self.printed = {}  # What each command printed, by its words.
        self.heading = ""
        text = (top / "docs" / "TUTORIAL.md").read_text(encoding="utf-8")
        for found in re.finditer(r"^## (?:\d+\. )?(?P<head>.*)$|^```(?P<info>.*)\n(?P<body>(?:.*\n)*?)```$|^ {4}.*$", text, re.M):
            if found["head"]:
                self.heading = found["head"]
            elif found["info"] is None:
                self.wrong.append(f"docs/TUTORIAL.md: a text that is no file and no console: {found[0].strip()}")
            else:
                self.read_block(found["info"].split(), found["body"])

    def fault(self, why):
        self.wrong.append(f"docs/TUTORIAL.md, {self.heading}: {why}")

    def read_block(self, info, body):
        if info == ["console"]:
            self.read_console(body)
        elif len(info) == 2 and info[0] in KINDS:
            self.keep(info[1], body)
        elif len(info) == 3 and info[0] in KINDS and info[2] == "more" and info[1] in self.files:
            self.keep(info[1], self.files[info[1]] + body)
        else:
            self.fault(f"a text of no such kind: {' '.join(info)}")

    def keep(self, name, text):
        self.files[name] = text
        self.unused[name] = self.heading

    def read_console(self, body):
        command, out, status = None, "", 0
        for line in body.splitlines(keepends=True):
            if line == "$ echo $?\n":
                status = None
            elif line.startswith("$ "):
                self.run(command, out, status)
                command, out, status = line[2:].split(), "", 0
            elif status is None:
                status = int(line)
            else:
                out += line
        self.run(command, out, status)

    def run(self, command, out, status):
        if command is None:
            return
        if command[0] != "metatac":
            self.fault(f"a command of another program: {' '.join(command)}")
            return
        words = command[1:]
        if ">" in words:
            words, name = words[: words.index(">")], words[-1]
            if tuple(words) not in self.printed:
                self.fault(f"what is kept as {name} was not printed before")
            self.keep(name, self.printed.get(tuple(words), ""))
            return
        self.printed[tuple(words)] = out
        texts = {}
        for name in words[1:]:
            if name in self.files:
                texts[name] = self.files[name]
                self.unused.pop(name, None)
            else:
                self.fault(f"no file {name} above")
        if words[0] not in NOT_YET:
            self.cases.append(Case(f"{self.heading}: {' '.join(words)}", words, texts, out, status))


def tutorial_suite(top):
    """The text of crates/cases/data/tutorial.cases."""
    head = "docs/make writes this from docs/TUTORIAL.md: each command there, with the files as they are by then."
    return Suite(head, Tutorial(top).cases).text()


def faults(top):
    """What has to be mended by hand in library/ and in docs/TUTORIAL.md."""
    tutorial = Tutorial(top)
    unused = [f"docs/TUTORIAL.md, {head}: no command reads {name}" for name, head in tutorial.unused.items()]
    return library_faults(top) + tutorial.wrong + unused
