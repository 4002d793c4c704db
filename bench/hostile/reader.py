"""What is wrong with a file, by docs/FORMATS.md alone: a plain reader that shares nothing with the program, for the
scripts beside it. It is slow, and it is no part of what is proved.

    theory_fault(text)                 the one fault of a theory as (byte, NAME), or None
    script_fault(text, theory)         the same of a script, over the laws of read_theory(text)
    schedule_fault(text, goals)        the same of a schedule, over the names of the script's goals
    trees_fault(text, theory, goals)   the same of a file of trees
"""

import re
from collections import namedtuple

# The static faults, in the order in which one is told of several at one place.
ORDER = ("Taken UnknownName TooMany TooDeep TooBig BadNumber UnboundVar DanglingContext TwiceContext TooManyContexts "
         "MisplacedHyp NotAPattern BadUse UnboundParam UnboundMeta AtNeeded AtRefused MissingWith ExtraWith TwiceWith "
         "BadArity WrongGoal BadIndent CountDiffers NotCanonical").split()
RANK = {name: place for place, name in enumerate(ORDER)}

MOST_DEPTH, MOST_NODES, MOST_HYPOTHESES, MOST_PARAMETERS, MOST_BINDERS = 200, 20_000, 200, 16, 8
KINDS = "OutOfFuel NoMatch BadArgument BadAddress UnderBinder TooLarge NoProgress Incomplete WrongCount Failed".split()


class Refused(Exception):
    """The one fault of a text."""

    def __init__(self, place, fault):
        super().__init__(place, fault)
        self.place, self.fault = place, fault


# ## Tokens

Token = namedtuple("Token", "kind text at")
NAME = re.compile(rb"[A-Za-z][A-Za-z0-9_]*")
DIGITS = re.compile(rb"[0-9]+")
STRING = re.compile(rb'"(?:[ !#-\[\]-~]|\\["\\])*"')
BLANKS = re.compile(rb"[ \t\n\r]+")
COMMENT = re.compile(rb"#[\t\r -~]*")
MARKS = [b"==>", b"-->", b"<->", b">-", b":="] + [bytes([c]) for c in b"{}[]()<>&,;:.@|"]


def number_at(text, at):
    """The token of a number, whose sign or first digit stands here."""
    digits = DIGITS.match(text, at + (text[at:at + 1] == b"-"))
    written = text[at:digits.end()]
    if digits[0] != b"0" and digits[0][:1] == b"0" or written == b"-0":
        raise Refused(at, "BadNumber")
    # Longer ones are out of range, and are slow to read.
    if len(digits[0]) > 19 or not -2 ** 63 <= int(written) < 2 ** 63:
        raise Refused(at, "BadNumber")
    return Token("Num", written, at)


def token_at(text, at):
    """The longest token that begins here."""
    first = text[at:at + 1]
    quoted = first == b"'"
    name = NAME.match(text, at + quoted)
    if name:
        if len(name[0]) > 64:
            raise Refused(at, "LongName")
        kind = "Small" if name[0][:1].islower() else "Cap"
        return Token(kind + "Var" * quoted, text[at:name.end()], at)
    if DIGITS.match(text, at) or first == b"-" and DIGITS.match(text, at + 1):
        return number_at(text, at)
    if first == b'"':
        string = STRING.match(text, at)
        if not string or len(string[0]) > 258:
            raise Refused(at, "BadString")
        return Token("Str", string[0], at)
    for mark in MARKS:
        if text.startswith(mark, at):
            return Token("Mark", mark, at)
    raise Refused(at, "BadByte")


def tokens(text):
    """All tokens of a text."""
    made, at, opened = [], 0, 0
    while at < len(text):
        blanks = BLANKS.match(text, at)
        if blanks:
            at = blanks.end()
            continue
        if text[at:at + 1] == b"#":
            at = COMMENT.match(text, at).end()
            if at < len(text) and text[at:at + 1] != b"\n":
                raise Refused(at, "BadByte")
            continue
        token = token_at(text, at)
        if token.kind == "Mark" and token.text in b"([{":
            if opened == 250:
                raise Refused(at, "TooNested")
            opened += 1
        elif token.kind == "Mark" and token.text in b")]}":
            opened = max(0, opened - 1)
        made.append(token)
        at += len(token.text)
    return made


class Words:
    """The tokens of a text, of which some are read."""

    def __init__(self, text):
        self.text, self.tokens, self.next = text, tokens(text), 0

    def stuck(self):
        raise Refused(self.place(), "Syntax")

    def place(self):
        return self.tokens[self.next].at if self.next < len(self.tokens) else len(self.text)

    def peek(self, ahead=0):
        at = self.next + ahead
        return self.tokens[at] if at < len(self.tokens) else Token("", b"", len(self.text))

    def is_mark(self, mark, ahead=0):
        token = self.peek(ahead)
        return token.kind == "Mark" and token.text == mark.encode()

    def is_word(self, *words):
        token = self.peek()
        return token.kind == "Small" and token.text.decode() in words

    def is_kind(self, *kinds):
        return self.peek().kind in kinds

    def take(self, *kinds):
        if not self.is_kind(*kinds):
            self.stuck()
        self.next += 1
        return self.tokens[self.next - 1]

    def mark(self, mark):
        if not self.is_mark(mark):
            self.stuck()
        return self.take("Mark")

    def word(self, *words):
        if not self.is_word(*words):
            self.stuck()
        return self.take("Small")

    def list(self, part):
        """One or more parts, separated by semicolons."""
        made = [part()]
        while self.is_mark(";"):
            self.mark(";")
            made.append(part())
        return made

    def between(self, first, part, last):
        self.mark(first)
        made = self.list(part)
        self.mark(last)
        return made


# ## Terms and patterns

# A node as it is written. `form` is Var, Meta or Op; a parameter is its token, or for a hole the pair of `@` and the name.
Node = namedtuple("Node", "form token contexts arguments parameters subterms")
Bound = namedtuple("Bound", "binders body")
# An item of a schema: a hypothesis has a name and a body, a context a name and its lists. `at` is its first byte.
Item = namedtuple("Item", "at token body contexts arguments")
Schema = namedtuple("Schema", "at items conclusion")


class Terms:
    """The grammar of terms, or of patterns."""

    def __init__(self, words, is_pattern):
        self.words, self.is_pattern = words, is_pattern

    def parameter(self):
        words = self.words
        if self.is_pattern and words.is_mark("@"):
            return words.mark("@"), words.take("Small")
        return words.take("Num", "Str")

    def binders(self):
        """The binders that stand here, maybe none."""
        words, made = self.words, []
        if words.is_kind("Small") and (words.is_mark(",", 1) or words.is_mark(".", 1)):
            made.append(words.take("Small"))
            while words.is_mark(","):
                words.mark(",")
                made.append(words.take("Small"))
            words.mark(".")
        return made

    def bound(self):
        binders = self.binders()
        return Bound(binders, self.node())

    def contexts(self):
        return self.words.between("<", lambda: self.words.take("Cap"), ">") if self.words.is_mark("<") else []

    def arguments(self):
        return self.words.between("[", self.node, "]") if self.words.is_mark("[") else []

    def node(self):
        words = self.words
        if words.is_kind("SmallVar"):
            return Node("Var", words.take("SmallVar"), [], [], [], [])
        if self.is_pattern and words.is_kind("CapVar"):
            token = words.take("CapVar")
            contexts = self.contexts()
            return Node("Meta", token, contexts, self.arguments(), [], [])
        token = words.take("Small")
        parameters = words.between("[", self.parameter, "]") if words.is_mark("[") else []
        subterms = words.between("{", self.bound, "}") if words.is_mark("{") else []
        return Node("Op", token, [], [], parameters, subterms)

    def item(self):
        words, at = self.words, self.words.place()
        if self.is_pattern and words.is_mark("<"):
            words.mark("<")
            token = words.take("Cap")
            contexts = self.contexts()
            arguments = self.arguments()
            words.mark(">")
            return Item(at, token, None, contexts, arguments)
        token = words.take("Small")
        words.mark(":")
        return Item(at, token, self.node(), [], [])

    def schema(self):
        words, at, items = self.words, self.words.place(), []
        if not words.is_mark(">-"):
            items = words.list(self.item)
        words.mark(">-")
        return Schema(at, items, self.node())


class Found:
    """The static faults that were found so far."""

    def __init__(self):
        self.least = None

    def add(self, place, fault):
        found = (place, RANK[fault])
        if self.least is None or found < self.least:
            self.least = found

    def too_many(self, parts, most, place):
        if len(parts) > most:
            self.add(place(parts[most]), "TooMany")

    def told(self):
        if self.least is not None:
            raise Refused(self.least[0], ORDER[self.least[1]])


def place_of(part):
    """The first byte of a parameter."""
    return part[0].at if isinstance(part[0], Token) else part.at


def name_of(token):
    """The name of a variable, without its quote."""
    return token.text.lstrip(b"'")


class Check:
    """The static rules of the terms or patterns of one sequent, schema, given term, condition, redex or contractum."""

    def __init__(self, found, free=()):
        self.found, self.free = found, set(free)
        self.scope, self.nodes = [], 0  # Names with a number each, since names may shadow one another.
        self.made = 0
        self.uses, self.holes = [], []  # Second-order variables and contexts, and holes, in the order of the text.
        self.strict = False  # Whether arguments have to be distinct variables.

    def bind(self, token):
        self.scope.append((token.text, self.made))
        self.made += 1

    def meant(self, token):
        """What a variable means; None where nothing has its name."""
        for name, number in reversed(self.scope):
            if name == name_of(token):
                return number
        return name_of(token) if name_of(token) in self.free else None

    def node(self, node, depth=1):
        found = self.found
        self.nodes += 1
        if depth > MOST_DEPTH:
            found.add(node.token.at, "TooDeep")
        if node.form == "Var" and self.meant(node.token) is None:
            found.add(node.token.at, "UnboundVar")
        if node.form == "Meta":
            self.uses.append(("Meta", node.token, node.contexts, node.arguments))
            self.arguments(node.contexts, node.arguments, depth)
        found.too_many(node.parameters, MOST_PARAMETERS, place_of)
        self.holes += [part[1] for part in node.parameters if isinstance(part[0], Token)]
        for bound in node.subterms:
            found.too_many(bound.binders, MOST_BINDERS, lambda token: token.at)
            for token in bound.binders:
                self.bind(token)
            self.node(bound.body, depth + 1)
            del self.scope[len(self.scope) - len(bound.binders):]

    def arguments(self, contexts, arguments, depth):
        found, met = self.found, set()
        found.too_many(contexts, 8, lambda token: token.at)
        found.too_many(arguments, 8, lambda node: node.token.at)
        for place, token in enumerate(contexts):
            if token.text in {other.text for other in contexts[:place]}:
                found.add(token.at, "TwiceContext")
        for node in arguments:
            if self.strict:
                meaning = self.meant(node.token) if node.form == "Var" else None
                if node.form != "Var" or meaning is not None and meaning in met:
                    found.add(node.token.at, "NotAPattern")
                met.add(meaning)
            self.node(node, depth + 1)

    def schema(self, schema, is_conclusion=False):
        """The rules of one schema; answers the names of its contexts."""
        found, names = self.found, []
        self.strict = is_conclusion
        found.too_many(schema.items, MOST_HYPOTHESES, lambda item: item.at)
        contexts = [item for item in schema.items if item.body is None]
        for item in schema.items:
            if item.body is None:
                self.uses.append(("Context", item.token, item.contexts, item.arguments))
                if item.token.text in names:
                    found.add(item.token.at, "TwiceContext")
                if is_conclusion and item in contexts[2:]:
                    found.add(item.token.at, "TooManyContexts")
                self.arguments(item.contexts, item.arguments, 1)
                names.append(item.token.text)
                continue
            self.node(item.body)
            self.bind(item.token)
            places = [item.at for item in contexts]
            if is_conclusion and len(contexts) == 2 and not places[0] < item.at < places[1]:
                found.add(item.token.at, "MisplacedHyp")
        self.node(schema.conclusion)
        if self.nodes > MOST_NODES:
            found.add(schema.at, "TooBig")
        return names


def lists_of(node):
    """Each use of a second-order variable in a pattern, in the order of the text."""
    if node.form == "Meta":
        yield node
    for part in node.arguments + [bound.body for bound in node.subterms]:
        yield from lists_of(part)


def dangling(found, schema):
    """A name in a list of contexts that is no context item before it."""
    before = set()
    for item in schema.items:
        uses = list(lists_of(item.body)) if item.body else [item] + [use for part in item.arguments for use in lists_of(part)]
        for token in (token for use in uses for token in use.contexts):
            if token.text not in before:
                found.add(token.at, "DanglingContext")
        if item.body is None:
            before.add(item.token.text)
    for token in (token for use in lists_of(schema.conclusion) for token in use.contexts):
        if token.text not in before:
            found.add(token.at, "DanglingContext")


def bad_uses(found, uses):
    first = {}
    for role, token, contexts, arguments in uses:
        use = (role, [part.text for part in contexts], len(arguments))
        known = first.setdefault(name_of(token), use)
        if known != use:
            found.add(token.at, "BadUse")


# ## Theories

# What a script needs of a law: whether it is a rule, whether its conclusion has two contexts, and its needs with the number of
# arguments of each.
Law = namedtuple("Law", "is_rule has_two needs")


def check_rule(found, premises, conclusion):
    found.too_many(premises, 16, lambda schema: schema.at)
    checks = [Check(found) for _ in premises] + [Check(found)]
    for check, schema in zip(checks, [*premises, conclusion]):
        check.schema(schema, schema is conclusion)
        dangling(found, schema)
    items = {item.token.text for item in conclusion.items if item.body is None}
    for item in (item for schema in premises for item in schema.items if item.body is None):
        if item.token.text not in items:
            found.add(item.token.at, "DanglingContext")
    bad_uses(found, [use for check in checks for use in check.uses])
    kept = {token.text for token in checks[-1].holes}
    for token in (token for check in checks[:-1] for token in check.holes):
        if token.text not in kept:
            found.add(token.at, "UnboundParam")
    known = {name_of(token) for role, token, _, _ in checks[-1].uses if role == "Meta"}
    needs = {}
    for role, token, _, arguments in (use for check in checks[:-1] for use in check.uses):
        if role == "Meta" and name_of(token) not in known:
            needs.setdefault(name_of(token), len(arguments))
    return Law(True, len([item for item in conclusion.items if item.body is None]) == 2, needs)


def check_rewrite(found, conditions, redex, contractum):
    found.too_many(conditions, 15, lambda node: node.token.at)
    parts = [*conditions, redex, contractum]
    checks = []
    for place, node in enumerate(parts):
        check = Check(found)
        check.strict = place == len(conditions)
        check.node(node)
        if check.nodes > MOST_NODES:
            found.add(node.token.at, "TooBig")
        for token in (token for use in lists_of(node) for token in use.contexts):
            found.add(token.at, "DanglingContext")
        checks.append(check)
    bad_uses(found, [use for check in checks for use in check.uses])
    own = checks.pop(len(conditions))
    for check in checks:
        for token in check.holes:
            if token.text not in {hole.text for hole in own.holes}:
                found.add(token.at, "UnboundParam")
        for _, token, _, _ in check.uses:
            if name_of(token) not in {name_of(use[1]) for use in own.uses}:
                found.add(token.at, "UnboundMeta")
    return Law(False, False, {})


def parse_law(words, terms):
    """A rule or a rewrite as it is written: whether it is a rule, its name and its parts."""
    is_rule = words.word("rule", "rewrite").text == b"rule"
    name, parts = words.take("Small"), []
    words.mark(":")
    if is_rule:
        if not words.is_mark("==>"):
            parts.append(terms.schema())
            while words.is_mark(","):
                words.mark(",")
                parts.append(terms.schema())
        words.mark("==>")
        return is_rule, name, [parts, terms.schema()]
    parts.append(terms.node())
    while words.is_mark("&"):
        words.mark("&")
        parts.append(terms.node())
    if len(parts) > 1 or words.is_mark("-->"):
        words.mark("-->")
        redex = terms.node()
    else:
        redex = parts.pop()
    words.mark("<->")
    return is_rule, name, [parts, redex, terms.node()]


def read_theory(text):
    """The laws of a theory by their names."""
    words, written, laws, found = Words(text), [], {}, Found()
    while words.peek().kind:
        written.append(parse_law(words, Terms(words, True)))
    for is_rule, name, parts in written:
        if name.text in laws:
            found.add(name.at, "Taken")
        law = check_rule(found, *parts) if is_rule else check_rewrite(found, *parts)
        laws.setdefault(name.text, law)
    found.told()
    return laws


# ## Steps and scripts

# A strategy as it is written, with its depth and the number of its nodes.
Strategy = namedtuple("Strategy", "depth nodes")
# A step as it is written.
Step = namedtuple("Step", "is_rule name at given place address")


def parse_step(words):
    if words.word("rule", "rw").text == b"rule":
        name, at, given = words.take("Small"), None, []
        if words.is_word("at"):
            words.word("at")
            at = words.take("Num")
        if words.is_word("with"):
            words.word("with")
            given = words.between("[", lambda: parse_given(words), "]")
        return Step(True, name, at, given, None, [])
    name, place, address = words.take("Small"), None, []
    if words.word("concl", "hyp").text == b"hyp":
        place = words.take("Num")
    words.mark("[")
    if not words.is_mark("]"):
        address = words.list(lambda: words.take("Num"))
    words.mark("]")
    return Step(False, name, None, [], place, address)


def parse_given(words):
    name = words.take("Cap")
    words.mark(":=")
    at = words.place()
    return name, at, Terms(words, False).bound()


def is_within(token, least, most):
    return least <= int(token.text) <= most


def check_step(found, laws, step):
    law = laws.get(step.name.text)
    if law is None or law.is_rule != step.is_rule:
        found.add(step.name.at, "UnknownName")
        law = None
    if step.at and not is_within(step.at, 1, 201) or step.place and not is_within(step.place, 1, 200):
        found.add((step.at or step.place).at, "BadNumber")
    for token in step.address[:200]:
        if not is_within(token, 1, 20_000):
            found.add(token.at, "BadNumber")
    if len(step.address) > 200:
        found.add(step.address[200].at, "BadNumber")
    if law and law.is_rule:
        if law.has_two and not step.at:
            found.add(step.name.at, "AtNeeded")
        if not law.has_two and step.at:
            found.add(step.at.at, "AtRefused")
        if set(law.needs) - {name.text for name, _, _ in step.given}:
            found.add(step.name.at, "MissingWith")
    for place, (name, at, bound) in enumerate(step.given):
        if law and name.text not in law.needs:
            found.add(name.at, "ExtraWith")
        if law and name.text in {other.text for other, _, _ in step.given[:place]}:
            found.add(name.at, "TwiceWith")
        if law and name.text in law.needs and law.needs[name.text] != len(bound.binders):
            found.add(name.at, "BadArity")
        check_given(found, at, bound)


def check_given(found, at, bound):
    check = Check(found, {b"x%d" % number for number in range(1, 201)})
    found.too_many(bound.binders, MOST_BINDERS, lambda token: token.at)
    for token in bound.binders:
        check.bind(token)
    check.node(bound.body)
    if check.nodes > MOST_NODES:
        found.add(at, "TooBig")


class Strategies:
    """The grammar of strategies, and the faults of its numbers, steps and races."""

    def __init__(self, words, found, laws):
        self.words, self.found, self.laws = words, found, laws
        self.steps, self.late = [], []

    def strategy(self):
        made = self.chain()
        while self.words.is_word("orelse"):
            self.words.word("orelse")
            made = self.joined([made, self.chain()])
        return made

    def joined(self, parts):
        return Strategy(1 + max(part.depth for part in parts), 1 + sum(part.nodes for part in parts))

    def chain(self):
        words, made = self.words, self.atom()
        while words.is_word("then", "thenl"):
            if words.word("then", "thenl").text == b"then":
                made = self.joined([made, self.atom()])
            else:
                made = self.joined([made, *words.between("[", self.strategy, "]")])
        return made

    def atom(self):
        words = self.words
        if not words.is_word("try", "repeat", "progress", "complete"):
            return self.part()
        word = words.take("Small").text
        if word == b"repeat":
            number = words.take("Num")
            if not is_within(number, 0, 400):
                self.late.append((number.at, "BadNumber"))
        made = self.part()
        return self.joined([made, Strategy(1, 1)] if word == b"try" else [made])

    def part(self):
        words = self.words
        if words.is_mark("("):
            words.mark("(")
            made = self.strategy()
            words.mark(")")
            return made
        if words.is_word("race"):
            words.word("race")
            places = []

            def branch():
                places.append(words.place())
                return self.strategy()
            made = words.between("[", branch, "]")
            if len(places) > 8:
                self.late.append((places[8], "TooMany"))
            return self.joined(made)
        if words.is_word("id", "fail"):
            words.take("Small")
        elif words.is_word("rule", "rw"):
            self.steps.append(parse_step(words))
        else:
            words.stuck()
        return Strategy(1, 1)


def check_sequent(found, sequent):
    Check(found).schema(sequent)


def read_script(text, laws):
    """The names of the goals of a script."""
    words, found, names, written = Words(text), Found(), [], []
    while words.peek().kind:
        words.word("goal")
        name, fuel = words.take("Small"), None
        if words.is_word("fuel"):
            words.word("fuel")
            fuel = words.take("Num")
        words.mark(":")
        sequent = Terms(words, False).schema()
        words.word("by")
        at = words.place()
        strategies = Strategies(words, found, laws)
        written.append((name, fuel, sequent, at, strategies.strategy(), strategies))
    for name, fuel, sequent, at, strategy, strategies in written:
        if name.text in names:
            found.add(name.at, "Taken")
        names.append(name.text)
        if strategy.nodes > 4096:
            found.add(name.at, "TooMany")
        if fuel and not is_within(fuel, 0, 400):
            found.add(fuel.at, "BadNumber")
        check_sequent(found, sequent)
        if strategy.depth > 64:
            found.add(at, "TooDeep")
        for place, fault in strategies.late:
            found.add(place, fault)
        for step in strategies.steps:
            check_step(found, laws, step)
    found.told()
    return names


# ## Schedules

EVENTS = {b"claim": 0, b"send": 0, b"again": 0, b"die": 1, b"lose": 1}


def read_schedule(text, goals):
    words, found, names = Words(text), Found(), set()
    late = []
    while words.peek().kind:
        words.word("goal")
        late.append((words.take("Small"), None))
        while words.is_word("claim", "send", "again", "die", "lose", "reissue"):
            word = words.take("Small").text
            if word == b"reissue":
                continue
            late.append((words.take("Num"), (EVENTS[word], 64)))
            if word == b"send" and words.is_kind("Num"):
                late.append((words.take("Num"), (1, 1_000_000)))
    for token, limits in late:
        if limits:
            if not is_within(token, *limits):
                found.add(token.at, "BadNumber")
            continue
        if token.text in names:
            found.add(token.at, "Taken")
        if token.text not in goals:
            found.add(token.at, "UnknownName")
        names.add(token.text)
    found.told()
    return names


# ## Files

LONGEST = {"theory": 1_048_576, "script": 1_048_576, "schedule": 1_048_576, "trees": 67_108_864}


def fault_of(read, *given):
    try:
        read(*given)
    except Refused as refused:
        return refused.place, refused.fault
    return None


def theory_fault(text):
    return fault_of(read_theory, text)


def script_fault(text, theory):
    return fault_of(read_script, text, theory)


def schedule_fault(text, goals):
    return fault_of(read_schedule, text, goals)


def refusal(files):
    """The line that refuses one of these files, each with its kind and its bytes, in the order of the words; None where none
    is refused."""
    laws, goals = {}, []
    for kind, text in files:
        if len(text) > LONGEST[kind]:
            return b"refused: %s is longer than %d bytes\n" % (kind.encode(), LONGEST[kind])
        try:
            if kind == "theory":
                laws = read_theory(text)
            elif kind == "script":
                goals = read_script(text, laws)
            elif kind == "schedule":
                read_schedule(text, goals)
        except Refused as refused:
            return b"refused: %s byte %d: %s\n" % (kind.encode(), refused.place, refused.fault.encode())
    return None
