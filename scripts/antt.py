"""Runs definitions of specs/ that are of first order, without their types. It proves nothing: that is for `rt check`.

A number is an int, a list a list, a record a dict, a constructor with what it is of a tuple."""
import contextlib
import functools
import os
import re
import string
import sys
import unicodedata

sys.setrecursionlimit(100000)

TOKEN = re.compile(
    r'(?P<white>\s+)|(?P<string>"(?:[^"\\]|\\.)*")|(?P<number>\d+)|(?P<name>[^\W\d]\w*)|(?P<sign>\+\+|==|&&|\|\||\[\]|↦|→|\S)'
)
# how strong an operator binds, and whether to the right
OPERATORS = {"||": (1, 1), "&&": (2, 1), "==": (3, 0), "++": (4, 1), "∷": (4, 1), "+": (5, 0), "-": (5, 0), "%": (6, 0)}
ENDS = {")", "]", "}", ";", ",", "then", "else", "in", "↦", "|", "=", "where", None}


class Parser:
    """Reads an expression or a pattern: a tuple whose first member says which."""

    def __init__(self, text):
        self.tokens = []
        for found in TOKEN.finditer(text):
            if found.lastgroup != "white":
                glued = found.start() > 0 and not text[found.start() - 1].isspace()
                self.tokens.append((found.lastgroup, found.group(), glued))
        self.at = 0

    def peek(self, ahead=0):
        return self.tokens[self.at + ahead][1] if self.at + ahead < len(self.tokens) else None

    def next(self):
        self.at += 1
        return self.tokens[self.at - 1]

    def take(self, *wanted):
        if self.peek() not in wanted:
            raise SyntaxError(f"{wanted} wanted, not {self.peek()}")
        return self.next()[1]

    def skip_until(self, *ends):
        deep = 0
        while deep or self.peek() not in ends:
            deep += {"(": 1, ")": -1}.get(self.next()[1], 0)

    def expression(self):
        if self.peek() == "let":
            self.next()
            name = self.next()[1]
            self.skip_until("=")
            self.take("=")
            value = self.expression()
            self.take("in")
            return ("let", name, value, self.expression())
        if self.peek() == "if":
            self.next()
            test = self.expression()
            self.take("then")
            one = self.expression()
            self.take("else")
            return ("if", test, one, self.expression())
        if self.peek() == "λ":
            self.next()
            names = []
            while self.peek() != ".":
                if self.peek() == "(":
                    self.next()
                    names.append(self.next()[1])
                    self.skip_until(")")
                    self.take(")")
                else:
                    names.append(self.next()[1])
            self.next()
            return ("function", names, self.expression())
        return self.operation(0)

    def operation(self, least):
        left = self.application()
        while self.peek() in OPERATORS and OPERATORS[self.peek()][0] >= least:
            sign = self.next()[1]
            strength, right = OPERATORS[sign]
            begins = self.peek() in ("let", "if", "λ")
            left = ("operation", sign, left, self.expression() if begins else self.operation(strength + 1 - right))
        return left

    def application(self):
        called, given = self.atom(), []
        while self.peek() not in ENDS and self.peek() not in OPERATORS:
            given.append(self.expression() if self.peek() in ("let", "if", "λ") else self.atom())
        return ("application", called, given) if given else called

    def atom(self):
        kind, text, _ = self.next()
        if text == "(":
            parts = [self.expression()]
            while self.take(",", ")") == ",":
                parts.append(self.expression())
            made = parts[0] if len(parts) == 1 else ("record", None, [(str(i), p) for i, p in enumerate(parts)])
        elif text == "record":
            base = None if self.peek() == "{" else self.atom()
            self.take("{")
            fields = []
            while self.peek() != "}":
                name = self.next()[1]
                self.take("=")
                fields.append((name, self.expression()))
                if self.peek() == ";":
                    self.next()
            self.next()
            made = ("record", base, fields)
        elif text == "elim":
            made = ("elim", self.atom(), self.cases())
        elif kind == "number" or kind == "string" or text == "[]":
            made = ("value", int(text) if kind == "number" else [] if text == "[]" else text[1:-1])
        else:
            made = ("name", text)
        while self.peek() == "." and self.tokens[self.at][2] and self.tokens[self.at + 1][2]:
            self.next()
            made = ("field", made, self.next()[1])
        return made

    def cases(self):
        self.take("[")
        cases = []
        while self.peek() != "]":
            if self.peek() == "|":
                self.next()
            pattern = self.pattern_with()
            self.take("↦")
            cases.append((pattern, self.expression()))
        self.next()
        return cases

    def pattern(self):
        kind, text, _ = self.next()
        if text == "(":
            inner = self.pattern_with()
            self.take(")")
            return inner
        while self.peek() == "." and self.tokens[self.at][2]:
            self.next()
            text = self.next()[1]
        if kind == "number" or text in ("[]", "zero", "true", "false"):
            return ("value", int(text) if kind == "number" else {"[]": [], "zero": 0}.get(text, text == "true"))
        return ("made", text, []) if text[0].isupper() or text == "suc" else ("name", text)

    def pattern_with(self):
        first = self.pattern()
        if first[0] == "name" and self.peek() not in ENDS and self.peek() != "∷":
            first = ("made", first[1], [])
        while first[0] == "made" and self.peek() not in ENDS and self.peek() != "∷":
            first[2].append(self.pattern())
        if self.peek() == "∷":
            self.next()
            return ("made", "∷", [first, self.pattern_with()])
        return first


def matches(pattern, value, names):
    if pattern[0] == "name":
        names[pattern[1]] = value
        return True
    if pattern[0] == "value":
        return type(value) is type(pattern[1]) and value == pattern[1]
    made, parts = pattern[1], pattern[2]
    if made == "∷":
        return bool(value) and matches(parts[0], value[0], names) and matches(parts[1], value[1:], names)
    if made == "suc":
        return value > 0 and matches(parts[0], value - 1, names)
    return value[0] == made and all(matches(p, v, names) for p, v in zip(parts, value[1:]))


def call(called, *given):
    """A call with so many arguments, or fewer, or more."""
    while given:
        if isinstance(called, tuple):
            return called + given
        size = called.size
        if len(given) < size:
            return sized(size - len(given), functools.partial(called, *given))
        called, given = called(*given[:size]), given[size:]
    return called


def sized(size, function):
    function = functools.partial(function)
    function.size = size
    return function


def count_front(test, items):
    return next((i for i, item in enumerate(items) if not call(test, item)), len(items))


GIVEN = {name: sized(size, function) for name, size, function in [
    ("length", 1, len), ("take", 2, lambda n, xs: xs[:n]), ("drop", 2, lambda n, xs: xs[n:]),
    ("map", 2, lambda f, xs: [call(f, x) for x in xs]), ("reverse", 1, lambda xs: xs[::-1]),
    ("flat_map", 2, lambda f, xs: [y for x in xs for y in call(f, x)]),
    ("prefix_len", 2, count_front), ("suffix_len", 2, lambda f, xs: count_front(f, xs[::-1])),
    ("take_while", 2, lambda f, xs: xs[:count_front(f, xs)]),
    ("list_all", 2, lambda f, xs: all(call(f, x) for x in xs)),
    ("list_any", 2, lambda f, xs: any(call(f, x) for x in xs)),
    ("count_by", 2, lambda f, xs: sum(call(f, x) for x in xs)),
    ("sum_by", 2, lambda f, xs: sum(call(f, x) for x in xs)),
    ("before_first", 2, lambda f, xs: xs[:count_front(lambda_not(f), xs)]),
    ("after_first", 2, lambda f, xs: xs[count_front(lambda_not(f), xs) + 1:]),
    ("onto_first", 2, lambda x, xs: [[x] + xs[0]] + xs[1:] if xs else [[x]]),
    ("starts_with", 3, lambda same, xs, ys: xs[:len(ys)] == ys),
    ("is_some", 1, lambda o: o != ("None",)), ("option_or", 2, lambda a, b: b if a == ("None",) else a),
    ("option_map", 2, lambda f, o: o if o == ("None",) else ("Some", call(f, o[1]))),
    ("nat_le", 2, lambda a, b: a <= b), ("nat_lt", 2, lambda a, b: a < b), ("nat_eq", 2, lambda a, b: a == b),
    ("not", 1, lambda a: not a), ("suc", 1, lambda a: a + 1), ("codes", 1, lambda s: list(s.encode())),
    ("str_eq_ignore_ascii_case", 2, lambda a, b: bytes(a).lower() == bytes(b).lower()),
    ("is_ascii_alphabetic", 1, lambda b: chr(b) in string.ascii_letters),
    ("is_ascii_alphanumeric", 1, lambda b: chr(b) in string.ascii_letters + string.digits),
    ("is_ascii_digit", 1, lambda b: chr(b) in string.digits),
    ("is_ascii_hexdigit", 1, lambda b: chr(b) in string.hexdigits),
    ("is_ascii_punctuation", 1, lambda b: chr(b) in string.punctuation),
    ("is_ascii_whitespace", 1, lambda b: b in (9, 10, 12, 13, 32)),
    ("slice_split", 2, lambda f, xs: split(f, xs)), ("slice_range", 3, lambda xs, i, j: xs[i:j]),
    ("slice_index", 2, lambda xs, i: xs[i]), ("bytes_eq", 2, lambda a, b: a == b),
    ("slice_get", 2, lambda xs, i: ("Some", xs[i]) if i < len(xs) else ("None",)),
    ("is_utf8", 1, lambda xs: characters(xs) is not None), ("chars", 1, lambda xs: list(map(ord, characters(xs) or ""))),
    ("general_category", 1, lambda c: unicodedata.category(chr(c))),
    ("general_category_eq", 2, lambda a, b: a == CATEGORIES[b[0]]),
    ("in_group", 2, lambda group, a: a[0] == CATEGORIES[group[0]]),
]}
# the categories of Unicode that definitions name
CATEGORIES = {"SpaceSeparator": "Zs", "Punctuation": "P", "Symbol": "S"}


def split(test, items):
    parts = [[]]
    for item in items:
        if call(test, item):
            parts.append([])
        else:
            parts[-1].append(item)
    return parts


def characters(code):
    """The text that these bytes are, if they are UTF-8."""
    try:
        return bytes(code).decode("utf8")
    except UnicodeDecodeError:
        return None


def lambda_not(test):
    return sized(1, lambda x: not call(test, x))


SIGNS = {
    "∷": lambda a, b: [a] + b, "++": lambda a, b: a + b, "==": lambda a, b: a == b, "+": lambda a, b: a + b,
    "-": lambda a, b: max(0, a - b), "%": lambda a, b: a % b,
}


class Module:
    """A file of definitions, and what it imports."""

    def __init__(self, library, text):
        self.library, self.clauses, self.imported, self.called, self.known = library, {}, {}, {}, {}
        # what a `data` has, and of what is in a `module` with parameters these parameters and the names there
        self.makers, self.blocks, self.statements = set(), {}, {}
        lines = [line for line in text.split("\n") if line.strip() and not line.lstrip().startswith("--")]
        for item in joined(lines):
            words = item.split()
            if "use" in words[:2]:
                self.add_import(" ".join(words[words.index("use") + 1:]))
            elif words[:2] == ["module", "_"]:
                self.add_block(item)
            elif "data" in words[:2]:
                self.makers.update(re.findall(r"^  (\w+) :", item, re.M))
            elif re.match(r"\w+ :", item):
                self.statements[words[0]] = item
            elif not is_no_clause(item):
                self.clauses.setdefault(words[0], []).append(clause(item))

    def add_import(self, text):
        listed = re.match(r"([\w.]+)\.\{(.*)\}$", text)
        if listed:
            for name in listed.group(2).split(", "):
                own = name.split(" as ")
                self.imported[own[-1]] = (listed.group(1), own[0])
        else:
            path = text.split(" as ")
            self.called[path[-1].split(".")[-1]] = path[0]

    def add_block(self, item):
        head, body = re.split(r"\bwhere\n", item, maxsplit=1)
        parameters = " ".join(re.findall(r"\(([\w ]+) :", head)).split()
        names = set()
        for inner in joined([line[2:] for line in body.split("\n")]):
            if not is_no_clause(inner):
                name = inner.split()[0]
                patterns, term, local = clause(inner)
                names.add(name)
                self.blocks[name] = (parameters, names)
                self.clauses.setdefault(name, []).append(([("name", p) for p in parameters] + patterns, term, local))

    def makes(self, name):
        """Whether this is the name of what a `data` has."""
        if name in self.imported:
            path, own = self.imported[name]
            other = self.library.module(path)
            return other is not None and other.makes(own)
        return name in self.makers

    def value(self, name):
        if name not in self.known:
            self.known[name] = self.found(name)
        return self.known[name]

    def found(self, name):
        if name in self.clauses:
            clauses = [([self.resolved(p) for p in patterns], term, local) for patterns, term, local in self.clauses[name]]
            return defined(self, name, clauses, {})
        if name in self.makers:
            return (name,)
        if name in self.imported:
            path, own = self.imported[name]
            if own in self.library.given:
                return self.library.given[own]
            other = self.library.module(path)
            if other and (own in other.clauses or own in other.imported or own in other.makers):
                return other.value(own)
            name = own
        if name in ("true", "false", "zero"):
            return {"true": True, "false": False, "zero": 0}[name]
        return (name,) if name[0].isupper() else GIVEN[name]

    def resolved(self, pattern):
        """A pattern whose names are told from what a `data` has."""
        if pattern[0] == "name" and self.makes(pattern[1]):
            return ("made", pattern[1], [])
        return ("made", pattern[1], [self.resolved(p) for p in pattern[2]]) if pattern[0] == "made" else pattern


class Library:
    """The modules of a folder crates/, where some names that are imported have a given value."""

    def __init__(self, crates, given=None):
        self.crates, self.given, self.modules = crates, given or {}, {}

    def file(self, path):
        return os.path.join(self.crates, *path.split(".")[1:]) + ".antt"

    def module(self, path):
        if path not in self.modules:
            file = self.file(path)
            self.modules[path] = Module(self, open(file, encoding="utf8").read()) if os.path.exists(file) else None
        return self.modules[path]

    def forget(self):
        """Forgets all values, but not the modules."""
        for module in filter(None, self.modules.values()):
            module.known.clear()

    @contextlib.contextmanager
    def instead(self, path, text):
        """A module has another text."""
        before = self.module(path)
        self.forget()
        self.modules[path] = Module(self, text)
        yield
        self.modules[path] = before
        self.forget()

    def sides(self, path, name):
        """The two sides of an equation that a file states."""
        module = self.module(path)
        left, right = module.statements[name].split(" :", 1)[1].split(" ≡", 1)
        return [value_of(Parser(side).expression(), {}, module) for side in (left, right)]


def is_no_clause(item):
    return re.match(r"(abbrev|unfoldable|unfolding|pub|data|record|mod|mutual)\b|\S+ :", item)


def joined(lines):
    """Lines, with those that continue an item in one with it."""
    items = []
    for line in lines:
        if line[0] in " })]":
            items[-1] += "\n" + line
        else:
            items.append(line)
    return items


def clause(item):
    """The patterns of a clause, its body, and the clauses of its own definitions."""
    head, *own = re.split(r"\n\s*where\n", item, maxsplit=1)
    parser = Parser(head)
    parser.next()
    patterns = []
    while parser.peek() != "=":
        patterns.append(parser.pattern())
    parser.next()
    local = {}
    if own:
        indent = len(own[0]) - len(own[0].lstrip())
        for inner in joined([line[indent:] for line in own[0].split("\n")]):
            if not re.match(r"\S+ :", inner):
                local.setdefault(inner.split()[0], []).append(clause(inner))
    return patterns, parser.expression(), local


def defined(module, name, clauses, outer):
    def run(*given):
        for patterns, body, local in clauses:
            names = dict(outer)
            if all(matches(p, v, names) for p, v in zip(patterns, given)):
                if name in module.blocks and not outer:
                    names[None] = module.blocks[name]
                for own in local:
                    names[own] = defined(module, own, local[own], names)
                return value_of(body, names, module)
        raise ValueError(f"no clause of {name}")

    return sized(len(clauses[0][0]), run) if clauses[0][0] else run()


def value_of(term, names, module):
    kind = term[0]
    if kind == "name":
        if term[1] in names:
            return names[term[1]]
        parameters, inside = names.get(None, ([], ()))
        value = module.value(term[1])
        return call(value, *[names[p] for p in parameters]) if term[1] in inside else value
    if kind == "value":
        return term[1]
    if kind == "application":
        return call(value_of(term[1], names, module), *[value_of(part, names, module) for part in term[2]])
    if kind == "operation":
        left = value_of(term[2], names, module)
        if term[1] in ("&&", "||"):
            return value_of(term[3], names, module) if left == (term[1] == "&&") else left
        return SIGNS[term[1]](left, value_of(term[3], names, module))
    if kind == "let":
        return value_of(term[3], {**names, term[1]: value_of(term[2], names, module)}, module)
    if kind == "if":
        return value_of(term[2 if value_of(term[1], names, module) else 3], names, module)
    if kind == "function":
        return sized(len(term[1]), lambda *given: value_of(term[2], {**names, **dict(zip(term[1], given))}, module))
    if kind == "record":
        base = value_of(term[1], names, module) if term[1] else {}
        return {**base, **{name: value_of(part, names, module) for name, part in term[2]}}
    if kind == "field":
        inner = term[1]
        if inner[0] == "name" and inner[1] not in names and inner[1] in module.called:
            other = module.library.module(module.called[inner[1]])
            return other.value(term[2]) if other and term[2] in other.clauses else (term[2],)
        return value_of(inner, names, module)[term[2]]
    value = value_of(term[1], names, module)
    for pattern, body in term[2]:
        own = dict(names)
        if matches(pattern, value, own):
            return value_of(body, own, module)
    raise ValueError("no case")
