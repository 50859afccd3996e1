"""Each operator and builtin of version 2 of the language, on literals and on what is stored. For .ci/sizes."""
import itertools
import re

from ways import LEAST, MOST, Case, batches, call, everywhere, group, lines, place, written


# ---- what each gives, or the kind of its trap

class Trap(Exception):
    pass


def whole(n):
    if not LEAST <= n <= MOST:
        raise Trap("Overflow")
    return n


def quotient(a, b):
    if b == 0:
        raise Trap("DivZero")
    return whole(abs(a) // abs(b) * (1 if (a < 0) == (b < 0) else -1))


def rest(a, b):
    return a - b * quotient(a, b)


def joined(t, u):
    if len(t + u) > 1000:
        raise Trap("TooLong")
    return t + u


def part(t, a, b):
    if not 0 <= a <= b <= len(t):
        raise Trap("Absent")
    return t[a:b]


def number(t):
    if not re.fullmatch(r"-?[0-9]{1,19}", t):
        raise Trap("Absent")
    return whole(int(t))


def found(table, key):
    if key not in table:
        raise Trap("Absent")
    return table[key]


def nth(table, i):
    if not 0 <= i < len(table):
        raise Trap("Absent")
    return sorted(table)[i]


INTS = {"+": lambda a, b: whole(a + b), "-": lambda a, b: whole(a - b), "*": lambda a, b: whole(a * b), "/": quotient, "%": rest, "min": min, "max": max,
        "==": lambda a, b: a == b, "!=": lambda a, b: a != b, "<": lambda a, b: a < b, "<=": lambda a, b: a <= b, ">": lambda a, b: a > b,
        ">=": lambda a, b: a >= b}


def kind_of(value):
    return {bool: "bool", int: "int", str: "text", dict: "map"}[type(value)]


def literal(value):
    """A literal of a service; the least number has none, and is computed."""
    return "(-9223372036854775807 - 1)" if value == LEAST and not isinstance(value, bool) else written(value)


def applied(op, *operands):
    """An operator of operands as it is written, first sign or call."""
    if op[0].isalpha():
        return f"{op}({', '.join(operands)})"
    return op + operands[0] if len(operands) == 1 else f"{operands[0]} {op} {operands[1]}"


def result(function, rows):
    """What an operator gives of the first operands of which it doesn't trap."""
    for row in rows:
        try:
            return function(*row)
        except Trap:
            pass
    raise ValueError("it gives nothing")


class Asked:
    """A service of events, each on a line of its own, the requests for them, and what they come to."""

    def __init__(self, front):
        self.front, self.text, self.events, self.script, self.listing = front, [], {}, [], []

    def event(self, params, gives, body, expression):
        """An event whose text has an expression in it; gives its name, and the line and column where the expression begins, behind its parentheses. What is
        the same is written once."""
        key = (params, gives, body, expression)
        if key not in self.events:
            name, row = f"e{len(self.events)}", self.front.count("\n") + len(self.text) + 1
            line = f"event {name}({params}): {gives} {{ {body} }}"
            self.events[key] = name, row, line.index(expression, line.index("{")) + 1 + len(expression) - len(expression.lstrip("("))
            self.text.append(line)
        return self.events[key]

    def ask(self, event, arguments, function, values):
        """A request, and what the operator gives of the values."""
        name, row, column = event
        try:
            answer = f"= {written(function(*values))}"
        except Trap as trap:
            answer = f"trap {trap} at {row}:{column}"
        self.script.append(f"request {name}({', '.join(map(written, arguments))})")
        self.listing.append(f"#{len(self.script)} {name} {answer}")

    def case(self, shows, services):
        """Tasks: all that is asked for. The service is kept."""
        service, half = self.front + lines(*self.text, "}"), len(self.script) // 2
        services.add(service)
        first, second = batches(self.script[:half]), batches(self.script[half:])
        yield from everywhere(Case(shows, service, first, second, self.listing, half, len(self.script)))


OPERANDS = """service Ops 2 {
  var i0: int = 0; var i1: int = 0; var i2: int = 0; var b0: bool = false; var b1: bool = false; var t0: text = ""; var t1: text = "";
  var ri: int = 0; var rb: bool = false; var rt: text = "";
  context Low[int] { }
  method int_(n: int): int { return n; }
  method bool_(b: bool): bool { return b; }
  method text_(t: text): text { return t; }
"""


def in_forms(asked, op, function, rows, literals=()):
    """An operator with each row of values: on parameters, locals, fields, what methods give, fields above, as a condition; and on those literals."""
    kinds, gives = list(map(kind_of, rows[0])), kind_of(result(function, rows))
    params = ", ".join(f"p{i}: {kind}" for i, kind in enumerate(kinds))
    stored, to = [f"{kind[0]}{i}" for i, kind in enumerate(kinds)], f"r{gives[0]}"
    sets, lets = " ".join(f"{field} = p{i};" for i, field in enumerate(stored)), " ".join(f"let l{i} = p{i};" for i in range(len(kinds)))
    plain, local, field = (applied(op, *operands) for operands in ([f"p{i}" for i in range(len(kinds))], [f"l{i}" for i in range(len(kinds))], stored))
    called, above = applied(op, *[f"{kind}_(p{i})" for i, kind in enumerate(kinds)]), applied(op, *[f"Ops.{name}" for name in stored])
    forms = [(f"reply {plain};", plain), (f"here {{ {lets} let r = {local}; }} reply r;", local), (f"here {{ {sets} {to} = {field}; }} reply {to};", field),
             (f"reply {called};", called), (f"here {{ {sets} }} down Low[0] {{ }} reply {above};", above)]
    if gives == "bool":
        forms += [(f"here {{ let r = false; if {plain} {{ r = !r; }} }} reply r;", plain), (f"here {{ while {plain} {{ finish true; }} }} reply false;", plain)]
    for row, (body, expression) in itertools.product(rows, forms):
        asked.ask(asked.event(params, gives, body, expression), row, function, row)
    for row in literals:
        text = applied(op, *map(literal, row))
        asked.ask(asked.event("", gives, f"reply {text};", text), (), function, row)


@group("each operator and builtin of version 2, on literals and on what is stored")
def operators():
    services = set()
    for tasks in (ints(services), others(services), maps(services)):
        yield from tasks
    yield lambda: names_all(services)


NAMES = """add sub mul div rem neg not eq ne lt le gt ge beq bne teq tne tlt cat at has size key len str part min max abs sum starts num
PutLocal PutField CutLocal CutField""".split()


def names_all(services):
    """The code of these services has each operator."""
    seen = set()
    for service in services:
        seen.update(re.findall(r"^\d+ (?:Op )?(\w+)", call(["code"], service)[2], re.M))
    wanting = set(NAMES) - seen
    return [f"no event of this check has {' '.join(sorted(wanting))}"] if wanting else []


def ints(services):
    values = (LEAST, -7, -1, 0, 3, MOST)
    for some in (("+", "-", "*", "/", "%", "min", "max"), ("==", "!=", "<", "<=", ">", ">=")):
        asked, gives = Asked(OPERANDS), "bool" if "<" in some else "int"
        for op in some:
            rows = list(itertools.product(values, values))
            in_forms(asked, op, INTS[op], rows, rows)
            for fixed, value in rows:   # a literal beside a parameter, on either side
                left, right = applied(op, literal(fixed), "p"), applied(op, "p", literal(fixed))
                asked.ask(asked.event("p: int", gives, f"reply {left};", left), (value,), INTS[op], (fixed, value))
                asked.ask(asked.event("p: int", gives, f"reply {right};", right), (value,), INTS[op], (value, fixed))
        yield from asked.case(f"operators {' '.join(some)}", services)
    asked = Asked(OPERANDS)
    wide = [(n,) for n in (LEAST, LEAST + 1, -2 ** 32, -10, -1, 0, 1, 9, 10, 99, 2 ** 31, 2 ** 63 - 2, MOST)]
    for op, function in (("-", lambda a: whole(-a)), ("abs", lambda a: whole(abs(a))), ("str", str)):
        in_forms(asked, op, function, wide, wide)
    for first, second in itertools.product("+-*/%", repeat=2):   # what is reckoned ahead goes on with one operator more, unless the first one traps
        text = f"p {first} q {second} 3" if second in "+-" or first in "*/%" else f"(p {first} q) {second} 3"
        event = asked.event("p: int, q: int", "int", f"reply {text};", text)
        for p, q in ((7, 2), (MOST, 2), (-7, 0), (LEAST, -1), (LEAST, 1), (-3, 4)):
            asked.ask(event, (p, q), lambda p, q, first=first, second=second: INTS[second](INTS[first](p, q), 3), (p, q))
    yield from asked.case("operators of one number, and two in a row", services)


NUMBERS = ("0", "-0", "7", "-7", "007", "9223372036854775807", "-9223372036854775808", "9223372036854775808", "-9223372036854775809", "9999999999999999999",
           "10000000000000000000", "00000000000000000001", "0000000000000000001", "", "-", "--1", "+1", " 1", "1 ", "1a", "a")


def others(services):
    asked = Asked(OPERANDS)
    texts = ("", "a", "ab", "b", 'say "x\\"', "x" * 200)
    for op, function in (("==", lambda t, u: t == u), ("!=", lambda t, u: t != u), ("<", lambda t, u: t < u), ("+", joined),
                         ("starts", lambda t, u: t.startswith(u))):
        in_forms(asked, op, function, *[list(itertools.product(texts, texts))] * 2)
    parts = [("abcdef", a, b) for a in (LEAST, -1, 0, 2, 6, 7, MOST) for b in (LEAST, -1, 0, 2, 6, 7, MOST)] + [("", 0, 0), ("", 0, 1)]
    for op, function, rows in (("len", len, [(text,) for text in texts]), ("num", number, [(text,) for text in NUMBERS]), ("part", part, parts)):
        in_forms(asked, op, function, rows, rows)
    truths = list(itertools.product((False, True), repeat=2))
    for op, function in (("==", lambda a, b: a == b), ("!=", lambda a, b: a != b), ("&&", lambda a, b: a and b), ("||", lambda a, b: a or b)):
        in_forms(asked, op, function, truths, truths)
    in_forms(asked, "!", lambda a: not a, [(False,), (True,)], [(False,), (True,)])
    for text, function in (("p && 1 / q > 0", lambda p, q: p and quotient(1, q) > 0), ("p || 1 / q > 0", lambda p, q: p or quotient(1, q) > 0)):
        name, row, column = asked.event("p: bool, q: int", "bool", f"reply {text};", text)
        for values in itertools.product((False, True), (0, 1, 5)):
            asked.ask((name, row, column + len("p && ")), values, function, values)   # the trap is of the right side
    longest(asked)
    yield from asked.case("operators of texts and truth values", services)


def longest(asked):
    """Texts of 1,000 bytes, which no literal is."""
    front = "here { let t = p + p; t = t + t; t = t + p; t0 = t; }"
    for text in ("t + q", "t0 + q"):
        for q in ("", "x"):
            asked.ask(asked.event("p: text, q: text", "text", f"{front} reply {text};", text), ("x" * 200, q), lambda p, q: joined(p * 5, q), ("x" * 200, q))
    for text, function in (("len(t)", len), ("t == t0", lambda t: True), ('t < t0 + ""', lambda t: False), ("starts(t, part(t0, 0, 999))", lambda t: True),
                           ("part(t, 998, 1000)", lambda t: t[998:])):
        event = asked.event("p: text", kind_of(function("y" * 1000)), f"{front} reply {text};", text)
        asked.ask(event, ("y" * 200,), function, ("y" * 1000,))


MAPS = """service Ops 2 {
  var m: map = empty; var k: int = 0; var j: int = 0; var ri: int = 0; var rb: bool = false;
  context Low[int] { var own: int = 0; }
  method int_(n: int): int { return n; }
  method map_(of: map): map { return of; }
  event put(p: int, q: int): map { here { m[p] = q; } reply m; }
  event cut(p: int): map { here { drop m[p]; } reply m; }
  event fill(p: int, q: int): int { here { for i in p to q { m[i] = i; } } reply size(m); }
  event none(): map { here { m = empty; } reply m; }
  event local(p: int, q: int): map { here { let l = m; l[p] = q; l[p + 1] = q; drop l[p]; } reply l; }
"""


class Maps(Asked):
    """The map of the service, as it is after what was asked for."""

    def __init__(self):
        super().__init__(MAPS)
        self.map = {}

    def change(self, name, *values):
        reply, trap = self.map, ""
        if name == "put":
            self.map[values[0]] = values[1]
        elif name == "cut":
            self.map.pop(values[0], None)
        elif name == "none":
            self.map.clear()
        elif name == "local":
            reply = {**self.map, values[0] + 1: values[1]}
            reply.pop(values[0], None)
        else:
            for i in range(*values):
                if i not in self.map and len(self.map) == 1000:
                    trap = f"trap Full at {place(MAPS, 'm[i] = i', 'event fill')}"
                    break
                self.map[i] = i
            reply = len(self.map)
        self.script.append(f"request {name}({', '.join(map(str, values))})")
        self.listing.append(f"#{len(self.script)} {name} {trap or '= ' + written(reply)}")

    def look(self):
        for form, function, gives in (("m[{}]", found, "int"), ("has(m, {})", lambda m, k: k in m, "bool"), ("key(m, {})", nth, "int")):
            for k in (LEAST, -1, 0, 1, 2, 5, MOST):
                self.read(form, function, gives, k)
            event = self.event("p: int", gives, f"reply {form.format('p + 1')};", "p + 1")   # the key traps
            self.ask(event, (MOST,), lambda k: whole(k + 1), (MOST,))
        for form, function in (("size({})", len), ("sum({})", lambda m: whole(sum(m.values())))):
            for of, body in (("m", "reply {};"), ("l", "here {{ let l = m; }} reply {};"), ("map_(m)", "reply {};"),
                             ("Ops.m", "down Low[0] {{ own = 1; }} reply {};")):
                text = form.format(of)
                self.ask(self.event("", "int", body.format(text), text), (), function, (dict(self.map),))
        for text, value in (("size(empty)", 0), ("sum(empty)", 0), ("has(empty, 1)", False)):
            self.ask(self.event("", kind_of(value), f"reply {text};", text), (), lambda value=value: value, ())

    def read(self, form, function, gives, k):
        """The map of a field, a local or above, at a key that is a literal, a parameter, a field, of a method, reckoned, or in the map itself."""
        to = {"int": "ri", "bool": "rb"}[gives]
        for key in (literal(k), "p", "k", "int_(p)", "p + j - 1", "j * p", "m[j]"):
            if key == "m[j]" and 1 not in self.map or key == "p + j - 1" and k == MOST:
                continue
            row, own = (dict(self.map), self.map[1] if key == "m[j]" else k), form.format(key)
            params, arguments, sets = ("", (), "j = 1;") if key == literal(k) else ("p: int", (k,), "k = p; j = 1;")
            local = own.replace("m[", "l[").replace("(m,", "(l,")
            above = own.replace("m[", "Ops.m[").replace("(m,", "(Ops.m,")
            forms = [(f"here {{ {sets} }} reply {own};", own), (f"here {{ {sets} let l = m; let r = {local}; }} reply r;", local),
                     (f"here {{ {sets} {to} = {own}; }} reply {to};", own)]
            if key in ("p", literal(k)):
                forms.append((f"down Low[0] {{ own = own + 1; }} reply {above};", above))
            for body, expression in forms:
                self.ask(self.event(params, gives, body, expression), arguments, function, row)


def maps(services):
    """Maps that are empty, have the least and the greatest numbers, have a sum outside 64 bits on the way or at the end, and are full."""
    asked = Maps()
    asked.look()
    for key, value in ((1, 5), (-1, 7), (LEAST, MOST), (MOST, LEAST), (1, 2), (0, 0)):
        asked.change("put", key, value)
    asked.change("local", 5, 6)
    asked.look()
    for key, value in ((0, MOST), (2, 1)):
        asked.change("put", key, value)
    asked.look()
    for key in (LEAST, 7, MOST, 0):
        asked.change("cut", key)
    asked.change("put", 3, MOST)
    asked.change("put", -3, MOST)
    asked.look()
    asked.change("none")
    asked.change("fill", 0, 1000)
    asked.change("fill", 0, 1001)
    asked.change("put", 500, -1)
    asked.change("cut", 999)
    asked.change("put", MOST, 1)
    asked.change("fill", 0, 1000)
    asked.look()
    yield from asked.case("operators of maps", services)
