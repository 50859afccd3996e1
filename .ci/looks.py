"""Events that only look, among events that change what they look at, and a small model of what they answer. For .ci/sizes."""
import random
import re

from operators import Trap, found, nth
from ways import SCHEDULES, TRACES, Script, Tree, call, everywhere, group, place, told, written

BANK = """service Bank 2 {
  var total: int = 0;
  var rates: map = empty;
  context Branch[int] {
    var count: int = 0;
    var book: map = empty;
    context Account[int] {
      var money: int = 100;
      method see(): int { return money; }
      method rate(k: int): int { if has(Bank.rates, k) { return Bank.rates[k]; } return -1; }
      method worth(k: int): int { return see() + rate(k) + Branch.count; }
    }
    method own(): int { return count; }
    method twice(): int { return own() + own() + sum(book); }
    method child(k: int): int { return Account[k].see(); }
  }
  method all(): int { return total + size(rates); }
  event pay(b: int, a: int, n: int): int {
    here { total = total + n; rates[a] = n; }
    down Branch[b] { count = count + 1; book[a] = n; }
    down Account[a] { money = money + n; }
    reply money;
  }
  event field(): int { reply total; }
  event table(): map { reply rates; }
  event method_(): int { reply all(); }
  event low(b: int): int { down Branch[b] { } reply count; }
  event methods(b: int): int { down Branch[b] { } reply twice(); }
  event child(b: int, a: int): int { down Branch[b] { let n = child(a); } reply n; }
  event children(b: int): int { down Branch[b] { let n = 0; for a in 0 to 3 { n = n + Account[a].see(); } } reply n; }
  event above(b: int, a: int): int { down Branch[b] { } down Account[a] { } reply size(Bank.rates) + sum(Branch.book) + Bank.total; }
  event at(b: int, a: int, k: int): int { down Branch[b] { } down Account[a] { } reply Bank.rates[k]; }
  event nth(b: int, a: int, k: int): int { down Branch[b] { } down Account[a] { } reply key(Branch.book, k); }
  event worth(b: int, a: int, k: int): int { down Branch[b] { } down Account[a] { let n = worth(k); } reply n; }
  event after(b: int, a: int, n: int): int { here { total = total + n; } down Branch[b] { count = count + 10; } down Account[a] { let m = money; } reply m; }
  event tells(b: int): int { down Branch[b] { send "count", count; send "book", book; spawn low(b); } reply count; }
  event stops(b: int, n: int): int { down Branch[b] { if count < n { finish count; } require sum(book) < n; } reply 0 - count; }
  event long(b: int): int { down Branch[b] { let n = 0; for i in 0 to 200 { n = n + count * i; } } reply n; }
}
"""


# What each kind of event takes, and what it looks at: fields and maps of its own, of children, and of the contexts above.
LOOKS = {"field": "", "table": "", "method_": "", "low": "b", "methods": "b", "child": "ba", "children": "b", "above": "ba", "at": "bak", "nth": "bak",
         "worth": "bak", "after": "bak", "tells": "b", "stops": "bn", "long": "b"}
BELOW = ("child", "above", "at", "nth", "worth", "after")   # those that come to an account


class Bank(Script):
    """What is asked of the bank and what it comes to, with what was created and has still to run."""

    def __init__(self):
        super().__init__(Tree({"Branch": {"count": 0, "book": {}}, "Account": {"money": 100}}, {"total": 0, "rates": {}}), hosts=4)
        self.made = []

    def enter(self, b, a=None):
        path = (("Branch", b),) if a is None else (("Branch", b), ("Account", a))
        return self.tree.enter(*path)

    def pay(self, b, a, n):
        top, branch, account = self.tree.at[()], self.enter(b), self.enter(b, a)
        top["total"] += n
        top["rates"] = {**top["rates"], a: n}
        branch["count"] += 1
        branch["book"] = {**branch["book"], a: n}
        account["money"] += n
        self.ask(f"request pay({b}, {a}, {n})", f"pay = {account['money']}")

    def seen(self, name, b=0, a=0, k=0):
        """What an event that looks replies; a trap is raised."""
        top = self.tree.at[()]
        if name in ("field", "table", "method_"):
            return {"field": top["total"], "table": top["rates"], "method_": top["total"] + len(top["rates"])}[name]
        branch = self.enter(b)
        count, booked = branch["count"], sum(branch["book"].values())
        if name == "stops":
            if count >= a and booked >= a:
                raise Trap("Require")
            return count if count < a else -count
        if name == "children":
            return sum(self.enter(b, i)["money"] for i in range(3))
        if name not in BELOW:
            return {"low": count, "tells": count, "methods": 2 * count + booked, "long": count * sum(range(200))}[name]
        money = self.enter(b, a)["money"]
        if name == "after":   # it changes the contexts above, and only looks at the last one
            top["total"] += k
            branch["count"] += 10
        if name in ("at", "nth"):
            return found(top["rates"], k) if name == "at" else nth(branch["book"], k)
        return {"child": money, "after": money, "above": len(top["rates"]) + booked + top["total"], "worth": money + top["rates"].get(k, -1) + count}[name]

    def answer(self, name, values):
        try:
            return f"{name} = {written(self.seen(name, *values))}"
        except Trap as trap:
            return f"{name} trap {trap} at {place(BANK, {'at': 'Bank.rates[k];', 'nth': 'key(', 'stops': 'require'}[name], f'event {name}')}"

    def look(self, name, *values):
        self.ask(f"request {name}({', '.join(map(str, values))})", self.answer(name, values))
        if name == "tells":
            branch = self.enter(values[0])
            self.listing += [f"#{self.ticket} send \"count\" {branch['count']}", f"#{self.ticket} send \"book\" {written(branch['book'])}"]
            self.made.append((self.ticket, len(self.listing), values))

    def end_batch(self):
        """What the batch created runs behind it, in the order of those that created it."""
        made, self.made = self.made, []
        for i, (ticket, at, _) in reversed(list(enumerate(made))):
            self.listing.insert(at, f"#{ticket} made #{self.ticket + i + 1}")
        for _, _, values in made:
            self.ticket += 1
            self.listing.append(f"#{self.ticket} {self.answer('low', values)}")


@group("an event of each kind that only looks")
def looks():
    for name in LOOKS:   # each alone, with events that change what it looks at between
        yield from looked(f"looks by {name}", random.Random(name), lambda draw, name=name: [name] * 6, 5, 1, TRACES[1:2] + TRACES[3:4])
    for seed in range(3):   # all kinds, and contexts that move meanwhile
        yield from looked(f"looks of all kinds, drawn from {seed}", random.Random(seed), lambda draw: draw.choices(list(LOOKS), k=8), 25, 3, TRACES)
    yield shared


def looked(shows, draw, names, rounds, branches, traces):
    """Rounds of a payment, some looks, and now and then a move."""
    bank, ranges = Bank(), {"b": branches, "a": 3, "k": 4, "n": 12}
    for i in range(rounds):
        bank.pay(draw.randrange(branches), draw.randrange(3), draw.randrange(10))
        for name in names(draw):
            bank.look(name, *[draw.randrange(ranges[kind]) for kind in LOOKS[name]])
        if i % 3 == 1:
            path = (("Branch", draw.randrange(branches)), ("Account", draw.randrange(3)))
            bank.move(path[:draw.randrange(3)], draw.randrange(4))
        if i == rounds // 2:
            bank.end_batch()
            bank.settle()
    bank.snapshot()
    bank.end_batch()
    yield from everywhere(bank.case(shows, BANK), traces=traces)


def shared():
    """Of events that only look some hold a context together, by one schedule at least; one that changes it never does."""
    text = BANK + "----\n" + "request pay(0, 0, 1)\n" + "request low(0)\n" * 20 + "request pay(0, 0, 1)\n"
    together, writers, wrong = 0, {1, 22}, []
    for rule in SCHEDULES:
        words = ["trace", "--schedule", rule]
        _, _, out = call(words, text)
        holders = set()
        for act, ticket in re.findall(r"^\d+ w\d+ h\d+ (Grant|Free) #(\d+)(?:\.\d+)? /Branch\[0\]$", out, re.M):
            (holders.add if act == "Grant" else holders.discard)(int(ticket))
            together = max(together, len(holders))
            if len(holders) > 1 and holders & writers:
                wrong += told("looks together", words, text, f"{holders} hold /Branch[0], of which one changes it")
    return wrong + ([] if together > 1 else told("looks together", words, text, "by no schedule two events hold a context together"))
