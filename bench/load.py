#!/usr/bin/env python3
"""bench/load.py N LINES: prints the generated load of number N with so many lines, as docs/FORMATS.md tells it; with 2300 lines it is that of `gen N`."""
import sys

SERVICE = """service Market {
  var seen: int = 0;
  context Hall[int] {
    var count: int = 0;
    context Stall[int] {
      var stock: int = 10;
      method take(n: int): int { stock = stock - n; return stock; }
    }
    method both(a: int, b: int): int { return Stall[a].take(1) + Stall[b].take(1); }
  }
  event buy(h: int, s: int, n: int): int {
    here { seen = seen + 1; }
    down Hall[h] { count = count + n; }
    down Stall[s] { let left = take(n); send "till", Hall.count; }
    reply left;
  }
  event pair(h: int): int { down Hall[h] { let t = both(1, 2); } reply t; }
  event same(h: int): int { down Hall[h] { let t = both(1, 1); } reply t; }
}
"""
number, lines = int(sys.argv[1]), int(sys.argv[2])


def draw(below):
    global number
    number = (6364136223846793005 * number + 1442695040888963407) % 2**64
    return (number >> 33) % below


def line():
    what = draw(20)
    hall = 0 if what == 4 else draw(24)
    if what < 3:
        return f"move /Hall[{hall}] to {draw(4)}"
    if what == 3:
        return f"request pair({hall})"
    return "settle" if what == 4 else f"request buy({hall},{draw(25)},{draw(9) + 1})"


print(SERVICE + "----\nhosts 4")
for _ in range(lines):
    print(line())
print("snapshot")
