#!/usr/bin/env python3
"""bench/service.py BYTES: prints a service whose text has about so many bytes, and which is typed: many classes, methods and events
with all kinds of statements and expressions."""
import sys

METHOD = """    method work{i}(a: int, b: int): int {{
      let total = a * {k} + b - (a + b) * 2;
      for i in 0 to a {{ if i % 2 == 0 && total < 1000000 {{ total = total + i; }} else {{ total = total - 1; }} }}
      while total > 1000 {{ total = total / 2; marks[total % 10] = total; }}
      require total >= 0 - 1000000 || !(a == b);
      return total + size(marks) + len(name);
    }}
"""
EVENT = """  event ask{i}(key: int, n: int): int {{
    here {{ asked = asked + 1; let told = "n" + str(n); send "asked", told; }}
    down Class{c}[key] {{ let got = work{m}(n, n + 1); send "got", got; }}
    reply got;
  }}
"""


def service(size):
    classes, events, length, number = [], [], 60, 0
    while True:
        methods = "".join(METHOD.format(i=i, k=number + i) for i in range(4))
        one = f'  context Class{number}[int] {{\n    var marks: map = empty;\n    var name: text = "class";\n{methods}  }}\n'
        asks = "".join(EVENT.format(i=4 * number + m, c=number, m=m) for m in range(4))
        if length + len(one) + len(asks) > size:
            return "service Big {\n  var asked: int = 0;\n" + "".join(classes) + "".join(events) + "}\n"
        length += len(one) + len(asks)
        classes.append(one)
        events.append(asks)
        number += 1


sys.stdout.write(service(int(sys.argv[1])))
