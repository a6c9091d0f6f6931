#!/usr/bin/env python3
"""Writes a history for `saturn audit`: histories.py LINES CLIENTS SITES. Each client stays at its site, each site keeps all items, and shows
the updates of the others in the order in which they were made, so each law has its yes; with a fourth word one update is shown early."""
import random
import sys

lines, clients, sites = (int(word) for word in sys.argv[1:4])
early = len(sys.argv) > 4
draw = random.Random(7)
items = 1000
print(f"saturn 2\nsites {sites}\ngears 1")
for x in range(items):
    print(f"item x{x} {','.join(map(str, range(sites)))}")
for c in range(clients):
    print(f"client c{c} {c % sites}")
print("plan stamp\nbegin")
made = []
shown = [0] * sites
version = [{} for _ in range(sites)]
for n in range(lines):
    c = draw.randrange(clients)
    s = c % sites
    kind = draw.randrange(3)
    while shown[s] < len(made) and made[shown[s]][1] == s:
        shown[s] += 1
    if kind == 0 or (kind == 1 and shown[s] == len(made)):
        x = draw.randrange(items)
        made.append((len(made) + 1, s, x))
        version[s][x] = max(version[s].get(x, (0, 0)), (len(made), s))
        print(f"write c{c} x{x} v -> wrote {len(made)}.{s}.0")
    elif kind == 1:
        ts, origin, x = made[shown[s]]
        if early and n * 2 > lines:
            ts, origin, x = made[-1]
            early = False
        else:
            shown[s] += 1
        version[s][x] = max(version[s].get(x, (0, 0)), (ts, origin))
        print(f"stamp {s} -> shown x{x} {ts}.{origin}.0")
    else:
        x = draw.choice(list(version[s])) if version[s] else 0
        read = version[s].get(x)
        print(f"read c{c} x{x} -> read " + (f"{read[0]}.{read[1]}.0 v" if read else "none"))
print("end")
