#!/usr/bin/env python3
"""Makes the calls of the program `calls` and what document 01 answers to each, worked out from the paper alone.

    tools/expect_calls.py table  > crates/calls/src/script.rt, which rt fmt then lays out
    tools/expect_calls.py answers > crates/calls/stdout

A desk is a dict or None (bare). Everything is done the slow, plain way: cells one by one, all pairs, least numbers by search.
"""
import random
import sys

HORIZON = 100_000_000
TEN = {1: 8000, 2: 800, 3: 80, 4: 32, 5: 8}


def wire(rate, octets):
    return -(-((octets + 8) * TEN[rate]) // 10)


def runs(cycle, guard, header, slots):
    if not slots:
        return []
    blocked = [False] * cycle
    for start, end in slots:
        for c in range(start - guard, end + header):
            if c - (start - guard) >= cycle:
                break
            blocked[c % cycle] = True
    if all(blocked):
        return None
    out = []
    for c in range(cycle):
        if blocked[c] and not blocked[c - 1]:
            n = 0
            while blocked[(c + n) % cycle]:
                n += 1
            out.append((c, n))
    return out


def stairs(cycle, rs):
    pairs = set()
    for i in range(len(rs)):
        total = 0
        for j in range(len(rs)):
            s, n = rs[(i + j) % len(rs)]
            total += n
            pairs.add(((s - rs[i][0]) % cycle, total))
    return sorted(p for p in pairs if not any(q != p and q[0] <= p[0] and q[1] >= p[1] for q in pairs))


def interference(cycle, rs, t):
    """The largest count over all runs: Eq. 4 and 5, repeats in later cycles included."""
    best = 0
    for s, _ in rs:
        count = 0
        for u, n in rs:
            first = (u - s) % cycle
            if first <= t:
                count += n * ((t - first) // cycle + 1)
        best = max(best, count)
    return best


def least(f, limit):
    x = 0
    while x <= limit:
        y = f(x)
        if y <= x:
            return x
        x = y
    return None


def response(d, i):
    rate, cycle = d["port"][0], d["port"][1]
    rs = runs(*d["port"][1:], d["slots"])
    v = lambda t: interference(cycle, rs, t)
    c = {j[0]: wire(rate, j[2]) for j in d["streams"]}
    low = max([c[j[0]] for j in d["streams"] if j[1] < i[1]], default=0)
    ahead = [j for j in d["streams"] if j[1] >= i[1]]
    frames = lambda j, x: (x + j[4]) // j[3] + 1
    load = lambda js, x: sum(frames(j, x) * c[j[0]] for j in js)
    b = least(lambda x: low + load(ahead, x) + v(x), HORIZON)
    if b is None:
        return None
    rest = [j for j in ahead if j[0] != i[0]]
    worst = 0
    for q in range(1, frames(i, b) + 1):
        w = least(lambda x: low + (q - 1) * c[i[0]] + load(rest, x) + v(x + c[i[0]]), HORIZON)
        worst = max(worst, w + c[i[0]] - max(0, (q - 1) * i[3] - i[4]))
    return worst


def within(x, lo, hi):
    return lo <= x <= hi


def call(d, op, a):
    """The answer (number, values) and the desk after it."""
    if op == 0:
        return (0, []), None
    if op == 1:
        if d is not None:
            return (4, []), d
        ok = within(a[0], 1, 5) and within(a[1], 1000, HORIZON) and within(a[2], 1, 10**7) and within(a[3], 0, 10**7)
        return ((0, []), {"port": tuple(a[:4]), "slots": [], "streams": []}) if ok else ((5, []), d)
    if d is None:
        return (4, []), d
    cycle, guard, header = d["port"][1:]
    if op == 2:
        s, e = a[0], a[1]
        if not (0 <= s < e <= cycle):
            return (5, []), d
        if len(d["slots"]) == 32:
            return (7, []), d
        if any(s < y and x < e for x, y in d["slots"]):
            return (6, []), d
        new = sorted(d["slots"] + [(s, e)])
        if runs(cycle, guard, header, new) is None:
            return (10, []), d
        return (0, []), dict(d, slots=new)
    if op == 3:
        if a[0] not in [s for s, _ in d["slots"]]:
            return (9, []), d
        return (0, []), dict(d, slots=[x for x in d["slots"] if x[0] != a[0]])
    if op == 4:
        ok = within(a[0], 0, 65535) and within(a[1], 0, 7) and within(a[2], 64, 1522)
        ok = ok and within(a[3], 10**4, HORIZON) and within(a[4], 0, HORIZON) and within(a[5], 1, HORIZON)
        if not ok:
            return (5, []), d
        if len(d["streams"]) == 64:
            return (7, []), d
        if a[0] in [j[0] for j in d["streams"]]:
            return (8, []), d
        return (0, []), dict(d, streams=sorted(d["streams"] + [tuple(a)]))
    if op == 5:
        if a[0] not in [j[0] for j in d["streams"]]:
            return (9, []), d
        return (0, []), dict(d, streams=[j for j in d["streams"] if j[0] != a[0]])
    rs = runs(cycle, guard, header, d["slots"])
    if op == 6:
        return (0, rs), d
    if op == 7:
        return (0, stairs(cycle, rs)), d
    if op == 8:
        return ((14, []) if a[0] > HORIZON else (0, [interference(cycle, rs, a[0])])), d
    held = [j for j in d["streams"] if j[0] == a[0]]
    if not held:
        return (9, []), d
    r = response(d, held[0])
    if r is None:
        return (12, []), d
    return ((13, [r]) if r > held[0][5] else (0, [r])), d


def rows():
    rng = random.Random(1)
    out = []
    row = lambda op, *a: out.append((op, list(a) + [0] * (6 - len(a))))
    # every call on the bare desk, then neighbouring refusals at once
    for op in range(2, 10):
        row(op, 1, 2)
    for p in [(0, 1000, 1, 0), (6, 1000, 1, 0), (1, 999, 1, 0), (1, 1000, 0, 0), (1, 1000, 1, 10**7 + 1), (1, 10**8 + 1, 1, 0),
              (1, 1000, 10**7 + 1, 0), (2**63, 1000, 1, 0)]:
        row(1, *p)
    row(1, 2, 1000, 100, 50)
    row(1, 0, 0, 0, 0)  # 4 before 5
    for a, e in [(5, 5), (6, 5), (0, 1001), (2**40, 2**41), (0, 850), (0, 1000), (0, 849)]:
        row(2, a, e)
    for t in [0, 1000, 10**8, 10**8 + 1, 2**63]:
        row(8, t)
    row(6), row(7), row(2, 10, 20), row(3, 1), row(3, 0), row(6), row(7), row(8, 5)
    row(2, 0, 100), row(6), row(2, 250, 400), row(6), row(7), row(2, 400, 450), row(2, 399, 401), row(3, 250), row(6)
    # plan F
    row(0), row(1, 2, 100000, 1000, 500), row(2, 60000, 68500), row(2, 10000, 14000), row(2, 30000, 32500)
    row(4, 2, 3, 242, 400000, 0, 40000), row(4, 1, 6, 117, 200000, 0, 50000), row(6), row(7), row(9, 1), row(9, 2), row(9, 3)
    for t in [0, 29999, 30000, 99999, 100000, 130000]:
        row(8, t)
    row(5, 2), row(9, 1), row(5, 2), row(4, 2, 3, 242, 400000, 0, 40000), row(9, 2)
    # P8 and P9
    row(0), row(1, 2, 1000, 1, 0), row(4, 7, 0, 117, 20000, 30000, 20000), row(9, 7), row(0), row(1, 3, 1000, 1, 0)
    row(4, 65535, 7, 1242, 10000, 0, 1), row(9, 65535)
    # ranges of a stream, one number at a time, then 5 before 7 and 7 before 8
    good = [9, 3, 64, 10000, 0, 10**8]
    for k, bad in [(0, 65536), (1, 8), (2, 63), (2, 1523), (3, 9999), (3, 10**8 + 1), (4, 10**8 + 1), (5, 0), (5, 10**8 + 1)]:
        row(4, *[bad if n == k else x for n, x in enumerate(good)])
    row(0), row(1, 5, 1000, 1, 0)
    for n in range(64):
        row(4, 64 - n, n % 8, 64 + n, 10000 + 1000 * n, 100 * n, 10**8)
    row(4, 1, 8, 64, 10000, 0, 1), row(4, 1, 1, 64, 10000, 0, 1), row(9, 1), row(9, 33), row(5, 33), row(4, 64, 1, 64, 10000, 0, 1)
    row(4, 33, 7, 1522, 10**8, 10**8, 10**8), row(9, 33), row(9, 64)
    # 32 slots, 7 before 6, a guard longer than the cycle
    row(0), row(1, 2, 6400, 20, 30)
    for n in range(32):
        row(2, 200 * n + (50 if n % 3 else 0), 200 * n + 100 + (n % 5) * 10)
    row(2, 0, 1), row(2, 199, 200), row(6), row(7), row(8, 6399), row(3, 200 * 31), row(2, 6300, 6400), row(6), row(7)
    row(0), row(1, 1, 1000, 10**7, 10**7), row(2, 0, 1), row(6), row(7), row(8, 10**8)
    # random edits and questions on small cycles
    for _ in range(4):
        cycle = rng.choice([1000, 1500, 2500])
        row(0), row(1, rng.randint(1, 5), cycle, rng.randint(1, 60), rng.randint(0, 60))
        for _ in range(25):
            k = rng.random()
            s = rng.randrange(cycle)
            if k < 0.45:
                row(2, s, s + rng.randint(1, 120))
            elif k < 0.6:
                row(3, s if rng.random() < 0.3 else [a[0] for o, a in out if o == 2][-1])
            elif k < 0.75:
                row(4, rng.randint(0, 9), rng.randint(0, 7), rng.randint(64, 400), rng.randint(10**4, 10**6), rng.randint(0, 10**5), rng.randint(1, 10**6))
            elif k < 0.8:
                row(5, rng.randint(0, 9))
            elif k < 0.9:
                row(9, rng.randint(0, 9))
            else:
                row(8, rng.randint(0, 5 * cycle))
        row(6), row(7)
    return out


def written(op, a):
    """A call as crates/calls writes it."""
    named = lambda kind, names: kind + " { " + ", ".join(f"{n}: {x}" for n, x in zip(names, a)) + " }"
    some = lambda n: "(" + ", ".join(str(x) for x in a[:n]) + ")"
    return ["Bare", "OpenPort(" + named("PortNumbers", ["rate", "cycle", "guard", "header"]) + ")",
            "AddSlot" + some(2), "RemoveSlot" + some(1),
            "AddStream(" + named("StreamNumbers", ["id", "priority", "octets", "period", "jitter", "deadline"]) + ")",
            "RemoveStream" + some(1), "Runs", "Stairs", "Interference" + some(1), "Response" + some(1)][op]


def main():
    table = rows()
    if sys.argv[1:] == ["table"]:
        print(f"// {len(table)} calls; made by tools/expect_calls.py.")
        print("use crate::call::Call;\nuse ranges::{PortNumbers, StreamNumbers};\n")
        print(f"pub const CALLS: [Call; {len(table)}] = [")
        for op, a in table:
            print(f"    Call::{written(op, a)},")
        print("];")
        return
    d = None
    for n, (op, a) in enumerate(table):
        (number, values), d = call(d, op, a)
        if op in (6, 7):
            print(f"{n} {op} {number} {len(values)}")
            for x, y in values:
                print(f"  {x} {y}")
        else:
            print(f"{n} {op} {number} {values[0] if values else 0}")


if __name__ == "__main__":
    main()
