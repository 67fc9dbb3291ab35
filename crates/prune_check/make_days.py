#!/usr/bin/env python3
"""Makes the file `stdin` beside it: days, with what pruning leaves of each, and each day as a ticket file in examples/.

The first line says how many days there are. Each other line is a day: how many tickets; for each its first start, last start,
length and weight; the ceiling; how many bans; for each the ticket and the start; how many cuts; for each ticket how many
starts are left, and each of them. Nothing here follows the planner: spreads are played slot by slot, and every start of the
table is priced again until a pass over all of them cuts nothing.
"""
import os
import random
import sys

SCALE = 720720
HERE = os.path.dirname(os.path.abspath(__file__))
EXAMPLES = os.path.join(HERE, "..", "..", "examples")

# many rounds: 24 tickets with the rows 0 to 255 and the length 16; the weight of each, and how many of its first starts are banned
WORST = [(295, 25), (148, 28), (270, 30), (171, 237), (244, 43), (212, 38), (215, 135), (205, 43), (83, 53), (179, 29), (263, 65), (263, 62), (0, 43), (58, 54), (986, 141), (739, 65), (45, 16), (82, 36), (677, 84), (97, 20), (92, 61), (0, 150), (0, 3), (15, 78)]
WORST_CEILING = 780141

# no bans: whatever the weights, two rounds are all; the ceiling is the one that leaves the most starts to be priced
WIDE = [484, 987, 976, 999, 949, 904, 988, 964, 904, 936, 954, 975, 920, 967, 924, 964, 931, 932, 971, 929, 954, 992, 969, 969]
WIDE_CEILING = 4509691


def price(tickets, releases, i, t):
    """The least price of a spread with ticket i pinned at t: slot by slot, the released ticket that costs most for each slot."""
    left = [p for (_, _, p, _) in tickets]
    value = [w * (SCALE // p) for (_, _, p, w) in tickets]
    cost = sum(w * (p + 1) * (SCALE // 2) for (_, _, p, w) in tickets)
    pin = range(t, t + left[i])
    cost += value[i] * sum(pin)
    left[i] = 0
    by_value = sorted(range(len(tickets)), key=lambda j: -value[j])
    slot, togo = 0, sum(left)
    while togo:
        if slot not in pin:
            for j in by_value:
                if left[j] and releases[j] <= slot:
                    left[j] -= 1
                    togo -= 1
                    cost += value[j] * slot
                    break
        slot += 1
    return cost


def pruned(tickets, ceiling, bans):
    """The rows that are left, how many passes it took, and how many starts were priced."""
    rows = [[t for t in range(f, l + 1) if (i, t) not in bans] for i, (f, l, _, _) in enumerate(tickets)]
    passes = priced = 0
    while True:
        passes += 1
        priced += sum(map(len, rows))
        releases = [row[0] for row in rows]
        new = [[t for t in row if price(tickets, releases, i, t) <= SCALE * ceiling] for i, row in enumerate(rows)]
        assert all(new), "hopeless"
        if new == rows:
            return rows, passes, priced
        rows = new


def ticket_file(tickets, ceiling, bans):
    out = bytearray([82, 80, 81, 1, 0])
    for f, l, p, w in tickets:
        out += bytes([84, 5, f, l, p, w % 256, w // 256])
    out += bytes([67, 4]) + ceiling.to_bytes(4, "little")
    for i, t in sorted(bans):
        out += bytes([66, 2, i, t])
    return bytes(out)


def ordinary():
    """A full day: 24 tickets, laid end to end, each with a row about its start. 137331 is the least ceiling that is not hopeless."""
    rng = random.Random(24)
    tickets, slot = [], 0
    for _ in range(24):
        p, w = rng.randint(4, 15), rng.randint(1, 100)
        first, last = max(0, slot - rng.randint(5, 40)), min(255, slot + rng.randint(5, 40))
        tickets.append((first, last, p, w))
        slot += p + rng.randint(0, 1)
    return tickets, 138704


def days():
    day = lambda weights: [(0, 255, 16, w) for w in weights]
    yield "worst-day", day([w for w, _ in WORST]), WORST_CEILING, {(i, t) for i, (_, f) in enumerate(WORST) for t in range(f)}
    yield "wide-day", day(WIDE), WIDE_CEILING, set()
    yield "ordinary-day", *ordinary(), set()


def main():
    lines = []
    for name, tickets, ceiling, bans in days():
        rows, passes, priced = pruned(tickets, ceiling, bans)
        before = sum(l - f + 1 for (f, l, _, _) in tickets) - len(bans)
        words = [len(tickets)] + [x for ticket in tickets for x in ticket] + [ceiling, len(bans)]
        words += [x for ban in sorted(bans) for x in ban]
        words.append(before - sum(map(len, rows)))
        for row in rows:
            words += [len(row)] + row
        lines.append(" ".join(map(str, words)))
        print(f"{name}: {before} starts, {sum(map(len, rows))} left, {passes} passes, {priced} starts priced", file=sys.stderr)
        with open(os.path.join(EXAMPLES, name + ".rpq"), "wb") as out:
            out.write(ticket_file(tickets, ceiling, bans))
    with open(os.path.join(HERE, "stdin"), "w") as out:
        out.write("\n".join([str(len(lines))] + lines) + "\n")


if __name__ == "__main__":
    main()
