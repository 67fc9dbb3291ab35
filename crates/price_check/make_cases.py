#!/usr/bin/env python3
"""Makes the file `stdin` beside it: small days, and their prices found by trying every spread.

The first line says how many days there are. Each other line is a day: how many tickets; for each its first start, last start, length, weight and release; the free
price; how many pinned prices; for each the ticket, the start and the price. Nothing here follows the planner: a
price is the least over all ways to give the slots out, slot by slot, to idle or to any ticket that is released
and unfinished (memo over what is left). The numbers are drawn from a fixed seed, so the file can be made again.
"""
import functools
import os
import random

SCALE = 720720


def price(tickets, releases, pin=None):
    """The least price of any spread; pin is (ticket, start) or None."""
    lengths = tuple(p for (_, _, p, _) in tickets)
    values = [w * (SCALE // p) for (_, _, p, w) in tickets]
    half = sum(w * (p + 1) * (SCALE // 2) for (_, _, p, w) in tickets)
    taken = range(0)
    fixed = 0
    left = list(lengths)
    if pin is not None:
        i, t = pin
        taken = range(t, t + lengths[i])
        fixed = values[i] * sum(taken)
        left[i] = 0
    end = max(list(releases) + [taken.stop]) + sum(lengths)

    @functools.lru_cache(maxsize=None)
    def rest(slot, left):
        if not any(left):
            return 0
        if slot > end:
            return None
        best = rest(slot + 1, left)
        if slot not in taken:
            for i, n in enumerate(left):
                if n and releases[i] <= slot:
                    less = rest(slot + 1, left[:i] + (n - 1,) + left[i + 1:])
                    if less is not None and (best is None or values[i] * slot + less < best):
                        best = values[i] * slot + less
        return best

    return rest(0, tuple(left)) + fixed + half


def ticket(rng, late):
    first = rng.randrange(late)
    last = min(255, first + rng.randrange(6))
    length = rng.choice([1, 1, 2, 2, 3, 4])
    weight = rng.choice([0, 1, 2, 3, 4, 5, 6, 9, 12, 1000])
    return (first, last, length, weight)


def days():
    rng = random.Random(20260)
    yield [], []
    for k in range(299):
        n = rng.choice([1, 2, 2, 3, 3, 4])
        tickets = [ticket(rng, 8) for _ in range(n)]
        if k % 3 == 0:  # ties: the same weight per slot
            unit = rng.choice([1, 2, 3])
            tickets = [(f, l, p, unit * p) for (f, l, p, _) in tickets]
        yield tickets, [rng.randint(f, l) for (f, l, _, _) in tickets]


def main():
    rng = random.Random(7)
    lines = []
    for tickets, releases in days():
        words = [len(tickets)]
        for t, r in zip(tickets, releases):
            words += [*t, r]
        words.append(price(tickets, releases))
        pins = [(i, rng.randrange(12)) for i in range(len(tickets)) for _ in range(3)]
        words.append(len(pins))
        for i, t in pins:
            words += [i, t, price(tickets, releases, (i, t))]
        lines.append(" ".join(map(str, words)))
    here = os.path.dirname(os.path.abspath(__file__))
    with open(os.path.join(here, "stdin"), "w") as out:
        out.write("\n".join([str(len(lines))] + lines) + "\n")


if __name__ == "__main__":
    main()
