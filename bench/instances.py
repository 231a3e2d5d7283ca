#!/usr/bin/env python3
"""Writes the clause files of docs/BENCHMARKS.md into the folder that is named."""
import random
import sys


def write(folder, name, count, clauses, budget=1000000):
    with open(f"{folder}/{name}.cnf", "w") as out:
        out.write(f"c budget {budget}\np cnf {count} {len(clauses)}\n")
        for clause in clauses:
            out.write(" ".join(map(str, clause)) + " 0\n")


class Circuit:
    """Gates as clauses."""

    def __init__(self):
        self.count = 0
        self.clauses = []

    def new(self):
        self.count += 1
        return self.count

    def both(self, a, b):
        c = self.new()
        self.clauses += [[-c, a], [-c, b], [c, -a, -b]]
        return c

    def differ(self, a, b):
        c = self.new()
        self.clauses += [[-c, a, b], [-c, -a, -b], [c, -a, b], [c, a, -b]]
        return c

    def either(self, a, b):
        return -self.both(-a, -b)

    def full(self, a, b, c):
        d = self.differ(a, b)
        return self.differ(d, c), self.either(self.both(a, b), self.both(d, c))

    def any_differ(self, xs, ys):
        self.clauses.append([self.differ(x, y) for x, y in zip(xs, ys)])


def subtraction(bits):
    """(a - b) + b isn't a."""
    c = Circuit()
    a = [c.new() for _ in range(bits)]
    b = [c.new() for _ in range(bits)]
    one = c.new()
    c.clauses.append([one])
    minus, carry = [], one
    for k in range(bits):
        s, carry = c.full(a[k], -b[k], carry)
        minus.append(s)
    total, carry = [], -one
    for k in range(bits):
        s, carry = c.full(minus[k], b[k], carry)
        total.append(s)
    c.any_differ(total, a)
    return c.count, c.clauses


def product(c, a, b, zero):
    rows = [zero] * len(a)
    for k in range(len(a)):
        carry = zero
        for j in range(len(a) - k):
            rows[k + j], carry = c.full(rows[k + j], c.both(a[j], b[k]), carry)
    return rows


def commutes(bits):
    """a * b isn't b * a, in so many bits."""
    c = Circuit()
    a = [c.new() for _ in range(bits)]
    b = [c.new() for _ in range(bits)]
    one = c.new()
    c.clauses.append([one])
    c.any_differ(product(c, a, b, -one), product(c, b, a, -one))
    return c.count, c.clauses


def pigeons(birds, holes):
    at = lambda p, h: p * holes + h + 1
    clauses = [[at(p, h) for h in range(holes)] for p in range(birds)]
    for h in range(holes):
        clauses += [[-at(p, h), -at(q, h)] for p in range(birds) for q in range(p)]
    return birds * holes, clauses


def randoms(count, ratio, seed):
    draw = random.Random(seed)
    clauses = []
    for _ in range(int(count * ratio)):
        chosen = draw.sample(range(1, count + 1), 3)
        clauses.append([v if draw.random() < 0.5 else -v for v in chosen])
    return count, clauses


def chain(count):
    """Each variable makes the next one true, and the first is true."""
    return count, [[-k, k + 1] for k in range(1, count)] + [[1]]


def read(count):
    """A chain with an empty clause in front: what reading it takes."""
    return count, [[]] + chain(count)[1]


def falls(count):
    """A chain whose last variable is false, so that one line rests on all its clauses."""
    return count, chain(count)[1] + [[-count]]


def pairs(count):
    """One of each two variables that follow each other is true."""
    return count, [[k, k + 1] for k in range(1, count)]


def beside(count, birds):
    """Pigeons with one hole too few, behind variables that all follow from the first one's being false."""
    clauses = [[1, 2]] + [[-k, k + 1] for k in range(2, count)]
    far, others = pigeons(birds, birds - 1)
    shifted = [[l + count if l > 0 else l - count for l in c] for c in others]
    return count + far, clauses + shifted


def wide(count):
    """One clause of all variables, from the last one down."""
    return count, [list(range(count, 0, -1))]


def main():
    folder = sys.argv[1]
    for bits in (16, 32):
        write(folder, f"subtraction{bits}", *subtraction(bits))
    write(folder, "pigeons6", *pigeons(6, 5))
    write(folder, "pigeons8", *pigeons(8, 7))
    for seed in range(1, 6):
        write(folder, f"random{seed}", *randoms(150, 4.3, seed))
    write(folder, "commutes5", *commutes(5))
    for count in (10000, 100000, 125000, 250000, 500000, 1000000):
        write(folder, f"chain{count}", *chain(count))
    for count in (125000, 250000, 500000, 1000000):
        write(folder, f"read{count}", *read(count))
        write(folder, f"falls{count}", *falls(count))
        write(folder, f"rising{count}", *pairs(count), budget=0)
    for count in (10000, 100000):
        write(folder, f"beside{count}", *beside(count, 9), budget=4000)
        write(folder, f"wide{count}", *wide(count))


main()
