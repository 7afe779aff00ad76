#!/usr/bin/env python3
"""Checks a table of the order bound from the descriptor alone: field, curve or space, points and rule.

  tools/check_bound.py DESC < TABLE

It shares nothing with agcode but the text of docs/FORMAT.md, and ends as `agcode check` does: with 0 and `accepted bound D`, or
with 5 and `table refused at line L`; 65 is a descriptor that is none. Slow: made for codes of some dozens of symbols. Needs
python3.11 or later.

Why the four checks show the bound: the lists are dual to the values of the functions, so a word that is no zero word has a first
label whose product with it is not 0, and as many of its symbols are not 0 as this label has pairs.
"""
import re
import sys
import tomllib


class Field:
    """Polynomials over GF(2) as numbers, modulo one that is no product of smaller ones."""

    def __init__(self, bits, modulus):
        self.size = 1 << bits
        factors = range(2, self.size)
        refuse(not 2 <= bits <= 8 or modulus >> bits != 1, "field")
        refuse(any(carryless(f, g) == modulus for f in factors for g in factors if f <= g), "field")
        self.products = [[reduce(carryless(x, y), bits, modulus) for y in range(self.size)] for x in range(self.size)]

    def power(self, x, e):
        result = 1
        for _ in range(e):
            result = self.products[result][x]
        return result

    def dot(self, xs, ys):
        total = 0
        for x, y in zip(xs, ys):
            total ^= self.products[x][y]
        return total


def carryless(x, y):
    return 0 if y == 0 else (x if y & 1 else 0) ^ carryless(x << 1, y >> 1)


def reduce(x, bits, modulus):
    for place in range(2 * bits, bits - 1, -1):
        if x >> place & 1:
            x ^= modulus << (place - bits)
    return x


class Curve:
    """The functions x^i·y^j with j < a, by their labels a·i + b·j."""

    def __init__(self, field, a, b, terms):
        refuse(not (2 <= a <= 32 and 2 <= b <= 32) or gcd(a, b) != 1, "degrees")
        refuse(any(not (i >= 0 and j >= 0 and 0 < c < field.size) or a * i + b * j > a * b for i, j, c in terms), "term")
        refuse(len({(i, j) for i, j, _ in terms}) < len(terms), "term")
        refuse(not {(0, a), (b, 0)} <= {(i, j) for i, j, _ in terms}, "lead")
        self.field, self.terms, self.coordinates = field, terms, 2
        top = a * (field.size - 1) + b * (a - 1)
        self.functions = {a * i + b * j: (i, j) for j in range(a) for i in range(top) if a * i + b * j <= top}

    def pairs(self, label):
        return sum(label - smaller in self.functions for smaller in self.functions)

    def has(self, point):
        total = 0
        for i, j, c in self.terms:
            total ^= self.field.products[c][value(self.field, (i, j), point)]
        return total == 0


class Space:
    """The monomials in one to three variables of total degree at most r·(Q - 1), by degree, then by falling exponents."""

    def __init__(self, field, r):
        refuse(not 1 <= r <= 3 or r == 3 and field.size > 32, "space")
        self.coordinates = r
        most = r * (field.size - 1)
        listed = [()]
        for _ in range(r):
            listed = [head + (e,) for head in listed for e in range(most - sum(head) + 1)]
        listed.sort(key=lambda exponents: (sum(exponents), [-e for e in exponents]))
        self.functions = dict(enumerate(listed))

    def pairs(self, label):
        count = 1
        for exponent in self.functions[label]:
            count *= exponent + 1
        return count

    def has(self, _):
        return True


def gcd(x, y):
    return x if y == 0 else gcd(y, x % y)


def value(field, exponents, point):
    result = 1
    for exponent, x in zip(exponents, point):
        result = field.products[result][field.power(x, exponent)]
    return result


def refuse(wrong, what):
    if wrong:
        sys.stderr.write(f"descriptor: {what}\n")
        sys.exit(65)


class Code:
    """What a descriptor says, as far as the bound rests on it."""

    def __init__(self, path):
        with open(path, "rb") as file:
            keys = tomllib.load(file)
        self.field = Field(keys["bits"], keys["modulus"])
        if "space" in keys:
            self.space = Space(self.field, keys["space"])
        else:
            self.space = Curve(self.field, keys["a"], keys["b"], keys["terms"])
        self.points = [tuple(point) for point in keys["points"]]
        refuse(not self.points or len(set(self.points)) < len(self.points), "points")
        for point in self.points:
            refuse(len(point) != self.space.coordinates or any(not 0 <= x < self.field.size for x in point), "points")
            refuse(not self.space.has(point), "points")
        refuse(("weight" in keys) == ("improved" in keys), "weight")
        self.weight, self.improved = keys.get("weight"), keys.get("improved")

    def values(self, label):
        return [value(self.field, self.space.functions[label], point) for point in self.points]

    def mark(self, label):
        checked = label <= self.weight if self.improved is None else self.space.pairs(label) < self.improved
        return "c" if checked else "f"


NUMBER = r"(0|[1-9][0-9]{0,18})"


def first_bad_line(code, text):
    """The line that `agcode check` names, or 0 and the bound."""
    n = len(code.points)
    lines = text.split("\n")
    head = re.fullmatch(f"n {NUMBER} checked {NUMBER} bound {NUMBER}", lines[1]) if len(lines) > 2 else None
    rows = []
    if len(lines) < 2 or lines[0] != "agcode-bound 1":
        return 1, 0
    if not head or int(head[1]) != n:
        return 2, 0
    for number, line in enumerate(lines[2:n + 2], 3):
        found = re.fullmatch(f"label {NUMBER} {NUMBER} ([cf])((?: {NUMBER}){{{n}}})", line)
        symbols = [int(symbol) for symbol in found[4].split()] if found and number < len(lines) else [code.field.size]
        if max(symbols) >= code.field.size:
            return number, 0
        rows.append((int(found[1]), int(found[2]), found[3], symbols))
    if len(rows) < n or lines[n + 2:] != [""]:
        return len(rows) + 3, 0
    for number, (label, pairs, mark, _) in enumerate(rows, 3):
        if label not in code.space.functions or number > 3 and label <= rows[number - 4][0]:
            return number, 0
        if pairs != code.space.pairs(label) or mark != code.mark(label):
            return number, 0
    later = {label for label, *_ in rows}
    listed = {label: code.values(label) for label in sorted(code.space.functions) if label <= rows[-1][0]}
    for number, (label, _, _, symbols) in enumerate(rows, 3):
        for other, values in listed.items():
            if (other <= label or other in later) and code.field.dot(symbols, values) != (other == label):
                return number, 0
    free = [pairs for _, pairs, mark, _ in rows if mark == "f"]
    if not free or int(head[2]) != n - len(free) or int(head[3]) != min(free):
        return 2, 0
    return 0, min(free)


def main():
    if len(sys.argv) != 2:
        sys.exit(__doc__)
    line, bound = first_bad_line(Code(sys.argv[1]), sys.stdin.buffer.read().decode("latin-1"))
    if line:
        sys.stderr.write(f"table refused at line {line}\n")
        sys.exit(5)
    print(f"accepted bound {bound}")


if __name__ == "__main__":
    main()
