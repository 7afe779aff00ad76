#!/usr/bin/env python3
"""Decodes stored texts of short codes by search, written from docs/FORMAT.md alone.

  tools/decode_plain.py DESC < STORED > FILE

It shares nothing with agcode, and ends as `agcode decode` does: the same file, the same lines on the standard error, and 0, or 2
(beyond), 3 (ragged) or 4 (framing). A block that is no codeword is looked up among all changes of at most t symbols, of which
there must be no more than some millions. Curves and affine spaces, both rules, both layouts. Needs python3.11 or later.
"""
import itertools
import sys
import tomllib


class Field:
    def __init__(self, bits, modulus):
        self.bits, self.size = bits, 1 << bits
        self.products = [[self.product(x, y, modulus) for y in range(self.size)] for x in range(self.size)]
        self.inverse = {x: row.index(1) for x, row in enumerate(self.products) if 1 in row}

    def product(self, x, y, modulus):
        result = 0
        while y:
            result ^= x if y & 1 else 0
            x = x << 1 ^ (modulus if x << 1 & self.size else 0)
            y >>= 1
        return result

    def value(self, exponents, point):
        result = 1
        for exponent, x in zip(exponents, point):
            for _ in range(exponent):
                result = self.products[result][x]
        return result


class Span:
    """Lists of symbols, each of which was no combination of the earlier ones."""

    def __init__(self, field):
        self.field, self.rows = field, []

    def add(self, symbols):
        """Whether the list is new."""
        symbols = list(symbols)
        for place, row in self.rows:
            factor = self.field.products[symbols[place]]
            symbols = [x ^ factor[y] for x, y in zip(symbols, row)]
        place = next((place for place, x in enumerate(symbols) if x), None)
        if place is None:
            return False
        factor = self.field.products[self.field.inverse[symbols[place]]]
        self.rows.append((place, [factor[x] for x in symbols]))
        return True


def functions(keys, size):
    """The exponents of each function and its pairs, by its label, rising."""
    if "space" in keys:
        r = keys["space"]
        listed = [()]
        for _ in range(r):
            listed = [head + (e,) for head in listed for e in range(r * (size - 1) - sum(head) + 1)]
        listed.sort(key=lambda exponents: (sum(exponents), [-e for e in exponents]))
        return [(label, exponents, product(e + 1 for e in exponents)) for label, exponents in enumerate(listed)]
    a, b = keys["a"], keys["b"]
    top = a * (size - 1) + b * (a - 1)
    labels = {a * i + b * j: (i, j) for j in range(a) for i in range(top // a + 1) if a * i + b * j <= top}
    return [(w, labels[w], sum(w - u in labels for u in labels)) for w in sorted(labels)]


def product(numbers):
    result = 1
    for number in numbers:
        result *= number
    return result


class Code:
    def __init__(self, path):
        with open(path, "rb") as file:
            keys = tomllib.load(file)
        self.field = Field(keys["bits"], keys["modulus"])
        self.depth, self.packed = keys["depth"], keys.get("layout", "bytes") == "packed"
        self.n = len(keys["points"])
        span, self.checks, bound = Span(self.field), [], None
        for label, exponents, pairs in functions(keys, self.field.size):
            values = [self.field.value(exponents, point) for point in keys["points"]]
            if not span.add(values):
                continue
            if label <= keys["weight"] if "weight" in keys else pairs < keys["improved"]:
                self.checks.append(values)
            else:
                bound = pairs if bound is None else min(bound, pairs)
        self.t = (bound - 1) // 2
        self.columns = [tuple(values[place] for values in self.checks) for place in range(self.n)]
        span = Span(self.field)
        self.messages = sorted(set(range(self.n)) - {p for p in reversed(range(self.n)) if span.add(self.columns[p])})
        self.nearby = None

    def syndrome(self, symbols):
        """The products of a word, that is of its symbols other than 0 by their places, with the checked functions."""
        result = [0] * len(self.checks)
        for place, symbol in symbols:
            factor = self.field.products[symbol]
            result = [x ^ factor[y] for x, y in zip(result, self.columns[place])]
        return tuple(result)

    def near(self, block):
        """The codeword that differs from the stored symbols in at most t places, or None."""
        low = [symbol % self.field.size for symbol in block]
        syndrome = self.syndrome(enumerate(low))
        changes = ()
        if any(syndrome):
            if self.nearby is None:
                self.nearby = {self.syndrome(change): change for change in self.changes()}
            changes = self.nearby.get(syndrome)
            if changes is None:
                return None
        for place, change in changes:
            low[place] ^= change
        return low if sum(x != y for x, y in zip(low, block)) <= self.t else None

    def changes(self):
        for count in range(1, self.t + 1):
            for places in itertools.combinations(range(self.n), count):
                for values in itertools.product(range(1, self.field.size), repeat=count):
                    yield tuple(zip(places, values))


def bits_of(numbers, width):
    return [number >> place & 1 for number in numbers for place in reversed(range(width))]


def numbers_of(bits, width):
    whole = len(bits) // width * width
    return [int("".join(map(str, bits[at:at + width])), 2) for at in range(0, whole, width)]


def stored_symbols(code, group):
    return numbers_of(bits_of(group, 8), code.field.bits)[:code.n * code.depth] if code.packed else list(group)


def decode(code, text, report):
    """The status, the line that ends the report, and the file."""
    stored = code.n * code.depth
    size = (stored * code.field.bits + 7) // 8 if code.packed else stored
    groups, left = divmod(len(text), size)
    bits, changed, sure = [], 0, 0
    for g in range(groups):
        symbols = stored_symbols(code, text[g * size:(g + 1) * size])
        lines = []
        for c in range(code.depth):
            block = symbols[c::code.depth]
            word = code.near(block)
            if word is None:
                return 2, f"beyond {g} {c}", bits[:sure]
            lines += [(c, p, old, new) for p, (old, new) in enumerate(zip(block, word)) if old != new]
            bits += bits_of([word[p] for p in code.messages], code.field.bits)
        for c, p, old, new in lines:
            report(f"changed {g} {c} {p} {old:02x} {new:02x}")
        changed += len(lines)
        last, sure = sure, len(bits)
    if groups == 0 or left:
        return 3, f"ragged {left}", bits
    if 1 not in bits[last:]:
        return 4, "framing", bits[:last]
    end = len(bits) - 1 - bits[::-1].index(1)
    if end % 8:
        return 4, "framing", bits[:last]
    return 0, f"done bytes {end // 8} groups {groups} changed {changed}", bits[:end]


def main():
    if len(sys.argv) != 2:
        sys.exit(__doc__)
    status, line, bits = decode(Code(sys.argv[1]), sys.stdin.buffer.read(), lambda text: print(text, file=sys.stderr))
    sys.stdout.buffer.write(bytes(numbers_of(bits, 8)))
    print(line, file=sys.stderr)
    sys.exit(status)


if __name__ == "__main__":
    main()
