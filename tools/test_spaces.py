#!/usr/bin/env python3
"""Tries codes on affine spaces as their statements say it: a file whose codewords have up to t changes each comes back, and just
the changes are told.

  tools/test_spaces.py      some seconds

What must come is taken from the statement alone: the file that was encoded, the changes that were made here, and of a lost codeword
the symbols that were read. PROGRAM names another program than the built one. Needs python3.11.
"""
import itertools
import os
import random
import subprocess
import sys
import tempfile
from pathlib import Path

TOP = Path(__file__).resolve().parent.parent
PROGRAM = os.environ.get("PROGRAM", str(TOP / "crates/agcode_cli/out/agcode_cli"))
LINE = "bits = 2\nmodulus = 7\ndepth = 1\nspace = 1\npoints = [[0], [1], [2], [3]]\nweight = 1\n"
PLANE = "bits = 2\nmodulus = 7\ndepth = 1\nspace = 2\npoints = " + str([[x, y] for x in range(4) for y in range(4)]) + "\n"


def agcode(words, given=b""):
    answer = subprocess.run([PROGRAM, *words], input=given, capture_output=True, check=False)
    return answer.returncode, answer.stdout, answer.stderr.decode()


class Code:
    """A descriptor, and how its stored text is laid out."""

    def __init__(self, path, bits, depth=1, packed=False):
        self.path, self.bits, self.depth = str(path), bits, depth
        self.width = bits if packed else 8
        status, text, _ = agcode(["params", self.path])
        assert status == 0, "no params"
        self.says = dict(line.split(" ", 1) for line in text.decode().splitlines())
        self.n, self.k, self.t = (int(self.says[key]) for key in "nkt")
        self.group = -(-self.n * depth * self.width // 8)

    def symbols(self, text):
        """The stored symbols of each group, position by position."""
        whole = [text[at:at + self.group] for at in range(0, len(text), self.group)]
        return [self.split(int.from_bytes(group, "big")) for group in whole]

    def split(self, number):
        fill = self.group * 8
        mask = (1 << self.width) - 1
        return [number >> fill - (i + 1) * self.width & mask for i in range(self.n * self.depth)]

    def text(self, groups):
        made = bytearray()
        for group in groups:
            number = 0
            for symbol in group:
                number = number << self.width | symbol
            fill = self.group * 8 - len(group) * self.width
            made += (number << fill).to_bytes(self.group, "big")
        return bytes(made)


def damaged(code, text, errors):
    """The text with these changes, `(group, codeword, position)` to what is added, and the lines that decode must tell."""
    groups = code.symbols(text)
    lines = []
    for (g, c, p), added in sorted(errors.items()):
        old = groups[g][p * code.depth + c]
        groups[g][p * code.depth + c] = old ^ added
        lines.append(f"changed {g} {c} {p} {old ^ added:02x} {old:02x}\n")
    return code.text(groups), lines


def repairs(code, file, errors):
    """Encodes, changes, decodes, and compares with the file and the changes."""
    status, text, _ = agcode(["encode", code.path], file)
    assert status == 0, "encode fails"
    bad, lines = damaged(code, text, errors)
    lines.append(f"done bytes {len(file)} groups {len(text) // code.group} changed {len(errors)}\n")
    assert agcode(["decode", code.path], bad) == (0, file, "".join(lines)), "the file or the changes do not come back"


def errors_of(n, t, size):
    """Every error of at most t symbols."""
    for weight in range(t + 1):
        for places in itertools.combinations(range(n), weight):
            for values in itertools.product(range(1, size), repeat=weight):
                yield dict(zip(places, values))


def all_errors(code, draw):
    """Every error of at most t symbols, each on a codeword of its own."""
    errors = list(errors_of(code.n, code.t, 1 << code.bits))
    file = draw.randbytes(len(errors) * code.k * code.bits // 8)
    repairs(code, file, {(g, 0, p): v for g, error in enumerate(errors) for p, v in error.items()})
    return len(errors)


def every_word(code):
    """Every error of at most t symbols on every codeword of a code whose messages have four bits."""
    errors = list(errors_of(code.n, code.t, 1 << code.bits))
    errors += [{}] * (len(errors) % 2)
    file = bytes(17 * word for word in range(16) for _ in range(len(errors) // 2))
    repairs(code, file, {
        (word * len(errors) + g, 0, p): v for word in range(16) for g, error in enumerate(errors) for p, v in error.items()
    })
    return 16 * len(errors)


def at_all_positions(code, draw):
    """One codeword after the other of equal message, with t changes that begin at each position in turn."""
    word = draw.randbytes(code.k)
    file = word * code.n
    repairs(code, file, {(g, 0, (g + i) % code.n): draw.randrange(1, 256) for g in range(code.n) for i in range(code.t)})


def at_random(code, draw, groups):
    """A file of so many groups, with t changes in each codeword."""
    file = draw.randbytes(groups * code.k * code.depth * code.bits // 8 - 1)
    repairs(code, file, {
        (g, c, p): draw.randrange(1, 1 << code.bits)
        for g in range(groups) for c in range(code.depth) for p in draw.sample(range(code.n), code.t)
    })


def is_known(code, checks):
    """A Reed-Solomon code: as many checks as wanted, and half of them is the radius. No code repairs more with so few."""
    assert int(code.says["checks"]) == code.n - code.k == checks, "not as many checks"
    assert code.t == checks // 2 and int(code.says["bound"]) == checks + 1, "another radius"
    assert code.says["relation"] == "none", "a relation"


def salvages(code, draw):
    """Of three codewords the second is lost, and the other two have t changes. The message stands at the first positions."""
    file = draw.randbytes(3 * code.k - 1)
    _, text, _ = agcode(["encode", code.path], file)
    errors = {(g, 0, p): draw.randrange(1, 256) for g in (0, 2) for p in draw.sample(range(code.n), code.t)}
    bad, lines = damaged(code, text, errors)
    lost = draw.randbytes(code.n)
    bad = bad[:code.n] + lost + bad[2 * code.n:]
    kept = file[:code.k] + lost[:code.k] + file[2 * code.k:]
    first = [line for line in lines if line.startswith("changed 0 ")]
    assert agcode(["decode", code.path], bad) == (2, file[:code.k], "".join(first) + "beyond 1 0\n"), "decode does not end there"
    told = "".join(first + ["lost 1 0\n"] + lines[len(first):])
    told += f"salvaged bytes {len(kept)} groups 3 changed {len(errors)} lost 1\n"
    assert agcode(["decode", "--salvage", code.path], bad) == (7, kept, told), "salvage keeps or tells something else"


def main():
    draw = random.Random(1)
    examples = TOP / "examples"
    with tempfile.TemporaryDirectory() as room:
        def written(text):
            path = Path(room) / "code.toml"
            path.write_text(text)
            return path

        count = every_word(Code(written(LINE), 2))
        count += all_errors(Code(written(PLANE + "improved = 4\n"), 2), draw)
        count += all_errors(Code(written(PLANE + "weight = 9\n"), 2), draw)
        at_random(Code(written(PLANE + 'improved = 4\nlayout = "packed"\n'), 2, packed=True), draw, 40)
    for name, checks in (("reed-solomon-255", 32), ("reed-solomon-256", 32)):
        code = Code(examples / f"{name}.toml", 8)
        is_known(code, checks)
        at_all_positions(code, draw)
    code = Code(examples / "reed-solomon-255.toml", 8)
    at_random(code, draw, 40)
    salvages(code, draw)
    at_random(Code(examples / "reed-muller-16.toml", 4, packed=True), draw, 6)
    at_random(Code(examples / "hyperbolic-16.toml", 4, depth=2, packed=True), draw, 3)
    at_random(Code(examples / "hyperbolic-8.toml", 3, depth=2, packed=True), draw, 3)
    print(f"test_spaces: {count} errors on small codes, and t changes in each codeword of the examples, are repaired")


if __name__ == "__main__":
    try:
        main()
    except AssertionError as difference:
        sys.exit(f"test_spaces: {difference}")
