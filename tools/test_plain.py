#!/usr/bin/env python3
"""Compares agcode with the two programs that a stranger would write, on codes that are small enough for them.

  tools/test_plain.py [ROUNDS]      some seconds with 12 rounds, the default

Tables: `agcode bound` must pass `tools/check_bound.py`, and of tables with a changed, lost or added piece both must say the same.
Texts: `agcode encode`, then some symbols changed, bytes lost or added, or a text of chance; `agcode decode` and
`tools/decode_plain.py` must write the same file, the same report, and end with the same status. PROGRAM names another program than
the built one. Needs python3.11.
"""
import io
import os
import random
import subprocess
import sys
import tempfile
from contextlib import redirect_stderr
from pathlib import Path

sys.dont_write_bytecode = True
import check_bound
import decode_plain

TOP = Path(__file__).resolve().parent.parent
PROGRAM = os.environ.get("PROGRAM", str(TOP / "crates/agcode_cli/out/agcode_cli"))
HEAD = "bits = 2\nmodulus = 7\ndepth = 1\n"
SPACES = {
    "line": HEAD + "space = 1\npoints = [[0], [1], [2], [3]]\nweight = 1\n",
    "plane": HEAD + "space = 2\nimproved = 4\npoints = "
    + str([[x, y] for x in range(4) for y in range(4)]) + "\n",
    "cube": HEAD + "space = 3\nweight = 3\npoints = "
    + str([[x, y, z] for x in range(4) for y in range(2) for z in range(2)]) + "\n",
}


def codes():
    """Descriptors by their names: the small examples, and what is made of them."""
    small = (TOP / "examples/hermitian-4.toml").read_text()
    curve = (TOP / "examples/curve-8.toml").read_text()
    found = {"hermitian-4": small, "weight 3": small.replace("weight = 5", "weight = 3"),
             "improved 4": small.replace("weight = 5", "improved = 4"), "depth 3": small.replace("depth = 1", "depth = 3"),
             "packed": small + 'layout = "packed"\n', "packed, depth 2": small.replace("depth = 1", "depth = 2") + 'layout = "packed"\n',
             "curve-8, t 2": curve.replace("improved = 7", "improved = 5"),
             "curve-8, t 1, packed": curve.replace("improved = 7", "improved = 3") + 'layout = "packed"\n'}
    found.update((name, text) for name, text in SPACES.items() if serves_spaces())
    return found


def serves_spaces():
    with tempfile.NamedTemporaryFile("w", suffix=".toml") as file:
        file.write(SPACES["line"])
        file.flush()
        return agcode(["params", file.name], b"")[0] == 0


def agcode(words, given):
    answer = subprocess.run([PROGRAM, *words], input=given, capture_output=True, check=False)
    return answer.returncode, answer.stdout, answer.stderr.decode()


def changed_table(draw, text):
    """The table with a piece changed, lost or added."""
    lines = text.split("\n")
    at = draw.randrange(len(lines))
    words = lines[at].split(" ")
    which = draw.randrange(len(words))
    words[which] = draw.choice(["0", "1", "2", "00", "f", "c", "7", "-1", "9" * 20, words[which] + "0", ""])
    lines[at] = " ".join(words)
    if draw.randrange(6) == 0:
        del lines[draw.randrange(len(lines))]
    return "\n".join(lines) + draw.choice(["", "", "", "", "\n", "x"])


def changed_text(draw, text, bits):
    """The text with some symbols changed, and perhaps bytes lost or added."""
    text = bytearray(text)
    for _ in range(draw.randrange(len(text) // 4 + 2)):
        text[draw.randrange(len(text))] ^= draw.choice([1, 2, draw.randrange(1, 1 << bits), draw.randrange(256)])
    end = draw.randrange(8)
    if end == 0:
        del text[draw.randrange(len(text)):]
    return bytes(text) + (b"x" if end == 1 else b"")


def tables_agree(code, path, draw, rounds):
    status, text, _ = agcode(["bound", path], b"")
    assert status == 0 and check_bound.first_bad_line(code, text.decode())[0] == 0, "the table is refused"
    for _ in range(rounds):
        given = changed_table(draw, text.decode())
        line, bound = check_bound.first_bad_line(code, given)
        said = (5, b"", f"table refused at line {line}\n") if line else (0, f"accepted bound {bound}\n".encode(), "")
        assert agcode(["check", path], given.encode()) == said, f"{said} is not what agcode says of\n{given}"


def texts_agree(code, path, draw, rounds):
    for number in range(rounds):
        file = draw.randbytes(draw.randrange(12))
        status, text, _ = agcode(["encode", path], file)
        assert status == 0
        if number:
            text = changed_text(draw, text, code.field.bits) if draw.randrange(8) else draw.randbytes(draw.randrange(40))
        report = io.StringIO()
        with redirect_stderr(report):
            status, last, bits = decode_plain.decode(code, text, lambda line: print(line, file=sys.stderr))
        said = status, bytes(decode_plain.numbers_of(bits, 8)), report.getvalue() + last + "\n"
        assert number or said[1] == file, "the text is not read as its file"
        assert agcode(["decode", path], text) == said, f"{said} is not what agcode says of {text.hex()}"


def main():
    rounds = int(sys.argv[1]) if len(sys.argv) > 1 else 12
    draw = random.Random(1)
    with tempfile.TemporaryDirectory() as room:
        path = str(Path(room) / "code.toml")
        for name, text in codes().items():
            Path(path).write_text(text)
            try:
                tables_agree(check_bound.Code(path), path, draw, rounds)
                texts_agree(decode_plain.Code(path), path, draw, rounds)
            except AssertionError as difference:
                sys.exit(f"test_plain: {name}: {difference}")
        print(f"test_plain: {len(codes())} codes, {rounds} tables and {rounds} texts of each, are read alike")


if __name__ == "__main__":
    main()
