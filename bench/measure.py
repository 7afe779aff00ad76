"""What the measures share: the built program, inputs, damage, and what a run costs."""

import os
import pathlib
import random
import re
import shutil
import subprocess
import sys
import tempfile
import time
from dataclasses import dataclass

ROOT = pathlib.Path(__file__).resolve().parent.parent
PROGRAM = pathlib.Path(os.environ.get("PROGRAM", ROOT / "crates/agcode_cli/out/agcode_cli")).resolve()
WIDE_PROGRAM = ROOT / "crates/agcode_cli/out/agcode_cli_wide"
GNU_TIME = "/usr/bin/time"
# A machine on which so much else ran in the last minute is called busy.
BUSY_LOAD = 1.5


@dataclass(frozen=True)
class Code:
    """A descriptor: its positions, codewords of a group, field, bytes of message in a group, and bits of a stored symbol."""

    file: pathlib.Path
    positions: int
    depth: int
    symbols: int
    message: int
    width: int = 8

    @property
    def group(self):
        """The bytes of a group."""
        return -(-self.positions * self.depth * self.width // 8)


LARGE = Code(ROOT / "examples/hermitian-64.toml", 512, 4, 64, 852)
PACKED = Code(ROOT / "examples/hermitian-64-packed.toml", 512, 4, 64, 852, 6)
MIDDLE = Code(ROOT / "examples/hermitian-16.toml", 64, 1, 16, 19)
WIDE = Code(ROOT / "examples/hermitian-256.toml", 1024, 1, 256, 504)


@dataclass(frozen=True)
class Cost:
    """Processor time and elapsed time of a run, in seconds."""

    processor: float
    elapsed: float


def run_once(words, source, sink):
    with open(source or os.devnull, "rb") as given, open(sink or os.devnull, "wb") as taken:
        start = time.perf_counter()
        child = subprocess.Popen(
            [str(word) for word in words], stdin=given, stdout=taken, stderr=subprocess.DEVNULL
        )
        _, status, usage = os.wait4(child.pid, 0)
        elapsed = time.perf_counter() - start
    child.returncode = os.waitstatus_to_exitcode(status)
    if child.returncode != 0:
        sys.exit(f"{words} ended with {child.returncode}")
    return Cost(usage.ru_utime + usage.ru_stime, elapsed)


def cost(words, source=None, sink=None, runs=7):
    """The least processor time and the least elapsed time of several runs."""
    costs = [run_once(words, source, sink) for _ in range(runs)]
    return Cost(min(c.processor for c in costs), min(c.elapsed for c in costs))


def peak(words, source=None):
    """The most memory that a run holds at one time, in MB."""
    if not os.path.exists(GNU_TIME):
        sys.exit(f"{GNU_TIME} is wanted, to measure memory")
    with tempfile.NamedTemporaryFile("r") as told, open(source or os.devnull, "rb") as given:
        subprocess.run(
            [GNU_TIME, "-o", told.name, "-f", "%M", *map(str, words)],
            stdin=given,
            stdout=subprocess.DEVNULL,
            stderr=subprocess.DEVNULL,
            check=True,
        )
        return int(told.read()) / 1024


def program():
    """The built program. It is built where it is not there yet."""
    if not PROGRAM.exists():
        folder = PROGRAM.parent.parent
        subprocess.run(
            ["rt", "run", "--", "points", "data/a.toml"],
            cwd=folder,
            stdout=subprocess.DEVNULL,
            check=True,
        )
    return PROGRAM


def built(crate):
    """The program of a crate of bench_, built where it is not there yet."""
    folder = ROOT / "crates" / crate
    path = folder / "out" / crate
    if not path.exists():
        words = (folder / "args").read_text().split()
        subprocess.run(["rt", "run", "--", *words], cwd=folder, stdout=subprocess.DEVNULL, check=True)
    return path


def plain(source, folder):
    """The program of a file of plain Rust, for comparison."""
    path = pathlib.Path(folder) / "plain"
    subprocess.run(["rustc", "-O", "-o", path, source], check=True)
    return path


def workspace():
    """A folder that is removed at the end of a `with`."""
    return tempfile.TemporaryDirectory()


def write_file(path, size):
    """A file of so many bytes, the same in each run."""
    path = pathlib.Path(path)
    path.write_bytes(random.Random(size).randbytes(size))
    return path


def encoded(code, source, path):
    """The stored text of a file."""
    run_once([program(), "encode", code.file], source, path)
    return pathlib.Path(path)


def damage_group(code, group, count, draw):
    """A group with so many symbols of each codeword changed."""
    spare = 8 * len(group) - code.positions * code.depth * code.width
    bits = int.from_bytes(group, "big")
    for word in range(code.depth):
        for position in draw.sample(range(code.positions), count):
            after = (code.positions - position) * code.depth - word - 1
            bits ^= draw.randrange(1, code.symbols) << (spare + after * code.width)
    return bits.to_bytes(len(group), "big")


def damage(code, stored, count, path):
    """The stored text with so many symbols of each codeword changed."""
    draw = random.Random(count)
    text = pathlib.Path(stored).read_bytes()
    groups = (text[start : start + code.group] for start in range(0, len(text), code.group))
    path = pathlib.Path(path)
    path.write_bytes(b"".join(damage_group(code, group, count, draw) for group in groups))
    return path


def with_rule(code, rule, path):
    """The descriptor of a code with another rule, as `weight = 63`."""
    text = re.sub(r"(?m)^(weight|improved) = .*$", rule, code.file.read_text())
    pathlib.Path(path).write_text(text)
    return pathlib.Path(path)


def check_same(path, other):
    """Ends the measure where two files differ."""
    if pathlib.Path(path).read_bytes() != pathlib.Path(other).read_bytes():
        sys.exit(f"{path} and {other} differ")


def is_busy():
    """Whether other work ran beside the measure in the last minute."""
    return os.getloadavg()[0] > BUSY_LOAD


def tell(what, figure, target="", exact=False):
    """One row of the table. A time that was taken on a busy machine says so; a count that is exact needs not."""
    mark = "" if exact or not is_busy() else f", busy: load {os.getloadavg()[0]:.0f}"
    print(f"| {what} | {figure}{mark} | {target} |", flush=True)


def has_avx2():
    return re.search(r"(?m)^flags\b.*\bavx2\b", pathlib.Path("/proc/cpuinfo").read_text()) is not None


def has_rust():
    return shutil.which("rustc") is not None
