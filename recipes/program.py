"""Read by the recipes in Python: where agcode is, what it says of a descriptor, and how a file is put in place.

The program is PROGRAM where it is set, else the one that is built or installed beside the recipes, else `agcode` on the PATH.
"""
import os
import subprocess
import sys
import tomllib
from pathlib import Path

HERE = Path(__file__).resolve().parent
PLACES = [HERE / "../crates/agcode_cli/out/agcode_cli", HERE / "../../../bin/agcode"]
PROGRAM = os.environ.get("PROGRAM") or next((str(place) for place in PLACES if place.exists()), "agcode")


def stop(text, status=1):
    print(f"{Path(sys.argv[0]).name}: {text}", file=sys.stderr)
    sys.exit(status)


def run(*words, given=None):
    try:
        return subprocess.run([PROGRAM, *words], input=given, capture_output=True, check=False)
    except OSError:
        stop("there is no program agcode: ./demo builds it, or PROGRAM names it")


def descriptor(path):
    """The keys of a descriptor, and with them `n`, `k`, `bound` and `t` as numbers, or the end of the recipe."""
    told = run("params", path)
    if told.returncode:
        stop(f"{path}: {told.stderr.decode().strip()}", told.returncode)
    with open(path, "rb") as file:
        keys = tomllib.load(file)
    lines = (line.split() for line in told.stdout.decode().splitlines())
    return keys | {words[0]: int(words[1]) for words in lines if words[0] in ("n", "k", "bound", "t")}


def write_whole(path, text):
    """Writes a file under a temporary name, puts it on the disk, and renames it: there is the old file or the new one, whole."""
    new = f"{path}.new"
    try:
        with open(new, "wb") as file:
            file.write(text)
            file.flush()
            os.fsync(file.fileno())
        os.replace(new, path)
        folder = os.open(os.path.dirname(os.path.abspath(path)), os.O_RDONLY)
        os.fsync(folder)
        os.close(folder)
    except OSError as fault:
        if os.path.exists(new):
            os.remove(new)
        stop(f"{path} is not written: {fault.strerror}")
