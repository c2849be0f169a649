"""Where the programs are that are counted, and which half each of them falls into."""

import hashlib
import re
import subprocess
from pathlib import Path
from typing import NamedTuple

CHOOSE = Path(__file__).resolve().parent
BENCH = CHOOSE.parent
ROOT = BENCH.parent
OUT = BENCH / "out"
COUNTS = OUT / "counts"
CODES = CHOOSE / "codes.txt"

# Codes are chosen by the odd half and the ten.
ODD, EVEN, TEN = "odd", "even", "ten"


class Build(NamedTuple):
    """Bytes of a program, and the kind of records that it is counted over."""

    half: str
    name: str
    build: str
    path: Path
    kind: str


def half_of(name):
    """The half of a name, by the last digit of its SHA-256, as bench/corpus finds it."""
    return ODD if int(hashlib.sha256(name.encode()).hexdigest()[-1], 16) % 2 else EVEN


def kind_of(source):
    """The kind of records that a source in C says it is for, as bench/corpus finds it."""
    found = re.findall(r".*Over ([a-z]+)\. \*/$", source.read_text(), re.MULTILINE)
    return found[-1] if found else "random"


def from_c():
    """The builds of the programs from C."""
    for source in sorted((BENCH / "c").glob("*.c")):
        name = source.stem
        for path in sorted((BENCH / "programs").glob(name + ".v?.bin")):
            yield Build(half_of(name), name, path.name.split(".")[1], path, kind_of(source))


def assembled(command, source, path):
    """Writes the bytes of assembler text, of which `bqview asm` lists the units, unless they are there already."""
    if path.exists() and path.stat().st_mtime >= source.stat().st_mtime:
        return
    try:
        done = subprocess.run([command, "asm", source], stdout=subprocess.PIPE, universal_newlines=True, check=False)
    except OSError as error:
        raise SystemExit(f"{command} cannot be run: {error.strerror}; --bqview names another program") from None
    if done.returncode:
        raise SystemExit(f"{command} asm {source} failed: the message above says why. --bqview names another program")
    path.write_bytes(bytes.fromhex("".join(done.stdout.split())))


def ten(command):
    """The ten programs in assembler text, whose bytes are made in bench/out/ten."""
    folder = OUT / "ten"
    folder.mkdir(parents=True, exist_ok=True)
    for source in sorted((BENCH / "programs").glob("*.bpf")):
        path = folder / (source.stem + ".bin")
        assembled(command, source, path)
        yield Build(TEN, source.stem, "text", path, "random")
