"""Small guests for the benches: sources of llvm-mc as static executables, C programs of the examples, and runs of them on the product.
Times are the processor's, of the program and of the system for it, since other programs may run beside it."""
import os
import struct
import subprocess
import sys
from pathlib import Path

BASE = 0x10000
HEADERS = 64 + 56
START = "user 1000 1000\nd 755 0 0 /\n"
HERE = Path(__file__).resolve().parent
PROGRAMS = HERE.parent / "examples/programs"
PRODUCT = HERE.parent / "crates/proot/out/proot"
# Over mounts marks are kept where calm is asked, and there alone.
MACHINES = [("traced", []), ("native", ["--native"]), ("marked", ["--native", "--calm"])]


class Growths:
    """How many times as long four times as much takes, of some measurements."""

    MOST = 4.5

    def __init__(self):
        self.times = {}

    def note(self, name, one, four):
        """Notes one of them, and gives it as a text."""
        self.times[name] = four / max(one, 1e-9)
        return f"{self.times[name]:.2f}"

    def tell(self):
        """Prints how many are as they are asked for, and those that aren't."""
        over = {name: times for name, times in self.times.items() if times > self.MOST}
        print(f"4n is at most {self.MOST} times n in {len(self.times) - len(over)} of {len(self.times)}")
        for name, times in over.items():
            print(f"  above it: {name}, {times:.2f}")


def product(usual=PRODUCT):
    """The program that the first word names, or else the one that `rt run` leaves."""
    program = Path(sys.argv[1] if len(sys.argv) > 1 else usual).resolve()
    if not program.is_file() or not os.access(program, os.X_OK):
        sys.exit(f"bench: there is no program {program}; name one, or build it by `rt run` in its crate")
    return program


def number_or(usual, place=2):
    """The number that the word at a place is, or else the usual one."""
    word = sys.argv[place] if len(sys.argv) > place else str(usual)
    if not (word.isascii() and word.isdigit() and int(word) > 0):
        sys.exit(f"bench: {word} is no number from 1 on")
    return int(word)


def make(words, **options):
    """Runs a program that makes something, which has to succeed."""
    try:
        made = subprocess.run(words, **options)
    except FileNotFoundError:
        sys.exit(f"bench: there is no {words[0]}")
    if made.returncode:
        sys.exit(f"bench: {words[0]} ends with {made.returncode}")


def timed(words, given=os.devnull, told=os.devnull, errors=None):
    """The seconds and the status of a program that reads one file, and writes another, and its errors where a file is named for them."""
    with open(given, "rb") as source, open(told, "wb") as sink, open(errors or os.devnull, "wb") as errors_sink:
        child = subprocess.Popen(words, stdin=source, stdout=sink, stderr=errors_sink if errors else None)
        _, status, usage = os.wait4(child.pid, 0)
    child.returncode = os.waitstatus_to_exitcode(status)
    return usage.ru_utime + usage.ru_stime, child.returncode


def best(rounds, name):
    """The least seconds of some runs, all of which have to end with 0."""
    if any(status != 0 for _, status in rounds):
        raise SystemExit(f"bench: {name} answers {rounds[0][1]}")
    return min(seconds for seconds, _ in rounds)


def example(name, folder):
    """A program of the examples, built for the machine."""
    make([PROGRAMS / "build", folder, name])
    return folder / name


def code_of(source, folder, symbols=()):
    """The code of a source, in which each symbol of a text NAME=NUMBER has its number."""
    built, linked = folder / "loop.o", folder / "loop.bin"
    defined = [f"-defsym={symbol}" for symbol in symbols]
    make(["llvm-mc", "-triple=riscv64", "-mattr=+m", "-filetype=obj", *defined, "-o", built, source])
    make(["ld.lld", "--oformat", "binary", f"-Ttext={BASE + HEADERS:#x}", "-e", "0", "-o", linked, built])
    return linked.read_bytes()


def elf_of(code):
    """A static executable for RISC-V whose one segment is the whole file."""
    size = HEADERS + len(code)
    ident = bytes([0x7F, 0x45, 0x4C, 0x46, 2, 1, 1]) + bytes(9)
    fields = (2, 243, 1, BASE + HEADERS, 64, 0, 0, 64, 56, 1, 0, 0, 0)
    file_header = ident + struct.pack("<HHIQQQIHHHHHH", *fields)
    program_header = struct.pack("<IIQQQQQQ", 1, 5, 0, BASE, BASE, size, size, 4096)
    return file_header + program_header + code


def run_on_product(program, folder, elf, tree=START + "x 755 0 0 /loop\n", words=("/loop",), given=os.devnull, told=os.devnull, errors=None):
    """The seconds and the status of a run of the guest on a listing."""
    listing = folder / "tree"
    listing.write_text(tree)
    return timed([program, listing, elf, folder / "left", *words], given, told, errors)
