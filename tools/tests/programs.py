"""Programs of the tests: bytes that look like one, scripts, and what the cross compiler makes of a source."""
import struct
import subprocess

from tests import COMPILER, EXAMPLES

SOURCES = EXAMPLES / "programs"


def elf(flags=0, machine=243, kind=2, headers=(), size_class=2):
    """The bytes of an ELF file as far as a look at its header goes; a header is its kind and its bytes."""
    at = 64 + 56 * len(headers)
    table, rest = b"", b""
    for number, data in headers:
        table += struct.pack("<IIQQQQQQ", number, 4, at + len(rest), 0, 0, len(data), len(data), 1)
        rest += data
    head = struct.pack("<4sBBB9xHHIQQQIHHHHHH", b"\x7fELF", size_class, 1, 1, kind, machine, 1, 0x10000, 64, 0, flags, 64, 56, len(headers),
                       64, 0, 0)
    return head + table + rest


def put_program(place, data):
    """Writes a file that all may execute."""
    place.write_bytes(data)
    place.chmod(0o755)


def put_script(place, text):
    put_program(place, f"#!/bin/sh\n{text}\n".encode())


def build_examples(directory, *names):
    """Builds programs of the examples into a directory."""
    subprocess.run([SOURCES / "build", directory, *names], check=True)


def build(source, program, march="-march=rv64im"):
    """Builds a program of a test as those of the examples are built."""
    subprocess.run([COMPILER, march, "-mabi=lp64", "-static", "-nostdlib", "-ffreestanding", "-fno-builtin", "-Os", "-s", "-I", SOURCES,
                    SOURCES / "start.S", source, "-o", program], check=True)
