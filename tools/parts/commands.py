"""A look at the command before a run: whether the machine can run its file, told in a sentence that says what to do."""
import os
import stat
from dataclasses import dataclass

from parts.host import Lost, joined, parts_of, shown

HEAD = 256
MOST_SCRIPTS = 5
RISCV = 243
MACHINES = {3: "i386", 8: "MIPS", 20: "PowerPC", 21: "PowerPC", 22: "S/390", 40: "32-bit Arm", 62: "x86-64", 183: "AArch64", 258: "LoongArch"}
COMPRESSED, FLOATS = 1, 6
INTERPRETER_HEADER = 3
BUILD = "-march=rv64ima -mabi=lp64 -static"
BUILD_SO = f"build it for the machine ({BUILD}), and with a library that was built so"


@dataclass
class Finding:
    """What is wrong with a file, and whether it won't start at all, or may come to grief later."""

    text: str
    stops_start: bool


def number(head, at, size):
    return int.from_bytes(head[at:at + size], "little")


def program_headers(read, head):
    """The kinds of the file's program headers with the place and size of each one's bytes."""
    start, size, count = number(head, 32, 8), number(head, 54, 2), number(head, 56, 2)
    if size < 40:
        return []
    table = read(start + size * count)[start:]
    rows = [table[at:at + size] for at in range(0, len(table), size)]
    return [(number(row, 0, 4), number(row, 8, 8), number(row, 32, 8)) for row in rows if len(row) == size]


def elf_finding(read):
    """What is wrong with an ELF file for the machine; read(n) gives its first n bytes. None where nothing is."""
    head = read(64)
    if len(head) < 64:
        return Finding("is cut off within its ELF header; build or copy it anew", True)
    if head[4] != 2 or head[5] != 1:
        return Finding(f"is an ELF file of another class (32 bits, or high bytes first); {BUILD_SO}", True)
    machine = number(head, 18, 2)
    if machine != RISCV:
        return Finding(f"is for another machine ({MACHINES.get(machine, f'number {machine}')}), not for riscv64; {BUILD_SO}", True)
    if number(head, 16, 2) not in (2, 3):
        return Finding("is no program but an object or core file; link it", True)
    for kind, place, size in program_headers(read, head):
        if kind == INTERPRETER_HEADER:
            loader = shown(read(place + size)[place:].rstrip(b"\0"))
            return Finding(f"is dynamic: it needs the loader {loader}, and none runs here; link it with -static ({BUILD})", True)
    return flags_finding(number(head, 48, 4))


def flags_finding(flags):
    """What the header's flags tell of the code."""
    kinds = (["compressed"] if flags & COMPRESSED else []) + (["floating-point"] if flags & FLOATS else [])
    if not kinds:
        return None
    return Finding(f"has {' and '.join(kinds)} code by its header, which the machine doesn't run: it may end by signal 4 or 7 (status 132 "
                   f"or 135); {BUILD_SO}", False)


def script_words(head):
    """The interpreter on a script's first line and its argument; None where the line is refused."""
    line, newline, _ = head[2:HEAD].partition(b"\n")
    if (not newline and len(head) >= HEAD) or b"\0" in line or not line.strip(b" \t"):
        return None
    interpreter, _, argument = line.strip(b" \t").partition(b" ")
    return interpreter.split(b"\t")[0], argument.strip(b" \t")


class Search:
    """Finds the command as the program does, and judges its file and those of its interpreters."""

    def __init__(self, guest):
        self.guest, self.view = guest, guest.view
        self.base, self.lost_directory = guest.directory()

    def candidates(self, command):
        """The paths at which the command may stand."""
        if b"/" in command:
            return [command]
        path = self.guest.words.variables.get("PATH")
        directories = [b"/bin", b"/usr/bin"] if path is None else os.fsencode(path).split(b":")
        return [directory + b"/" + command if directory else command for directory in directories]

    def is_program(self, status):
        return stat.S_ISREG(status.st_mode) and self.guest.host.may(status, 1)

    def find(self, command):
        """The path and status of the command's file; else Lost, by the reason that is told."""
        if b"/" in command:
            text, status = self.view.walk(command, self.base)
            if not self.is_program(status):
                raise Lost(13, self.no_right(text, status), text)
            return text, status
        candidates, near = self.candidates(command), []
        for path in candidates:
            try:
                text, status = self.view.walk(path, self.base)
            except Lost:
                continue
            if self.is_program(status):
                return text, status
            near.append(self.no_right(text, status))
        places = " or ".join(shown(path) for path in candidates)
        raise Lost(2, "; ".join([f"there is no {places} to execute", *near]), command)

    def no_right(self, text, status):
        if not stat.S_ISREG(status.st_mode):
            return f"{shown(text)} is no file"
        return f"{shown(text)} may not be executed by {self.guest.host.who} ({self.guest.host.owned(status)})"

    def judge(self, text, depth=0):
        """A finding on a file and its interpreters, with the name of the file; None where nothing is wrong."""
        host_text = self.view.host_of(text)
        head = self.guest.host.head(host_text, HEAD)
        if head[:4] == b"\x7fELF":
            finding = elf_finding(lambda size: self.guest.host.head(host_text, size))
        elif head[:2] == b"#!":
            return self.judge_script(text, head, depth)
        else:
            finding = Finding(self.no_program(head), True)
        return finding and (text, finding)

    @staticmethod
    def no_program(head):
        if not head:
            return "is empty, or can't be read, so it is no program"
        return "is neither an ELF file nor a script: let it begin with a line as #!/bin/sh where it is a script"

    def judge_script(self, text, head, depth):
        words = script_words(head)
        if words is None:
            return text, Finding("is a script whose first line names no interpreter, or doesn't end in its first 255 bytes", True)
        if depth == MOST_SCRIPTS:
            return text, Finding(f"is the last of more than {MOST_SCRIPTS} scripts that name one another; name a program", True)
        try:
            found, status = self.view.walk(words[0], self.base)
        except Lost as lost:
            return text, Finding(f"is a script for {shown(words[0])}, and {lost.why} under the root; put a program there, or write "
                                 "another in its first line", True)
        if not self.is_program(status):
            return text, Finding(f"is a script for {shown(words[0])}, which is no file that {self.guest.host.who} may execute "
                                 f"({self.guest.host.owned(status)})", True)
        return self.judge(found, depth + 1)


def in_folder(view, text):
    """A path under the root, with the folder's name for it where that is another."""
    host_text = view.host_of(text)
    return shown(text) if host_text == joined(parts_of(text)) else f"{shown(text)} ({shown(host_text)} of the folder)"


def hints(guest):
    """Lines on what a run of these words is likely to come to, and whether the command's file can't start at all."""
    if guest.lost:
        # The bindings are refused, so there is no run.
        return [], False
    search = Search(guest)
    lines = []
    if guest.words.has_directory and search.lost_directory is not None:
        lines.append(f"-w {shown(os.fsencode(guest.words.directory))} is no directory to begin in, since {search.lost_directory.why} under the "
                     "root; the program begins in /")
    command = os.fsencode(guest.words.command[0]) if guest.words.command else b"/bin/sh"
    try:
        judged = search.judge(search.find(command)[0])
    except Lost:
        # The program's own refusal is told where it comes.
        judged = None
    if judged is None:
        return lines, False
    text, finding = judged
    return lines + [f"{in_folder(guest.view, text)} {finding.text}"], finding.stops_start
