"""What proot-folder tells of a command before the run."""
from tests.programs import elf
from tests.stand_in import StandIn

# What stands in /bin/it, and a part of the line on it; none where nothing is to be said.
LOOKS = [
    (elf(), None), (elf(kind=3), None), (elf(flags=8), None), (elf(headers=[(1, b"code")]), None),
    (elf(flags=1), "has compressed code"), (elf(flags=4), "has floating-point code"), (elf(flags=2), "has floating-point code"),
    (elf(flags=5), "has compressed and floating-point code"), (elf(flags=5), "(-march=rv64ima -mabi=lp64 -static)"),
    (elf(machine=62), "is for another machine (x86-64)"), (elf(machine=9999), "is for another machine (number 9999)"),
    (elf(size_class=1), "is an ELF file of another class"), (elf(kind=1), "is no program but an object or core file"),
    (elf(flags=5, headers=[(1, b"code"), (3, b"/lib/ld.so.1\0")]), "is dynamic: it needs the loader /lib/ld.so.1,"), (elf()[:63], "is cut off"),
    (b"", "is empty"), (b"echo hi\n", "is neither an ELF file nor a script"), (b"#!/bin/sh\n", None), (b"#! /bin/sh -e x\n", None), (b"#!sh", None),
    (b"#!/bin/none -e\n", "is a script for /bin/none, and there is no /bin/none"),
    (b"#!/file\n", "is a script for /file, which is no file that user 1000"),
    (b"#!\n", "whose first line names no interpreter"), (b"#!/bin/sh\0\n", "whose first line"), (b"#!/bin/sh " + b"x" * 300, "whose first line"),
    (b"#!/bin/it\n", "is the last of more than 5 scripts"),
]


class Looks(StandIn):
    """What is told of a command before the run."""

    def test_files(self):
        for data, told in LOOKS:
            with self.subTest(data=data[:80], told=told), self.new_folder() as new:
                self.program("bin/it", data)
                done = self.carried("--to", new, self.top, "-w", "/bin", "it")
                self.assertEqual((done.returncode, done.stderr.count("\n")), (0, 1 if told else 0), done.stderr)
                self.assertTrue(told is None or done.stderr.startswith("proot-folder: /bin/it ") and told in done.stderr, done.stderr)

    def told(self, *words, extra=()):
        with self.new_folder() as new:
            return self.carried("--to", new, *extra, self.top, *words).stderr

    def test_commands_are_found_as_they_are_seen(self):
        self.program("bin/it", elf(flags=1))
        self.program("bin/plain", elf())
        (self.top / "g" / "d").mkdir(parents=True)
        (self.top / "l").symlink_to("bin/it")
        (self.top / "g" / "l").symlink_to("/m/it")
        for words in [["it"], ["/l"], ["-w", "/bin", "./it"], ["--env=PATH=/none:/bin", "it"], ["--env=PATH=", "-w", "bin", "it"]]:
            self.assertIn(": /bin/it has compressed code", self.told(*words), words)
        for words in [["plain"], ["--env=PATH=/none", "it"], ["-r", "/g", "it"], ["none"], ["-r", "/none", "it"],
                      ["-b", "/file:/bin/it", "it"]]:
            self.assertEqual(self.told(*words), "", words)
        for words in [["-r", "/g", "-b", "/bin:/m", "/l"], ["-r", "/g", "-b", "/bin:/m", "-w", "/m", "../m/it"], ["-r", "/g", "-b/x", "/l"],
                      ["-r", "/g", "-b", "/bin:/d", "-b", "/bin:/m", "--native", "/m/it"]]:
            told = "" if "-b/x" in words else ": /m/it (/bin/it of the folder) has compressed code"
            self.assertIn(told, self.told(*words), words)
        self.assertIn("(/bin/it of the folder) has", self.told("-r", "/g", "-b", "/bin:/usr/bin", "it"))
        self.assertNotIn("compressed", self.told("it", extra=["-x", "it"]))

    def test_first_directory(self):
        (self.top / "closed").mkdir(mode=0o700)
        self.assertEqual(self.told("-w", "/bin", "sh"), "")
        for place, why in [("/none", "there is no /none"), ("/file", "/file is no directory"),
                           ("/closed", "user 1000 may not search /closed (mode 700")]:
            told = self.told("-w", place, "sh")
            self.assertIn(f"-w {place} is no directory to begin in, since {why}", told)
            self.assertIn("the program begins in /", told)
