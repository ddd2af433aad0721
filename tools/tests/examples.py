"""The examples print what stands beside them, those of musl and BusyBox too, and their builds tell what they need."""
import os
import shutil
import subprocess
import tempfile
import unittest
from pathlib import Path

from tests import EXAMPLES, USER, InDirectory, kept, needs_compiler, outcome, run, timed
from tests.programs import SOURCES


class OfExamples(unittest.TestCase):
    """Scripts of the examples, with variables that they take."""

    def prints_what_stands_beside(self, script, **variables):
        done = kept(script, env={**os.environ, **variables})
        self.assertEqual(outcome(done), (0, (script.parent / "output").read_text(), ""))


@needs_compiler
class Examples(OfExamples):
    def test_each_prints_what_stands_beside_it(self):
        for script in sorted(EXAMPLES.glob("*/run")):
            for machine in ["", "--native"]:
                with self.subTest(example=script.parent.name, machine=machine):
                    self.prints_what_stands_beside(script, MACHINE=machine)


class WhatBuildsNeed(InDirectory):
    """The builds of musl and BusyBox tell in a sentence what is missing."""

    def told(self, script, *words, **options):
        done = kept(script, *words, **options)
        self.assertEqual((done.returncode, done.stdout), (2, ""))
        return done.stderr

    def test_programs(self):
        (self.here / "path").mkdir()
        for name, why in [
            ("dirname", "there is no make, which Debian's package make has"),
            ("make", "there is no riscv64-linux-gnu-gcc, which Debian's package gcc-riscv64-linux-gnu has"),
            ("riscv64-linux-gnu-gcc", "there is no riscv64-unknown-elf-gcc, which Debian's package gcc-riscv64-unknown-elf has"),
        ]:
            (self.here / "path" / name).symlink_to(shutil.which(name) or "/bin/true")
            self.assertIn(why, self.told(SOURCES / "musl" / "build", self.here / "to", env={"PATH": str(self.here / "path")}))
        self.assertEqual(self.names(), ["path"])

    def test_words(self):
        for script in ["programs/musl/build", "busybox/build"]:
            self.assertIn("usage", self.told(EXAMPLES / script))
        self.assertIn("programs/musl/build makes it", self.told(EXAMPLES / "busybox" / "build", self.here / "to", self.here))
        self.assertIn("no source archive /none", self.told(SOURCES / "musl" / "source", "musl", self.here, "/none"))
        self.assertEqual(self.names(), [])


@needs_compiler
class MuslAndBusyBox(InDirectory, OfExamples):
    @classmethod
    def setUpClass(cls):
        cls.built = Path(tempfile.mkdtemp(prefix="tools-test-"))
        cls.addClassCleanup(shutil.rmtree, cls.built)
        cls.musl = cls.folder_of("MUSL", SOURCES / "musl" / "build")
        cls.busybox = cls.folder_of("BUSYBOX", EXAMPLES / "busybox" / "build", cls.musl)

    @classmethod
    def folder_of(cls, name, build, *words):
        """The folder of this name in the environment, or one that is built."""
        if name in os.environ:
            return Path(os.environ[name]).resolve()
        archive = os.environ.get(f"{name}_ARCHIVE")
        done = kept(build, cls.built / name, *words, *([archive] if archive else []))
        if done.returncode == 2:
            raise unittest.SkipTest(done.stderr.strip())
        if done.returncode != 0:
            raise AssertionError(done.stderr)
        return cls.built / name

    def test_program_with_a_library(self):
        program = self.here / "folder" / "sizes"
        (self.here / "folder" / "data").mkdir(parents=True)
        for name, text in [("b", "12345"), ("c", "1"), ("a", "12")]:
            (self.here / "folder" / "data" / name).write_text(text)
        subprocess.run([self.musl / "bin" / "rv64ima-musl-gcc", "-Os", "-Wall", "-Wextra", "-Werror", SOURCES / "musl" / "sizes.c", "-o", program],
                       check=True)
        # The flags of the ELF header: neither compressed nor floating-point instructions.
        self.assertEqual(program.read_bytes()[48:52], bytes(4))
        sizes = "       2 a\n       5 b\n       1 c\n    2.67 in the mean\n"
        for machine, told in [([], ""), (["--native", "--calm"], "calm: yes\n")]:
            with self.new_folder() as new:
                done = run("proot-folder", *USER, "--to", new, self.here / "folder", *machine, "/sizes", "/data")
                self.assertEqual(outcome(done), (0, sizes, told))

    def test_each_run_prints_what_stands_beside_it(self):
        for script in sorted(EXAMPLES.glob("busybox/*/run")):
            name = script.parent.name
            with self.subTest(example=name), timed(f"busybox/{name}"):
                self.prints_what_stands_beside(script, BUSYBOX=str(self.busybox))
