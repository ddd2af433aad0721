"""What several tests stand on: what there is to be tested, programs whose output is kept, and a directory for each test."""
import contextlib
import os
import shutil
import stat
import subprocess
import sys
import tempfile
import time
import unittest
from pathlib import Path

from parts import Refused, program

TOOLS = Path(__file__).resolve().parent.parent
EXAMPLES = TOOLS.parent / "examples"
DATA = TOOLS.parent / "crates" / "proot" / "data"
try:
    # The programs that are tested find it by the variable, too.
    PROOT = os.environ["PROOT"] = program.find()
except Refused:
    PROOT = None
COMPILER = shutil.which("riscv64-linux-gnu-gcc")
SYSTEM_PYTHON = "/usr/bin/python3"
IS_ROOT = os.getuid() == 0
USER = ["--user", "1000:1000"]
START = "user 1000 1000\nd 755 0 0 /\n"

needs_proot = unittest.skipUnless(PROOT, "needs PROOT")
needs_compiler = unittest.skipUnless(PROOT and COMPILER, "needs PROOT and riscv64-linux-gnu-gcc")


def kept(*command, **options):
    """Runs a program with its output and errors kept as text."""
    return subprocess.run(command, capture_output=True, text=True, **options)


def run(tool, *words, **options):
    """Runs a program of the tools so, whose output may have bytes that are no text."""
    return kept(TOOLS / tool, *words, errors="surrogateescape", **options)


def limited(blocks, *command, **options):
    """Runs a program whose files may have so many blocks: this stands for a disk without room."""
    return kept("sh", "-c", f'trap "" XFSZ; ulimit -f {blocks}; exec "$@"', "sh", *command, **options)


def outcome(done):
    return done.returncode, done.stdout, done.stderr


def wait_until(process, comes):
    """Waits for something that a process does; where it ended without that, what follows will tell."""
    while process.poll() is None and not comes():
        time.sleep(0.01)


@contextlib.contextmanager
def timed(what):
    """Tells how long something took: a number to look at, by which no test fails."""
    began = time.monotonic()
    try:
        yield
    finally:
        print(f"\n{what}: {time.monotonic() - began:.1f} s", file=sys.stderr)


def mode_of(path):
    return stat.S_IMODE(path.stat().st_mode)


class InDirectory(unittest.TestCase):
    """Each test has an empty directory of its own."""

    def setUp(self):
        self.here = Path(tempfile.mkdtemp(prefix="tools-test-"))
        self.addCleanup(self.remove)
        os.umask(0o022)

    def remove(self):
        # By a program, since a folder may be deeper than this interpreter removes one.
        subprocess.run(["rm", "-rf", self.here], check=True)

    def names(self):
        return sorted(os.listdir(self.here))

    def listing(self, *words, folder="folder"):
        return run("listing-of-folder", *USER, *words, self.here / folder, "-")

    def differences(self, new):
        """What diff finds between the folder and a new one, or why it can't."""
        done = kept("diff", "-r", "folder", new, cwd=self.here)
        return done.stdout + done.stderr

    @contextlib.contextmanager
    def new_folder(self):
        """A place for the new folder of a run. It has to be there in the end, and goes, so that the next one has the place."""
        new = self.here / "new"
        yield new
        shutil.rmtree(new)

    def has_parts(self, text, parts):
        for part in parts:
            self.assertIn(part, text)

    def as_nobody(self, tool, *words):
        """Runs a program of the tools here as a user without any right."""
        if not IS_ROOT or not os.path.exists(SYSTEM_PYTHON):
            self.skipTest("needs root, to become another user")
        # The script through the input, since the user may not be let to where it stands.
        script = (TOOLS / tool).read_text()
        return kept(SYSTEM_PYTHON, "-", *words, input=script, user=65534, group=65534, extra_groups=[], cwd=self.here)
