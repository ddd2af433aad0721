"""Runs in which a script stands in for the program, for what the tools do around one."""
import os

from tests import TOOLS, USER, InDirectory, kept
from tests.programs import elf, put_program, put_script


class StandIn(InDirectory):
    """What proot-folder does around a run. A script stands in for the program, which does what the variable DOES says."""

    def setUp(self):
        super().setUp()
        self.top = self.here / "folder"
        (self.top / "bin").mkdir(parents=True)
        (self.top / "file").write_text("file\n")
        self.program("bin/sh", elf())
        self.program_stands_in = self.here / "program"
        put_script(self.program_stands_in, 'eval "$DOES"')
        self.there = ["folder", "program"]

    def program(self, name, data):
        put_program(self.top / name, data)

    def command(self, *words, tool="proot-folder"):
        return [TOOLS / tool, "--proot", self.program_stands_in, *USER, *words]

    @staticmethod
    def environment(does):
        return {**os.environ, "DOES": does}

    def carried(self, *words, does="cp $1 $3", tool="proot-folder", **options):
        return kept(*self.command(*words, tool=tool), env=self.environment(does), **options)
