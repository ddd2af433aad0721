"""find-proot, and what the tools do where it finds nothing."""
import os
import shutil

from tests import EXAMPLES, TOOLS, InDirectory, kept
from tests.programs import put_script


class FindProot(InDirectory):
    """The tools stand in a repository of their own, in which no program was built yet."""

    def setUp(self):
        super().setUp()
        self.tools = self.here / "tools"
        shutil.copytree(TOOLS, self.tools)
        shutil.copytree(EXAMPLES / "case", self.here / "examples" / "case")
        self.env = {name: value for name, value in os.environ.items() if name != "PROOT"}

    def called(self, *words, **variables):
        return kept(*words, env={**self.env, **variables})

    def put(self, place):
        place.parent.mkdir(parents=True, exist_ok=True)
        put_script(place, "echo stand-in")

    def test_how_to_get_it_where_there_is_none(self):
        (self.here / "folder").mkdir()
        self.put(self.here / "path" / "proot")
        path = f"{self.here}/path:{self.env['PATH']}"
        for words, status in [
            ([self.tools / "find-proot"], 1), ([self.here / "examples" / "case" / "run"], 1),
            ([self.tools / "proot-folder", "--user", "1:1", self.here / "folder", "x"], 120),
            ([self.tools / "proot-agree", "--user", "1:1", self.here / "folder", "x"], 120),
        ]:
            done = self.called(*words, PATH=path)
            self.assertEqual((done.returncode, done.stdout), (status, ""))
            self.has_parts(done.stderr, ["there is no program proot", f"{self.here}/crates/proot/out/proot", "`rt run` proves the program", "PROOT="])
        self.assertFalse((self.here / "folder.left").exists())

    def test_places(self):
        """PROOT comes first, then what was built, then what stands beside the tools."""
        beside, built, named = self.tools / "proot", self.here / "crates" / "proot" / "out" / "proot", self.here / "named"
        for place, variables in [(beside, {}), (built, {}), (named, {"PROOT": str(named)})]:
            self.put(place)
            done = self.called(self.tools / "find-proot", **variables)
            self.assertEqual((done.stdout, done.stderr), (f"{place}\n", ""))

    def test_a_name_that_leads_nowhere(self):
        done = self.called(self.tools / "find-proot", PROOT="/none")
        self.assertEqual((done.returncode, done.stderr), (1, "find-proot: /none: no such program; --proot or PROOT has to name one\n"))
