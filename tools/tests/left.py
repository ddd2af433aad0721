"""What becomes of the file LEFT."""
import os
import subprocess

from tests import PROOT, START, limited, mode_of, needs_proot, outcome
from tests.hello import OfHello


@needs_proot
class Left(OfHello):
    """What becomes of LEFT: the listing takes the place of what stands there, and nothing else changes it."""

    def test_an_ending_without_a_listing_loses_nothing(self):
        (self.here / "bad").write_text(START + "c 644 0 0 /null 1 3\n")
        (self.here / "old").chmod(0o755)
        for words, status, line in [
            (["-r", ".", "./old"], 122, "proot: read fault: Tree"),
            (["none", "elf", "old", "/hello"], 122, "proot: read fault: Tree"),
            (["tree", "none", "old", "/hello"], 122, "proot: read fault: Elf"),
            (["tree", "elf", "old", "--wrong"], 125, "proot: word 1: Unknown"),
            (["bad", "elf", "old", "/hello"], 125, "proot: tree line 3: Form"),
            (["tree", "elf", "old", "-b", "/none:/m", "/hello"], 125, "proot: bind 1: NoSource"),
            (["tree", "elf", "old", "--native", "/none"], 125, "proot: start: errno 2"),
            (["tree", "elf"], 125, "proot: usage: proot TREE ELF LEFT [option] ... [command]"),
        ]:
            with self.subTest(words=words):
                self.assertEqual(self.proot(*words), (status, "", line + "\n"))
                self.old_stays()
                self.assertEqual(mode_of(self.here / "old"), 0o755)

    def test_an_output_that_fails_leaves_what_was_there(self):
        self.fails_over_a_full_output()

    def test_refusals_with_an_input_for_left(self):
        """LEFT is TREE or ELF, and no run comes about."""
        for left in ["tree", "elf"]:
            before = (self.here / left).read_bytes()
            self.assertEqual(self.proot("tree", "elf", left, "/none"), (125, "", "proot: start: errno 2\n"))
            self.assertEqual((self.here / left).read_bytes(), before)

    def test_a_missing_one_is_made(self):
        self.assertEqual(self.proot("tree", "elf", "new", "/none")[0], 125)
        self.assertIn(self.names(), [["elf", "old", "tree"], ["elf", "new", "old", "tree"]])
        self.assertTrue("new" not in self.names() or self.held("new") == "")
        self.leaves_the_tree("tree", "elf", "new", "/hello")

    def test_the_listing_takes_the_place_of_what_was_there(self):
        (self.here / "link").symlink_to("tree")
        (self.here / "name").hardlink_to(self.here / "elf")
        for left in ["old", "link", "name"]:
            with self.subTest(left=left):
                self.leaves_the_tree("tree", "elf", left, "/hello")
                (self.here / "tree").write_text(self.TREE)
        self.assertTrue((self.here / "name").samefile(self.here / "elf"))

    def test_tree_is_left(self):
        self.leaves_the_tree("tree", "elf", "tree", "/hello")
        self.leaves_the_tree("tree", "/dev/null", "tree", "--native", "/hello")

    def test_turns_that_are_spent_leave_a_listing(self):
        self.assertEqual(self.proot("tree", "elf", "old", "--turns=1", "--schedule=0*1", "/hello"), (124, "", "proot: turns spent\n"))
        self.assertEqual(self.held("old"), self.tree_left)

    def test_a_pipe_and_a_device_are_written(self):
        os.mkfifo(self.here / "pipe")
        with subprocess.Popen(["cat", "pipe"], cwd=self.here, stdout=subprocess.PIPE, text=True) as reading:
            self.assertEqual(self.proot("tree", "elf", "pipe", "/hello"), self.SAID)
            self.assertEqual(reading.stdout.read(), self.tree_left)
        self.assertEqual(self.proot("tree", "elf", "/dev/null", "/hello"), self.SAID)
        self.assertEqual(self.proot("tree", "elf", "/dev/stdout", "/hello"), (0, "hello\n" + self.tree_left, ""))

    def test_a_full_device_is_a_write_fault(self):
        self.fails_at_left("/dev/full")

    def test_a_part_of_a_listing_is_a_write_fault(self):
        # What was there is gone, and a part of the listing stands there.
        long = "f 644 0 0 /long " + "00" * 1000 + "\n"
        (self.here / "tree").write_text(self.TREE + long)
        done = limited(1, PROOT, "tree", "elf", "old", "/hello", cwd=self.here, stdin=subprocess.DEVNULL)
        self.assertEqual(outcome(done), self.NO_LISTING)
        self.assertTrue((self.tree_left + long).startswith(self.held("old")))
        self.assertLess(len(self.held("old")), len(self.tree_left + long))

    def test_one_that_cannot_be_opened_is_a_fault_at_its_put(self):
        for left in [".", "none/left"]:
            self.fails_at_left(left)
