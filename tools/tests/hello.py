"""Runs of the program itself, without a tool around it."""
import shutil
import subprocess

from tests import DATA, PROOT, START, InDirectory


class OfHello(InDirectory):
    """Runs of the program, with the hello file as its ELF file."""

    OLD = "# a file of the user's, longer than the listing that is left, which it must not lose before that comes\n"
    TREE = START + "x 755 0 0 /hello\n"
    # What comes of a run that is whole, and of those that can't write their output or the listing that is left.
    SAID = (0, "hello\n", "")
    NO_OUTPUT = (122, "", "proot: write fault: Out\n")
    NO_LISTING = (122, "hello\n", "proot: write fault: Left\n")

    def setUp(self):
        super().setUp()
        (self.here / "tree").write_text(self.TREE)
        shutil.copy(DATA / "hello.elf", self.here / "elf")
        self.put_old()
        self.tree_left = START + "f 755 0 0 /hello " + (self.here / "elf").read_bytes().hex() + "\n"

    def proot(self, *words, **options):
        options = {"stdin": subprocess.DEVNULL, "stdout": subprocess.PIPE, "stderr": subprocess.PIPE, **options}
        done = subprocess.run([PROOT, *words], cwd=self.here, **options)
        return done.returncode, (done.stdout or b"").decode(), done.stderr.decode()

    def held(self, name):
        return (self.here / name).read_text()

    def put_old(self):
        (self.here / "old").write_text(self.OLD * 1000)

    def old_stays(self):
        self.assertEqual(self.held("old"), self.OLD * 1000)

    def leaves_the_tree(self, *words):
        """A run says hello, and the listing stands where the third word has it."""
        self.assertEqual(self.proot(*words), self.SAID)
        self.assertEqual(self.held(words[2]), self.tree_left)

    def fails_over_a_full_output(self):
        with open("/dev/full", "wb") as full:
            self.assertEqual(self.proot("tree", "elf", "old", "/hello", stdout=full), self.NO_OUTPUT)
        self.old_stays()

    def fails_at_left(self, left):
        self.assertEqual(self.proot("tree", "elf", left, "/hello"), self.NO_LISTING)
