"""The program over files that give little, change while they are read, or take no more."""
import os
import shutil
import signal
import subprocess
import threading
import time
from pathlib import Path

from tests import DATA, PROOT, needs_proot
from tests.hello import OfHello


@needs_proot
class Files(OfHello):
    """Files that give little, change while they are read, or take no more: the program goes by the bytes that it was given."""

    LONG = "f 644 0 0 /long " + "00" * 6_000_000 + "\n"

    def written(self, name, parts):
        """Writes the parts to a named pipe, one after the other, as they are read, and ends it."""
        os.mkfifo(self.here / name)

        def write():
            with open(self.here / name, "wb", buffering=0) as pipe:
                for part in parts:
                    pipe.write(part)

        threading.Thread(target=write, daemon=True).start()

    def put_cat(self):
        """Puts a program that hands its input on in place of the one that says hello."""
        shutil.copy(DATA / "cat.elf", self.here / "elf")

    def test_a_listing_comes_through_a_pipe_in_single_bytes(self):
        self.written("slow", [bytes([byte]) for byte in self.TREE.encode()])
        self.leaves_the_tree("slow", "elf", "new", "/hello")

    def test_a_pipe_that_ends_within_a_line_is_a_listing_that_is_cut(self):
        self.written("cut", [self.TREE[:-1].encode()])
        self.assertEqual(self.proot("cut", "elf", "old", "/hello"), (125, "", "proot: tree line 3: Form\n"))
        self.old_stays()

    def test_an_input_comes_in_single_bytes(self):
        self.put_cat()
        self.written("typed", [b"a", b"b", b"\n"])
        with open(self.here / "typed", "rb") as typed:
            self.assertEqual(self.proot("tree", "elf", "new", "/hello", "-", stdin=typed), (0, "ab\n", ""))

    def place(self, process):
        """How far a process has read the listing: 0 where it hasn't begun, or has closed it."""
        try:
            for fd in os.listdir(f"/proc/{process.pid}/fd"):
                if os.path.realpath(f"/proc/{process.pid}/fd/{fd}") == str(self.here.resolve() / "tree"):
                    return int(Path(f"/proc/{process.pid}/fdinfo/{fd}").read_text().split()[1])
        except OSError:
            # It has ended.
            pass
        return 0

    def stopped_within(self, process, size):
        """Stops a process within the listing, and tells how far it has read. 0 where it was too fast."""
        while process.poll() is None:
            if self.place(process) > 0:
                process.send_signal(signal.SIGSTOP)
                while Path(f"/proc/{process.pid}/stat").read_text().rpartition(")")[2].split()[0] not in "TZ":
                    time.sleep(0.001)
                at = self.place(process)
                return at if at < size else 0
        return 0

    def changed_while_read(self, change):
        """What comes of a run whose listing is changed while it is read."""
        text = self.TREE + self.LONG
        for _ in range(20):
            (self.here / "tree").write_text(text)
            with subprocess.Popen([PROOT, "tree", "elf", "old", "/hello"], cwd=self.here, stdin=subprocess.DEVNULL,
                                  stdout=subprocess.PIPE, stderr=subprocess.PIPE, text=True) as process:
                try:
                    at = self.stopped_within(process, len(text))
                    if at > 0:
                        change(at)
                finally:
                    process.send_signal(signal.SIGCONT)
                out, err = process.communicate()
            if at > 0:
                return process.returncode, out, err
            self.put_old()
        self.skipTest("the program reads too fast to be stopped within the listing")

    def test_a_listing_that_is_cut_while_it_is_read(self):
        for behind in [1000, -1000]:
            with self.subTest(behind=behind):
                told = self.changed_while_read(lambda at: os.truncate(self.here / "tree", at + behind))
                self.assertEqual(told, (125, "", "proot: tree line 4: Form\n"))
                self.old_stays()

    def test_a_listing_that_grows_while_it_is_read(self):
        def grow(_at):
            with open(self.here / "tree", "a") as tree:
                tree.write("d 755 0 0 /more\n")

        self.assertEqual(self.changed_while_read(grow), self.SAID)
        self.assertEqual(self.held("old"), self.tree_left + self.LONG + "d 755 0 0 /more\n")

    def test_full_devices_are_write_faults(self):
        self.fails_over_a_full_output()
        self.fails_at_left("/dev/full")

    def test_an_output_that_is_closed_got_a_prefix(self):
        self.put_cat()
        typed = bytes(k % 251 for k in range(200_000))
        (self.here / "typed").write_bytes(typed)
        for count in [0, 1, 1000, 70_000]:
            with self.subTest(count=count), open(self.here / "typed", "rb") as source:
                ours, theirs = os.pipe()
                # The signal of a closed pipe stays ignored, as a shell may have it.
                with subprocess.Popen([PROOT, "tree", "elf", "old", "/hello", "-"], cwd=self.here, stdin=source, stdout=theirs,
                                      stderr=subprocess.PIPE, restore_signals=False) as process:
                    os.close(theirs)
                    got = b""
                    while len(got) < count:
                        got += os.read(ours, count - len(got))
                    os.close(ours)
                    told = process.stderr.read()
                self.assertEqual((process.returncode, told), (122, b"proot: write fault: Out\n"))
                self.assertEqual(got, typed[:count])
                self.old_stays()
