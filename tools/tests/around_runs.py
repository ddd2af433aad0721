"""proot-folder around a run: how a signal ends it, and where the new folder comes to stand."""
import contextlib
import os
import signal
import subprocess

from tests import wait_until
from tests.stand_in import StandIn


class Ends(StandIn):
    """A run that is ended by a signal."""

    @contextlib.contextmanager
    def going_on(self, *words, writes=":", tool="proot-folder", **options):
        """A run that wrote what it has to write, which a file tells, and goes on for ever."""
        runs = self.here / "runs"
        environment = self.environment(f"{writes}; : > {runs}; exec sleep 1000")
        with subprocess.Popen(self.command(*words, tool=tool), text=True, env=environment, **options) as working:
            wait_until(working, runs.exists)
            yield working
        runs.unlink()

    def ended(self, number, *words):
        """A run that writes and goes on for ever, ended; its output, errors and status."""
        with self.going_on(*words, writes="echo so far; echo errors so far >&2", stdout=subprocess.PIPE, stderr=subprocess.PIPE) as working:
            working.send_signal(number)
            output, errors = working.communicate()
        return output, errors, working.returncode

    def test_output_is_shown_and_the_end_is_told(self):
        for number, name, status in [(signal.SIGINT, "Ctrl-C (SIGINT)", 130), (signal.SIGTERM, "SIGTERM", 143)]:
            output, errors, ended = self.ended(number, self.top)
            self.assertEqual((output, ended, self.names()), ("so far\n", status, self.there))
            self.assertEqual(errors, f"errors so far\nproot-folder: {name} came and ended the run; what the program wrote until then was "
                                     "shown. Nothing was left: no folder was made\n")

    def test_what_an_earlier_run_left_stays(self):
        self.assertEqual(self.carried(self.top).returncode, 0)
        for option in ["--replace", "--again"]:
            _, errors, status = self.ended(signal.SIGINT, option, self.top)
            self.assertEqual((status, self.names()), (130, ["folder", "folder.left", "program"]))
            self.assertIn("Nothing was left: " + str(self.here / "folder.left") + " is as it was\n", errors)

    def test_a_terminal_ends_all_of_the_group(self):
        self.there.append("out")
        with open(self.here / "out", "w") as out, self.going_on(self.top, writes="echo one; echo two >&2; echo three", stdout=out, stderr=out,
                                                                start_new_session=True) as working:
            os.killpg(working.pid, signal.SIGINT)
            self.assertEqual(working.wait(), 130)
        self.assertEqual(self.names(), sorted(self.there))
        # What goes to one place keeps its order.
        self.assertTrue((self.here / "out").read_text().startswith("one\ntwo\nthree\nproot-folder: Ctrl-C"))

    def test_agree_is_ended_as_well(self):
        with self.going_on(self.top, tool="proot-agree", stdin=subprocess.DEVNULL, stderr=subprocess.PIPE) as working:
            working.send_signal(signal.SIGTERM)
            self.assertIn("Nothing was compared", working.communicate()[1])
            self.assertEqual(working.returncode, 143)


class Places(StandIn):
    """Where the new folder comes to stand."""

    def test_replace_and_again(self):
        left, add = self.here / "folder.left", 'cp $1 $3; echo "f 644 0 0 /{} -" >> $3; exit 3'
        self.assertEqual(self.carried(self.top, does=add.format("one")).returncode, 3)
        (left / "one").chmod(0)
        left.chmod(0o500)
        done = self.carried(self.top, does=add.format("two"))
        self.assertEqual((done.returncode, sorted(os.listdir(left))), (120, ["bin", "file", "one"]))
        self.has_parts(done.stderr, ["it isn't touched", "--replace", "--again"])
        done = self.carried("--again", self.top, does=add.format("two"))
        self.assertEqual((done.returncode, done.stderr, sorted(os.listdir(left))), (3, "", ["bin", "file", "one", "two"]))
        done = self.carried("--replace", self.top, does=add.format("three"))
        self.assertEqual((done.returncode, sorted(os.listdir(left))), (3, ["bin", "file", "three"]))
        self.assertEqual((sorted(os.listdir(self.top)), self.names()), (["bin", "file"], ["folder", "folder.left", "program"]))

    def test_without_a_listing_all_stays(self):
        self.assertEqual(self.carried(self.top).returncode, 0)
        before = os.lstat(self.here / "folder.left").st_ino
        for option in ["--replace", "--again"]:
            for does, status in [("exit 125", 125), (": > $3; exit 5", 5), ("echo 'user 1 1' > $3; exit 122", 122), ("echo bad > $3", 120)]:
                with self.subTest(option=option, does=does):
                    done = self.carried(option, self.top, does=does)
                    self.assertEqual((done.returncode, os.lstat(self.here / "folder.left").st_ino), (status, before), done.stderr)
                    self.assertEqual(self.differences("folder.left"), "")
        self.assertEqual([name for name in self.names() if name.startswith(".")], [])

    def test_places_that_are_refused(self):
        (self.here / "real").mkdir()
        (self.here / "link").symlink_to("real")
        for option in ["--replace", "--again"]:
            for place, why in [(self.top, "this is the old folder"), (self.here, "this is the old folder or has it within"),
                               (self.top / "bin", "this stands in the old folder"), (self.here / "link", "this is no folder"),
                               (self.program_stands_in, "this is no folder"),
                               (self.here / "link" / ".." / "folder", "this is the old folder")]:
                done = self.carried(option, "--to", place, self.top)
                self.assertEqual(done.returncode, 120)
                self.assertIn(why, done.stderr)
        self.assertIn("--again goes on from what a run left", self.carried("--again", self.top).stderr)
        self.assertEqual(self.names(), ["folder", "link", "program", "real"])

    def test_names_that_are_left_out_are_missing(self):
        os.mkfifo(self.top / "fifo")
        done = self.carried(self.top)
        self.assertEqual(done.returncode, 120)
        self.assertIn("/fifo: a FIFO; a listing has directories, files and links; -x /fifo leaves it out", done.stderr)
        done = self.carried("-x", "f*", self.top)
        self.assertEqual((done.returncode, os.listdir(self.here / "folder.left")), (0, ["bin"]))
        self.assertEqual(done.stderr, "proot-folder: left out by -x: /fifo and 1 more, with all below; all this is missing in folder.left, too\n")
