"""proot-folder and proot-agree with the program itself, over programs of the examples and of the tests."""
import hashlib
import os
import random
import shutil
import signal
import subprocess
from pathlib import Path

from tests import TOOLS, USER, InDirectory, needs_compiler, outcome, run, timed, wait_until
from tests.programs import build, build_examples, elf, put_program, put_script

# Bindings with a path that is empty or too long, and the end of the program's line; then those with a path that just fits.
REFUSED_PATHS = [
    (["-r", "", "/bin/hello"], "bind 0: NoSource"),
    (["--rootfs=", "/bin/hello"], "bind 0: NoSource"),
    (["-r", "/g" + "/" * 4094, "/hello"], "bind 0: NoSource"),
    (["-r", "/g", "-b", "/bin" + "/" * 4092 + ":/m", "/hello"], "bind 1: NoSource"),
    (["-r", "/g", "-b", "/bin:/m" + "/" * 4094, "/hello"], "bind 1: NoPoint"),
    (["-r", "/g" + "/." * 2047, "/hello"], "bind 0: NoSource"),
]
LONGEST_PATHS = [
    ["-r", "/g" + "/" * 4093, "/hello"],
    ["-r", "/g", "-b", "/bin" + "/" * 4091 + ":/m", "/m/hello"],
    ["-r", "/g", "-b", "/bin:/m" + "/" * 4093, "/m/hello"],
]
# Words, the program's last line, and a part of what is told.
LINES = [
    (["-q"], "word 1: Unknown", "word 1, -q: PRoot has this option"), (["-r/g"], "word 1: Unknown", "write -r /g"),
    (["--rootfs", "/g"], "word 1: NoValue", "write --rootfs=VALUE"), (["-w", "/", "-w", "/"], "word 3: Twice", "before as word 1, -w"),
    (["-r", "/file"], "bind 0: RootNotDir", "it is no directory"), (["-r", "/none"], "bind 0: NoSource", "there is no /none in the folder"),
    (["-b", "/none:/g"], "bind 1: NoSource", "binding 1, /none:/g: there is no /none"), (["-b", "/g:/"], "bind 1: AtRoot", "-r /g makes it"),
    (["-r", "/g", "-b", "/bin:/n"], "bind 1: NoPoint", "user 1000 may not write in / (/g of the folder)"),
    (["-b", "/bin:/file"], "bind 1: Kind", "/bin is a directory and /file is none"),
    (["-r", "/g", "-b", "/g:/m", "-b", "/bin:/m/l"], "bind 2: LinkOnTheWay", "/m/l is a link to /m"),
    (["none"], "start: errno 2", "there is no /bin/none or /usr/bin/none"), (["/file"], "start: errno 13", "/file may not be executed"),
    (["/other"], "start: errno 8", "for the reason above"), (["-i", "x"], "word 1: BadId", "-i x: the value isn't UID:GID"),
    (["--schedule=0*1", "--turns=2", "hello", "world"], "turns spent", "give more by --turns"),
    ([b"--env=a=\xe9", "hello"], "usage: proot TREE ELF LEFT [option] ... [command]", "a word isn't UTF-8"),
]
# A guest that goes on for ever, and one that writes what a tracer puts below the stack pointer: the path in place of its own.
SPIN = 'int main(void) { say(1, "so far\\n"); for (;;) ; }\n'
BELOW = 'int main(void) { register char *sp asm("sp"); open("/f", READ_ONLY, 0); call(64, 1, (long)sp - 8, 4, 0, 0); return 0; }\n'


@needs_compiler
class ProotFolder(InDirectory):
    def setUp(self):
        super().setUp()
        self.top = self.here / "folder"
        (self.top / "bin").mkdir(parents=True)
        build_examples(self.top / "bin", "cat", "write", "hello")
        self.top.chmod(0o777)

    def carried(self, *words, **options):
        return run("proot-folder", *USER, *words, **options)

    def built(self, name, text, **options):
        """Builds a program of the folder from its source's text."""
        source = self.here / f"{name}.c"
        source.write_text(f'#include "calls.h"\n{text}')
        build(source, self.top / "bin" / name, **options)
        source.unlink()

    def test_three_of_ten_thousand_files(self):
        """10,000 files, links and hard links go through a run that changes three of them."""
        changed = ["d0/f1", "d40/f4001", "d79/f7999"]
        for k in range(8000):
            if k % 100 == 0:
                directory = self.top / f"d{k // 100}"
                directory.mkdir()
            (directory / f"f{k}").write_text(f"file {k}\n")
            (directory / f"f{k}").chmod(0o666)
            if k % 8 == 0:
                (directory / f"l{k}").symlink_to(f"f{k}")
                (directory / f"h{k}").hardlink_to(directory / f"f{k}")
        with timed("proot-folder over 10,000 files"):
            done = self.carried(self.top, "--native", "write", "changed", *(f"/{name}" for name in changed))
        self.assertEqual(outcome(done), (0, "", ""))
        told = [line for line in self.differences("folder.left").split("\n") if line.startswith(("diff", "Only"))]
        self.assertEqual(told, [f"diff -r folder/{name} folder.left/{name}" for name in changed])
        new = self.here / "folder.left"
        self.assertEqual(sum(path.stat().st_nlink == 2 for path in new.glob("d*/h*")), 1000)
        self.assertEqual(sum(path.is_symlink() for path in new.glob("d*/l*")), 1000)

    def test_refused_runs_make_no_folder(self):
        for words in [["--wrong"], ["-r", "/none", "--native", "cat"], ["none"]]:
            done = self.carried(self.top, *words)
            self.assertEqual((done.returncode, self.names()), (125, ["folder"]))
            self.assertIn("no folder was made", done.stderr)

    def test_empty_and_long_paths_of_bindings(self):
        """A root, a source and a location are of 1 to 4,095 bytes, as paths of calls are."""
        (self.top / "g" / "m").mkdir(parents=True)
        shutil.copy(self.top / "bin" / "hello", self.top / "g" / "hello")
        for machine in [[], ["--native"]]:
            for words, why in REFUSED_PATHS:
                with self.subTest(why=why, machine=machine):
                    done = self.carried(self.top, *machine, *words)
                    self.assertEqual((done.returncode, self.names()), (125, ["folder"]))
                    self.assertIn(why, done.stderr)
            for words in LONGEST_PATHS:
                with self.subTest(words=[len(word) for word in words], machine=machine), self.new_folder() as new:
                    done = self.carried("--to", new, self.top, *machine, *words)
                    self.assertEqual((done.returncode, done.stderr, self.names()), (1, "", ["folder", "new"]))

    def test_status_and_output_are_those_of_the_command(self):
        done = self.carried("--to", self.here / "new", self.top, "hello")
        self.assertEqual((done.returncode, done.stderr, self.names()), (1, "", ["folder", "new"]))
        self.assertEqual(self.carried(self.top, "cat", input="typed\n").stdout, "typed\n")

    def test_digests_and_sorted_lines(self):
        """The C programs that bench/run times, on inputs about as long as their blocks and buffers."""
        build_examples(self.top / "bin", "sha256", "sort")
        draw = random.Random(1)
        for size in [0, 55, 56, 64, 4095, 4097, 10_000]:
            given = "".join(draw.choices("abc \t\n", k=size))
            lines = sorted(given.removesuffix("\n").split("\n")) if given else []
            for name, wanted in [("sha256", hashlib.sha256(given.encode()).hexdigest() + "\n"), ("sort", "".join(f"{line}\n" for line in lines))]:
                with self.subTest(program=name, size=size), self.new_folder() as new:
                    self.assertEqual(outcome(self.carried("--to", new, self.top, name, input=given)), (0, wanted, ""))

    def test_refusals_of_its_own(self):
        (self.here / "there").touch()
        os.mkfifo(self.top / "fifo")
        for words, why in [
            (["--to", self.here / "there", self.top, "hello"], "it isn't touched"),
            (["--to", self.top / "new", self.top, "hello"], "this stands in the old folder"),
            (["--to", self.top, self.top, "hello"], "that one isn't touched"),
            (["--to", self.here / "no" / "new", self.top, "hello"], "there is no directory for it"),
            (["--proot", "/none", self.top, "hello"], "no such program"),
            ([self.top, "hello"], "/fifo: a FIFO"),
            (["--none", self.top, "hello"], "usage"),
            ([], "usage"),
        ]:
            done = self.carried(*words)
            self.assertEqual((done.returncode, self.names()), (120, ["folder", "there"]), done.stderr)
            self.assertIn(why, done.stderr)

    def test_nothing_is_left_after_a_signal(self):
        # Guests of which one reads an input that doesn't end, and one goes on for ever, stopped as a terminal does it: the signal goes to all
        # of the group.
        self.built("spin", SPIN)
        for command, output in [("cat", ""), ("spin", "so far\n")]:
            for number, status in [(signal.SIGTERM, 143), (signal.SIGINT, 130)]:
                with subprocess.Popen([TOOLS / "proot-folder", *USER, self.top, "--turns=10000000", command],
                                      stdin=subprocess.PIPE if command == "cat" else subprocess.DEVNULL, stdout=subprocess.PIPE,
                                      stderr=subprocess.PIPE, text=True, start_new_session=True) as working:
                    # What the one writes is waited for; the other has nothing to write before its end.
                    came = working.stdout.readline() if output else self.wait_for_run(working)
                    os.killpg(working.pid, number)
                    rest, errors = working.communicate()
                self.assertEqual((working.returncode, (came or "") + rest, self.names()), (status, output, ["folder"]))
                self.assertIn("and ended the run; what the program wrote until then was shown. Nothing was left", errors)

    def wait_for_run(self, working):
        wait_until(working, lambda: list(self.here.glob(".proot-folder-*/left")))

    def test_again_goes_on(self):
        self.assertEqual(self.carried(self.top, "write", "one", "/one").returncode, 0)
        self.assertEqual(self.carried("--again", self.top, "write", "two", "/two").returncode, 0)
        done = self.carried("--again", self.top, "cat", "/one", "/two")
        self.assertEqual((done.returncode, done.stdout, self.names()), (0, "one\ntwo\n", ["folder", "folder.left"]))
        self.assertEqual(self.carried("--replace", self.top, "cat", "/one").returncode, 1)
        self.assertEqual(self.differences("folder.left"), "")

    def test_lines_become_sentences(self):
        """Each refusal that a user can come to, with the program's own line as the last one."""
        (self.top / "g" / "m").mkdir(parents=True)
        (self.top / "g" / "l").symlink_to("/m")
        (self.top / "file").touch()
        put_program(self.top / "other", elf(machine=62))
        for words, line, told in LINES:
            for machine in [[], ["--native"]]:
                with self.subTest(words=words, machine=machine):
                    # The machine stands behind words that are refused, so that their numbers stay.
                    words_for_it = [*words, *machine] if line.startswith("word") else [*machine, *words]
                    done = self.carried("--to", self.here / "new", self.top, *words_for_it)
                    lines = done.stderr.split("\n")
                    self.assertEqual(lines[-2], f"proot: {line}", done.stderr)
                    self.assertIn(told, done.stderr)
                    self.assertEqual((self.here / "new").exists(), line == "turns spent")
                    shutil.rmtree(self.here / "new", ignore_errors=True)

    def test_code_that_does_not_run_is_told_before(self):
        """Compressed code runs into signal 4 or 7, and its header was named."""
        self.built("small", "int main(void) { return 0; }\n", march="-march=rv64imc")
        done = self.carried(self.top, "small")
        self.assertIn(done.returncode, [132, 135])
        self.assertIn("proot-folder: /bin/small has compressed code by its header", done.stderr)

    def test_agree(self):
        """A calm run, one that isn't and is the same, and one that differs."""
        (self.top / "g" / "m").mkdir(parents=True)
        (self.top / "g" / "m").chmod(0o777)
        (self.top / "g").chmod(0o777)
        build_examples(self.top / "bin", "move")
        self.built("below", BELOW)
        shutil.copytree(self.top / "bin", self.top / "g" / "bin")
        (self.top / "g" / "f").write_text("f\n")
        for command, parts, status in [
            (["cat", "/f"], ["calm: yes", "output: the same, 2 bytes", "status: the same, 0", "so it was"], 0),
            (["cat"], ["calm: yes", "output: the same, 6 bytes", "so it was"], 0),
            (["move", "/f", "/m/f"], ["breaks rule 2 first", "errors: different", "status: different", "here both are different"], 1),
            (["below"], ["breaks rule 1 first", "over mounts: '\\x00\\x00\\x00\\x00'", "with a tracer: '/g/f'", "folder: the same"], 1),
            (["none"], ["no run was made over mounts", "status: the same, 125 (proot: start: errno 2)", "there is no /bin/none"], 0),
        ]:
            with self.subTest(command=command):
                done = run("proot-agree", *USER, self.top, "-r", "/g", "-b", "/bin:/m", *command, input="typed\n")
                self.assertEqual((done.returncode, done.stderr), (status, ""), done.stdout)
                self.has_parts(done.stdout, parts)

    def test_write_fault_keeps_the_listing(self):
        stand_in = self.here / "stand-in"
        put_script(stand_in, 'echo "user 1 1" > "$3"\nexit ${STATUS}')
        for status, ended in [("122", 122), ("0", 120)]:
            done = self.carried("--proot", stand_in, self.top, env={**os.environ, "STATUS": status})
            self.assertEqual(done.returncode, ended)
            kept = done.stderr.rstrip("\n").rpartition(" ")[2]
            self.assertEqual(Path(kept).read_text(), "user 1 1\n")
