"""What proot-folder makes of the program's last line."""
from tests import run
from tests.programs import elf
from tests.stand_in import StandIn

# Words, the program's last line, and what its sentence has.
SENTENCES = [
    (["-q"], "word 1: Unknown", "word 1, -q: PRoot has this option, and this program has not: no emulator is needed"),
    (["-R", "/g"], "word 1: Unknown", "word 1, -R: PRoot has this option, and this program has not: bind each directory by -b"),
    (["-r/g"], "word 1: Unknown", "word 1, -r/g: short options aren't joined with what follows: write -r /g"),
    (["-0r", "/g"], "word 1: Unknown", "word 1, -0r: short options aren't joined with what follows: write -0 -r"),
    (["-r=/g"], "word 1: Unknown", "the value of a short option is the next word: write -r /g"),
    (["--native=1"], "word 1: Unknown", "--native has no value here; write --native alone"),
    (["--replace"], "word 1: Unknown", "--replace is an option of this tool, not of the program: write it before FOLDER"),
    (["--wrong"], "word 1: Unknown", "word 1, --wrong: there is no such option; proot-folder --help lists them"),
    (["--rootfs", "/g"], "word 1: NoValue", "its value stands behind a =, not in the next word: write --rootfs=VALUE"),
    (["-w"], "word 1: NoValue", "word 1, -w: it needs a value behind it: -w PATH"),
    (["-0", "--turns=0"], "word 2: BadNumber", "word 2, --turns=0: 0 is no number of those that --turns takes (1 to 10000000)"),
    (["--schedule=1"], "word 1: BadSchedule", "the value isn't PICK*FUEL"),
    (["-b", ":/x"], "word 1: BadBind", "word 1, -b :/x: the path before or behind the : is empty"),
    (["--env==v"], "word 1: BadEnv", "there is no = in it, or no name before the ="),
    (["-i", "me"], "word 1: BadId", "word 1, -i me: the value isn't UID:GID"),
    (["-0", "--loose=0*1", "x"], "word 2: LooseAlone", "--loose=0*1': beside --loose neither --native, nor --schedule, nor an identity"),
    (["-r", "/g", "--rootfs=/"], "word 3: Twice", "word 3, --rootfs=/: this option was given before as word 1, -r"),
    (["-0", "-i", "1:1"], "word 2: Twice", "word 2, -i 1:1: this option was given before as word 1, -0"),
    (["--calm", "x"], "word 1: CalmAlone", "word 1, --calm: it needs --native"),
    (["--case=1", "x"], "word 2: CaseAlone", "word 2, x: beside --case nothing but"),
    (["-r", "/none"], "bind 0: NoSource", "the root, -r /none: there is no /none in the folder"),
    (["-r", "/etc/passwd"], "bind 0: NoSource", "there is no /etc in the folder, though there is one on your system: copy it into the folder"),
    (["-r", "/file"], "bind 0: RootNotDir", "the root, -r /file: it is no directory"),
    (["-b", "/bin:/m", "-b", "/none:/n"], "bind 2: NoSource", "binding 2, /none:/n: there is no /none in the folder"),
    (["-b", "/closed/in:/n"], "bind 1: NoSource", "binding 1, /closed/in:/n: user 1000 may not search /closed (mode 700 of user "),
    (["-b", "/loop:/n"], "bind 1: NoSource", "more than 40 links stand on the way, the last at /loop in the folder"),
    (["-b", "/bin:/m"], "bind 1: NoPoint",
     "binding 1, /bin:/m: /m is not there and can't be made, since user 1000 may not write in /, mode 755"),
    (["-r", "/g", "-b", "/bin:/m/n"], "bind 1: NoPoint",
     "/m/n is not there and can't be made, since user 1000 may not write in / (/g of the folder), mode"),
    (["-b", "/bin:/file/n"], "bind 1: NoPoint", "/file/n is not there and can't be made, since /file is no directory"),
    (["-b", "/bin:/file"], "bind 1: Kind", "/bin is a directory and /file is none; a directory can be bound over a directory alone"),
    (["-b", "/file:/bin"], "bind 1: Kind", "/bin is a directory and /file is none; a directory can be covered by a directory alone"),
    (["-b", "/bin:/"], "bind 1: AtRoot", "binding 1, /bin:/: nothing can be bound at /; -r /bin makes it the root"),
    (["-b", "/g:/bin", "-b", "/bin:/bin/l/x"], "bind 2: LinkOnTheWay", "/bin/l is a link to /file inside another binding or at the end"),
    (["none"], "start: errno 2", "none can't be started: there is no /bin/none or /usr/bin/none to execute"),
    (["-r", "/g", "none"], "start: errno 2", "to execute under the root, which is /g of the folder"),
    (["/file"], "start: errno 13", "/file can't be started: /file may not be executed by user 1000 (mode 644"),
    (["noexec"], "start: errno 2", "/bin/noexec may not be executed by user 1000 (mode 644"),
    (["-r", "/g"], "start: errno 2", "/bin/sh, which runs where no command is given, can't be started: there is no /bin under the root"),
    (["/bin/sh/x"], "start: errno 20", "/bin/sh/x can't be started: /bin/sh is no directory"),
    (["/loop"], "start: errno 40", "/loop can't be started: more than 40 links"),
    (["sh"], "start: errno 12", "sh can't be started: it needs more memory than a process may have"),
    (["sh"], "start: errno 99", "sh can't be started: error 99 of execve(2)"),
    (["sh"], "tree line 3: Name", "line 3 of the folder's listing is refused: the path has a byte"),
    (["sh"], "too long: Input", "the input has more than 16,777,216 bytes"),
    (["sh"], "deadlock", "each process that is left waits for another"),
    (["sh"], "turns spent", "give more by --turns"),
    (["sh"], "no memory", "memory ran out"),
    (["sh"], "read fault: Input", "the input can't be read"),
    (["sh"], "write fault: Out", "the output can't be written"),
    ([b"caf\xe9"], "usage: proot TREE ELF LEFT [option] ... [command]", "a word isn't UTF-8"),
]


class Sentences(StandIn):
    """The program's last line is told in words, and stands behind them."""

    def setUp(self):
        super().setUp()
        (self.top / "g").mkdir()
        (self.top / "g" / "l").symlink_to("/file")
        (self.top / "closed" / "in").mkdir(parents=True)
        (self.top / "closed").chmod(0o700)
        (self.top / "loop").symlink_to("loop")
        (self.top / "bin" / "noexec").write_bytes(elf())

    def test_each(self):
        for words, line, told in SENTENCES:
            with self.subTest(words=words, line=line):
                status = {"deadlock": 123, "turns spent": 124, "no memory": 121}.get(line, 122 if "fault" in line else 125)
                done = self.carried(self.top, *words, does=f"echo the guest\\'s >&2; echo 'proot: {line}' >&2; exit {status}")
                lines = done.stderr.split("\n")
                self.assertEqual((done.returncode, lines[0], lines[-2]), (status, "the guest's", f"proot: {line}"))
                self.assertIn(told, lines[-4])

    def test_the_guest_may_write_such_lines(self):
        for does, status in [("echo proot: deadlock >&2", 0), ("echo proot: deadlock >&2; exit 5", 5), ("printf 'proot: ' >&2", 0),
                             ("printf 'proot: deadlock\\nmore' >&2; exit 123", 123)]:
            with self.new_folder() as new:
                done = self.carried("--to", new, self.top, "sh", does=f"cp $1 $3; {does}")
                self.assertEqual((done.returncode, done.stdout), (status, ""))
                self.assertTrue(done.stderr.startswith("proot: ") and "proot-folder" not in done.stderr, done.stderr)

    def test_a_file_that_was_told_before_is_not_told_again(self):
        self.program("bin/it", elf(machine=62))
        done = self.carried(self.top, "it", does="echo proot: start: errno 8 >&2; exit 125")
        self.assertEqual(done.stderr.count("another machine"), 1)
        self.assertIn("the command wasn't started, for the reason above", done.stderr)

    def test_help_lists_the_words_of_the_program(self):
        for tool in ["proot-folder", "proot-agree"]:
            self.has_parts(run(tool, "--help").stdout, [
                "-r PATH", "-b HOST[:GUEST[!]]", "-w PATH", "-0, --root-id", "-i UID:GID", "--env=", "--turns=", "--schedule=", "--native",
                "-x PATTERN"])
