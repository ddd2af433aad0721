"""What proot-agree tells of two runs, for both of which a script stands in."""
import subprocess

from tests.stand_in import StandIn

# What the stand-in does over mounts and with a tracer, parts of what is told, and the status.
AGREEMENTS = [
    ("echo out; echo calm: yes >&2; exit 3", "echo out; exit 3",
     ["calm: yes", "output: the same, 4 bytes", "errors: the same, 0 bytes", "status: the same, 3", "folder: the same, ",
      "a calm run is the same with a tracer, in all of the above; so it was"], 0),
    ("echo calm: rule 1 >&2", ":",
     ["breaks rule 1 first", "-ftrivial-auto-var-init=zero", "string functions that go by bytes", "in spite of that"], 0),
    ("echo one; echo calm: rule 2 >&2", "echo other",
     ["breaks rule 2 first", "different from byte 2 on", "over mounts: 'one'", "here both are different"], 1),
    ("echo calm: rule 3 >&2", ":", ["rule 3 first: the source of a binding"], 0),
    ("echo calm: rule 4 >&2", ":", ["rule 4 first: a directory was moved"], 0),
    ("echo calm: rule 5 >&2", ":", ["rule 5 first: a directory that is in use"], 0),
    ("echo calm: rule 6 >&2", ":", ["rule 6 first: a path led"], 0),
    ("echo x >&2; echo calm: yes >&2", "exit 1",
     ["errors: different", "status: different; 0 over mounts, 1 with a tracer", "HERE IT WAS NOT"], 1),
    ("echo calm: yes >&2", "echo 'f 644 0 0 /new -' >> $3", ["folder: different", "/new: with a tracer alone", "HERE IT WAS NOT"], 1),
    ("echo calm: yes >&2; echo proot: deadlock >&2; exit 123", "echo proot: deadlock >&2; exit 123",
     ["status: the same, 123 (proot: deadlock)"], 0),
    ("echo proot: no memory >&2; exit 121", ":",
     ["the run over mounts ended early", "status: different; 121 (proot: no memory) over mounts"], 1),
    ("rm $3; echo proot: bind 1: NoSource >&2; exit 125", "rm $3; echo proot: bind 1: NoSource >&2; exit 125",
     ["no run was made over mounts", "folder: none was left, by both", "refused alike", "binding 1, /none: there is no /none in the folder"], 0),
]


class Agrees(StandIn):
    """What proot-agree tells of two runs."""

    def agree(self, mounted, traced, *words, **options):
        does = f'cp $1 $3; case " $* " in *" --native --calm "*) {mounted};; *) {traced};; esac'
        return self.carried(*words, does=does, tool="proot-agree", **options)

    def test_each(self):
        for mounted, traced, parts, status in AGREEMENTS:
            with self.subTest(mounted=mounted, traced=traced):
                done = self.agree(mounted, traced, self.top, "-b", "/none", "sh", stdin=subprocess.DEVNULL)
                self.assertEqual((done.returncode, done.stderr, self.names()), (status, "", self.there), done.stdout)
                self.has_parts(done.stdout, parts)

    def test_both_get_the_input_and_the_words(self):
        done = self.agree("cat; echo $* | cut -d' ' -f 4-; echo calm: yes >&2", "cat; echo --native --calm $* | cut -d' ' -f 1,2,6-", self.top,
                          "--native", "-w", "/bin", "--calm", "sh", "--native", input="typed\n")
        self.assertEqual((done.returncode, done.stderr), (0, ""))
        self.assertIn("output: the same, 42 bytes", done.stdout)

    def test_what_cannot_be_compared(self):
        for words, traced, why in [
            (["--case=1"], ":", "--case runs both machines by itself"),
            (["--loose=0*1", "sh"], ":", "--loose makes single steps with a tracer"),
            (["--wrong"], "echo proot: word 1: Unknown >&2; exit 125", "word 1, --wrong: there is no such option"),
            (["sh"], "kill -9 $$", "it was ended by signal 9"),
        ]:
            done = self.agree(":", traced, self.top, *words, stdin=subprocess.DEVNULL)
            self.assertEqual((done.returncode, done.stdout), (120, ""))
            self.assertIn(why, done.stderr)
