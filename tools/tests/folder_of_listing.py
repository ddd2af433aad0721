"""folder-of-listing: the folder that a listing tells, and listings of which none is made."""
import os
import signal
import stat
import subprocess
from pathlib import Path

from tests import IS_ROOT, START, TOOLS, InDirectory, limited, mode_of, run, wait_until

# Listings that are refused: the line and rule of the refusal, and what stands behind START where the text doesn't begin anew.
BAD_LISTINGS = [
    (1, "NoRoot", ["new", ""]),
    (2, "NoRoot", ["new", "user 1 1\n"]),
    (1, "RootUser", ["new", "user 0 0\nd 755 0 0 /\n"]),
    (2, "NoUser", ["new", "d 755 0 0 /\n"]),
    (3, "Twice", "user 1 1\n"),
    (4, "NoParent", "l 0 0 /out /tmp\nf 644 0 0 /out/passwd 00\n"),
    (4, "NoParent", "l 0 0 /out ../..\nd 755 0 0 /out/here\n"),
    (4, "NoParent", "p /proc\nf 644 0 0 /proc/f -\n"),
    (3, "Form", "f 644 0 0 /a\nb 00\n"),
    (3, "Form", "c 644 0 0 /null 1 3\n"),
    (3, "Form", "f 644 0 0 /x 0\n"),
    (3, "Form", "f 644 0 0 /x \n"),
    (3, "Form", "f 644 0 0 /x -"),
    (3, "Form", "\n"),
    (3, "Form", "d 755  0 0 /a\n"),
    (3, "Number", "f 9 0 0 /x -\n"),
    (3, "Number", "f  0 0 /x -\n"),
    (3, "Number", "f 00644 0 0 /x -\n"),
    (3, "Number", "f 644 4294967295 0 /x -\n"),
    (3, "Number", "f 644 1_0 0 /x -\n"),
    (3, "Name", "d 755 0 0 " + "/" + "/".join(["n" * 249] * 20) + "\n"),
    (3, "Name", "f 644 0 0 /" + "n" * 256 + " -\n"),
    (3, "Name", "d 755 0 0 /../x\n"),
    (3, "Name", "d 755 0 0 /a/%2e%2e/x\n"),
    (3, "Name", "d 755 0 0 //a\n"),
    (3, "Name", "d 755 0 0 a\n"),
    (3, "Name", "d 755 0 0 /a/\n"),
    (3, "Name", "f 644 0 0 /x%00 -\n"),
    (3, "Name", "f 644 0 0 /x%0 -\n"),
    (3, "Name", "f 644 0 0 /x\t -\n"),
    (3, "Name", "l 0 0 /l \n"),
    (3, "Name", "l 0 0 /l " + "n" * 4096 + "\n"),
    (4, "Twice", "f 644 0 0 /%41 -\nf 644 0 0 /A -\n"),
    (4, "Twice", "p /proc\np /other\n"),
    (3, "Twice", "d 755 0 0 /\n"),
    (3, "NoTarget", "h /a /b\n"),
    (4, "NoTarget", "l 0 0 /b /etc/passwd\nh /a /b\n"),
    (4, "NoTarget", "d 755 0 0 /b\nh /a /b\n"),
]


class FolderOfListing(InDirectory):
    def folder(self, listing, *words):
        (self.here / "listing").write_text(listing)
        return run("folder-of-listing", *words, self.here / "listing", self.here / "made")

    def made(self, listing, *words):
        done = self.folder(listing, *words)
        self.assertEqual((done.returncode, done.stderr if IS_ROOT else ""), (0, ""))
        return self.here / "made"

    def test_bad_listings_are_refused_with_nothing_written(self):
        for line, rule, text in BAD_LISTINGS:
            whole = text[1] if isinstance(text, list) else START + text
            with self.subTest(text=whole[-60:]):
                done = self.folder(whole)
                self.assertEqual((done.returncode, self.names()), (1, ["listing"]))
                self.assertIn(f"listing: line {line}: {rule}: ", done.stderr)

    def test_files_that_are_too_long(self):
        done = self.folder(START + "f 644 0 0 /x " + "00" * 16_777_217 + "\n")
        self.assertIn("line 3: TooBig: /x has", done.stderr)

    def test_kinds_modes_links_and_hard_links(self):
        made = self.made(START + "d 1500 0 0 /d\nf 4751 0 0 /d/f 6100ff\nh /d/h /d/f\nl 0 0 /d/l ../../out%20of%20here\np /proc\n")
        self.assertEqual((made / "d" / "h").read_bytes(), b"a\x00\xff")
        self.assertTrue((made / "d" / "h").samefile(made / "d" / "f"))
        self.assertEqual(os.readlink(made / "d" / "l"), "../../out of here")
        modes = [mode_of(made / name) for name in ["d", "d/f", "proc"]]
        self.assertEqual(modes, [0o1500, 0o4751 if IS_ROOT else 0o751, 0o555])

    def test_name_with_a_newline(self):
        made = self.made(START + "f 644 0 0 /a%0Ab%25 -\n")
        self.assertEqual(os.listdir(made), ["a\nb%"])

    def test_link_that_points_out_is_not_followed(self):
        (self.here / "outside").mkdir()
        for text in ["../outside", str(self.here / "outside")]:
            done = self.folder(START + f"l 0 0 /out {text}\nf 644 0 0 /out/f 00\n")
            self.assertEqual((done.returncode, os.listdir(self.here / "outside")), (1, []))
        self.made(START + "l 0 0 /out ../outside\n")
        self.assertEqual(os.listdir(self.here / "outside"), [])

    def test_existing_targets_are_refused(self):
        (self.here / "elsewhere").mkdir()
        for make in [Path.mkdir, Path.touch, lambda path: path.symlink_to("none"), lambda path: path.symlink_to("elsewhere")]:
            target = self.here / "made"
            make(target)
            before = os.lstat(target)
            done = self.folder(START + "f 644 0 0 /f -\n")
            self.assertEqual((done.returncode, os.lstat(target)), (1, before))
            self.assertIn("it isn't touched", done.stderr)
            (target.rmdir if stat.S_ISDIR(before.st_mode) else target.unlink)()
        self.assertEqual(os.listdir(self.here / "elsewhere"), [])

    def test_elf_source(self):
        (self.here / "elf").write_bytes(b"elf")
        listing = START + "x 755 0 0 /p\nh /q /p\n"
        done = self.folder(listing)
        self.assertEqual(done.returncode, 1)
        self.assertIn("--elf", done.stderr)
        self.assertEqual((self.made(listing, "--elf", self.here / "elf") / "q").read_bytes(), b"elf")
        self.assertIn("TwoElf", self.folder(listing + "x 755 0 0 /r\n", "--elf", self.here / "elf").stderr)

    def test_two_thousand_directories_deep(self):
        listing = START + "".join(f"d 755 0 0 {'/d' * depth}\n" for depth in range(1, 2048))
        self.made(listing)
        done = self.listing(folder="made")
        self.assertEqual(done.stdout.count("\n"), 2049)

    def test_there_and_back(self):
        listing = (START + "d 700 0 0 /a\nd 0 5 6 /a/closed\nf 600 5 6 /a/closed/f 00\nf 6755 7 8 /b ff\nh /c /b\n"
                   "f 0 0 0 /d%20e -\nl 9 9 /l x\np /proc\n")
        if not IS_ROOT:
            self.skipTest("needs root, to set owners")
        self.made(listing)
        self.assertEqual(self.listing("--proc", "/proc", folder="made").stdout, listing)

    def test_owners_that_cannot_be_set_are_told(self):
        self.here.chmod(0o777)
        (self.here / "listing").write_text("user 1 1\nd 755 65534 65534 /\nf 4755 0 0 /su 00\nf 4755 65534 65534 /own 00\nl 1 1 /l x\n")
        done = self.as_nobody("folder-of-listing", "listing", "made")
        self.assertEqual(done.returncode, 0, done.stderr)
        self.assertIn("owners that couldn't be set: 2, first that of /su", done.stderr)
        modes = [mode_of(self.here / "made" / name) for name in ["su", "own"]]
        self.assertEqual(modes, [0o755, 0o4755])

    def test_nothing_is_left_after_a_signal(self):
        (self.here / "listing").write_text(START + "".join(f"f 0 0 0 /f{k} 00\n" for k in range(20_000)))
        for number, status in [(signal.SIGTERM, 143), (signal.SIGINT, 130)]:
            with subprocess.Popen([TOOLS / "folder-of-listing", self.here / "listing", self.here / "made"]) as working:
                wait_until(working, lambda: self.names() != ["listing"])
                working.send_signal(number)
                self.assertEqual((working.wait(), self.names()), (status, ["listing"]))

    def test_nothing_is_left_where_the_disk_is_full(self):
        (self.here / "listing").write_text(START + "d 500 0 0 /d\nl 0 0 /d/l x\nf 644 0 0 /d/f " + "00" * 100_000 + "\n")
        done = limited(100, TOOLS / "folder-of-listing", "listing", "made", cwd=self.here)
        self.assertEqual((done.returncode, self.names()), (1, ["listing"]), done.stderr)
        self.assertIn("/d/f: File too large", done.stderr)
