"""listing-of-folder: what stands in a folder, and what has no line in a listing."""
import os
import pty
import socket
import stat
import subprocess

from tests import IS_ROOT, TOOLS, InDirectory, run


def deep(top, depth, name="n" * 249):
    """Makes directories in directories by a short way, as a whole path would be too long for the system."""
    at = os.open(top, os.O_RDONLY)
    for _ in range(depth):
        try:
            os.mkdir(name, dir_fd=at)
        except FileExistsError:
            pass
        below = os.open(name, os.O_RDONLY, dir_fd=at)
        os.close(at)
        at = below
    os.close(at)


def sparse(path, size):
    """Makes a file of zeroes, which takes no room on the disk."""
    with open(path, "wb") as file:
        file.truncate(size)


class ListingOfFolder(InDirectory):
    def setUp(self):
        super().setUp()
        self.top = self.here / "folder"
        self.top.mkdir()
        self.owner = f"{os.getuid()} {os.getgid()}"

    def listed(self, *lines, words=(), told=None):
        done = self.listing(*words)
        self.assertEqual(done.stderr, f"listing-of-folder: {told}\n" if told else "")
        expected = ["user 1000 1000", f"d 755 {self.owner} /", *lines]
        self.assertEqual(done.stdout.split("\n"), [line.replace("OWNER", self.owner) for line in expected] + [""])

    def refused(self, *parts, words=(), user="1000:1000"):
        """Each part stands in the errors, the status is 1, and no listing is written."""
        target = self.here / "out"
        done = run("listing-of-folder", "--user", user, *words, self.top, target)
        self.assertEqual(done.returncode, 1)
        self.has_parts(done.stderr, parts)
        self.assertFalse(target.exists())

    def test_kinds_modes_links_and_hard_links(self):
        (self.top / "d").mkdir(mode=0o700)
        (self.top / "d" / "f").write_bytes(b"a\x00\xff")
        (self.top / "d" / "f").chmod(0o4751)
        (self.top / "b").hardlink_to(self.top / "d" / "f")
        (self.top / "e").write_bytes(b"")
        (self.top / "l").symlink_to("../out of here")
        self.listed("f 4751 OWNER /b 6100ff", "d 700 OWNER /d", "h /d/f /b", "f 644 OWNER /e -", "l OWNER /l ../out%20of%20here")

    def test_order_is_by_components(self):
        for name in ["a", "a/b", "a-"]:
            (self.top / name).mkdir()
        self.listed("d 755 OWNER /a", "d 755 OWNER /a/b", "d 755 OWNER /a-")

    def test_names_with_newline_blank_percent_and_high_bytes(self):
        for name in [b"a\nb", b"c d", b"%41", b"\xff\x7f"]:
            (self.top / os.fsdecode(name)).write_bytes(b"")
        self.listed("f 644 OWNER /%2541 -", "f 644 OWNER /a%0ab -", "f 644 OWNER /c%20d -", "f 644 OWNER /%ff%7f -")

    def test_links_that_lead_out_are_not_followed(self):
        (self.here / "secret").write_text("secret")
        (self.top / "file").symlink_to(self.here / "secret")
        (self.top / "dir").symlink_to(self.here)
        self.listed(f"l OWNER /dir {self.here}", f"l OWNER /file {self.here}/secret")

    def test_process_directory(self):
        (self.top / "proc").mkdir()
        self.listed("p /proc", words=["--proc", "/proc"])
        (self.top / "proc" / "f").touch()
        self.refused("/proc: the process directory", "isn't empty", words=["--proc", "/proc"])
        self.refused("/none: the process directory needs an empty directory", words=["--proc", "/none"])
        self.assertEqual(self.listing("--proc", "/a/../b").returncode, 2)

    def test_kinds_without_a_line_are_all_named(self):
        os.mkfifo(self.top / "fifo")
        with socket.socket(socket.AF_UNIX) as ear:
            ear.bind(str(self.top / "so\ncket"))
        self.refused("/fifo: a FIFO; a listing has directories, files and links; -x /fifo leaves it out",
                     "/so%0acket: a socket; a listing has directories, files and links; -x '/so?cket' leaves it out")
        self.listed(words=["-x", "/fifo", "-x", "/so?cket"], told="left out by -x: /fifo and 1 more, with all below")

    def test_names_that_are_left_out(self):
        """A pattern is for a whole path or for a last name, and a directory goes with all below it."""
        for name in ["a.o", "d/b.o", "d/e/x", "d/f"]:
            (self.top / name).parent.mkdir(parents=True, exist_ok=True)
            (self.top / name).touch()
        all_names = ["a.o", "d", "d/b.o", "d/e", "d/e/x", "d/f"]
        for pattern, gone in [
            ("*.o", ["a.o", "d/b.o"]), ("/a.o", ["a.o"]), ("/b.o", []), ("d", all_names[1:]), ("/d/", all_names[1:]), ("e", ["d/e", "d/e/x"]),
            ("d/e", ["d/e", "d/e/x"]), ("/d/*", all_names[2:]), ("/*/f", ["d/f"]), ("d*f", []), ("[fx]", ["d/e/x", "d/f"]), ("*", all_names),
        ]:
            with self.subTest(pattern=pattern):
                done = self.listing("-x", pattern)
                names = [line.split(" ")[4][1:] for line in done.stdout.split("\n")[2:-1]]
                self.assertEqual(names, [name for name in all_names if name not in gone], done.stderr)
                self.assertIn("left out by -x: /" if gone else "no name matches -x", done.stderr)

    def test_first_name_of_a_hard_link_is_left_out(self):
        (self.top / "a").write_text("a")
        (self.top / "b").hardlink_to(self.top / "a")
        self.listed("f 644 OWNER /b 61", words=["-x", "a"], told="left out by -x: /a, with all below")

    def test_device_nodes(self):
        try:
            os.mknod(self.top / "null", 0o666 | stat.S_IFCHR, os.makedev(1, 3))
        except PermissionError:
            self.skipTest("device nodes can't be made here")
        self.refused("/null: a character device")

    def test_paths_that_are_too_long(self):
        deep(self.top, 20)
        self.refused("the path has 4,250 bytes, more than 4,095")

    def test_deepest_path_that_fits(self):
        deep(self.top, 16)
        done = self.listing()
        self.assertEqual((done.returncode, len(done.stdout.split("\n")[-2].split(" ")[-1])), (0, 16 * 250))

    def test_two_thousand_directories_deep(self):
        deep(self.top, 2047, "d")
        done = self.listing()
        self.assertEqual((done.returncode, done.stdout.count("\n")), (0, 2049))
        deep(self.top, 2048, "d")
        self.refused("the path has 4,096 bytes")

    def test_files_that_are_too_long(self):
        sparse(self.top / "long", 16_777_217)
        self.refused("/long: the file has more than 16,777,216 bytes; -x /long leaves it out")

    def test_listings_that_are_too_long(self):
        for k in range(3):
            sparse(self.top / f"f{k}", 16_777_216)
        self.refused("/f1: here the listing passes 67,108,864 bytes", "with 16,777,216 bytes, and -x /f1 leaves it out")

    def test_two_names_of_a_link(self):
        os.symlink("x", self.top / "a")
        os.link(self.top / "a", self.top / "b", follow_symlinks=False)
        self.refused("/b: the same link as /a")

    def test_root_is_no_host_user(self):
        self.refused("the host user would be root", user="0:5")
        self.assertEqual(self.names(), ["folder"])

    def test_words_for_the_user(self):
        for word in ["1", "1:2:3", "-1:1", "1:4294967295", "a:b", ":"]:
            self.assertEqual(run("listing-of-folder", f"--user={word}", self.top, "-").returncode, 2, word)

    def test_user_is_the_caller(self):
        done = run("listing-of-folder", self.top, "-")
        if IS_ROOT:
            self.assertIn("the host user would be root", done.stderr)
        else:
            self.assertTrue(done.stdout.startswith(f"user {self.owner}\n"))

    def test_existing_listing_is_not_overwritten(self):
        (self.here / "out").write_text("old")
        done = run("listing-of-folder", "--user", "1:1", self.top, self.here / "out")
        self.assertEqual((done.returncode, (self.here / "out").read_text()), (1, "old"))
        self.assertIn("isn't overwritten", done.stderr)

    def test_folders_that_are_none(self):
        for name in ["none", "file"]:
            (self.here / "file").touch()
            done = self.listing(folder=name)
            self.assertEqual((done.returncode, done.stdout), (1, ""))
            self.assertIn(f"/{name}: ", done.stderr)

    def test_unreadable_files(self):
        self.here.chmod(0o755)
        (self.top / "private").touch(mode=0o600)
        done = self.as_nobody("listing-of-folder", self.top, "-")
        self.assertEqual((done.returncode, done.stdout), (1, ""))
        self.assertIn("/private: Permission denied; -x /private leaves it out", done.stderr)

    def test_progress_stands_on_a_terminal_alone(self):
        for k in range(3):
            sparse(self.top / f"f{k}", 9_000_000)
        self.assertEqual(self.listing().stderr, "")
        ours, theirs = pty.openpty()
        with open(self.here / "out", "wb") as out:
            subprocess.run([TOOLS / "listing-of-folder", "--user", "1:1", self.top, "-"], stdout=out, stderr=theirs, check=True)
        os.close(theirs)
        self.assertTrue(os.read(ours, 4096).endswith(b"\r\x1b[K"))
        os.close(ours)
