"""Paths of a folder as a program sees them under a root with bindings. This is for sentences and hints: proot decides."""
import os
import stat

MOST_PATH = 4_095
MOST_LINKS = 40


class Lost(Exception):
    """A path leads nowhere: the number of the error, why, and at which path, as the walk sees it."""

    def __init__(self, number, why, text):
        super().__init__(why)
        self.number, self.why, self.text = number, why, text


def shown(raw):
    """Bytes for a message, as a listing writes them."""
    return "".join(chr(byte) if 0x21 <= byte <= 0x7E and byte != 0x25 else f"%{byte:02x}" for byte in raw)


def parts_of(path):
    return [part for part in path.split(b"/") if part]


def joined(parts):
    return b"/" + b"/".join(parts)


def above(text):
    return text.rpartition(b"/")[0] or b"/"


class Host:
    """A folder as host tree: what stands there, who may do what. What was left out isn't there."""

    def __init__(self, folder, user, patterns):
        self.folder = os.open(folder, os.O_RDONLY | os.O_DIRECTORY)
        self.user = user
        self.patterns = patterns

    def look(self, text):
        """The status of what stands at a text, a link itself; None where nothing does."""
        if self.patterns.leave_out(text):
            return None
        try:
            return os.stat(text[1:] or b".", dir_fd=self.folder, follow_symlinks=False)
        except OSError:
            return None

    def made(self):
        """The status of a directory that is made on the way to a binding."""
        return os.stat_result((stat.S_IFDIR | 0o755, 0, 0, 2, *self.user, 0, 0, 0, 0))

    def link(self, text):
        return os.readlink(text[1:], dir_fd=self.folder)

    def head(self, text, size):
        """The first bytes of a file."""
        try:
            opened = os.open(text[1:], os.O_RDONLY | os.O_NOFOLLOW | os.O_NONBLOCK, dir_fd=self.folder)
        except OSError:
            return b""
        with open(opened, "rb") as file:
            return file.read(size)

    def may(self, status, right):
        """Whether the host user has a right (4 read, 2 write, 1 search or execute), by the first class that fits."""
        uid, gid = self.user
        shift = 6 if status.st_uid == uid else 3 if status.st_gid == gid else 0
        return bool(status.st_mode >> shift & right)

    def owned(self, status):
        return f"mode {stat.S_IMODE(status.st_mode):o} of user {status.st_uid} and group {status.st_gid}"

    @property
    def who(self):
        return f"user {self.user[0]}"


class View:
    """The paths under a root with bindings, which are pairs of a location and a source. Those of the host itself are a view, too."""

    def __init__(self, host, places=((b"/", b"/"),)):
        self.host = host
        self.places = list(places)

    def host_of(self, text):
        """The host's path of a path here, by the binding with the longest location above it; of equal ones the last."""
        parts, best = parts_of(text), (-1, b"/")
        for location, source in self.places:
            names = parts_of(location)
            if parts[:len(names)] == names and len(names) >= best[0]:
                best = len(names), joined(parts_of(source) + parts[len(names):])
        return best[1]

    def look(self, text):
        """The status of what stands at a path, a link itself; None where nothing does. On the way to a binding all is made."""
        status = self.host.look(self.host_of(text))
        if status is None and any(location.startswith(text + b"/") for location, _ in self.places):
            return self.host.made()
        return status

    def directory(self, text):
        """Where a component is to be looked up: a directory that may be searched."""
        status = self.look(text)
        if status is None:
            raise Lost(2, f"there is no {shown(text)}", text)
        if not stat.S_ISDIR(status.st_mode):
            raise Lost(20, f"{shown(text)} is no directory", text)
        if not self.host.may(status, 1):
            raise Lost(13, f"{self.host.who} may not search {shown(text)} ({self.host.owned(status)})", text)

    def walk(self, path, base=b"/", follows_last=True):
        """The path that a path leads to, without links, and the status of what stands there."""
        if not path or len(path) > MOST_PATH:
            raise Lost(36 if path else 2, f"the path has {len(path):,} bytes, and 1 to {MOST_PATH:,} are allowed", path)
        at = b"/" if path.startswith(b"/") else base
        ahead, links = parts_of(path), 0
        while ahead:
            name = ahead.pop(0)
            self.directory(at)
            if name in (b".", b".."):
                at = above(at) if name == b".." else at
                continue
            there = joined(parts_of(at) + [name])
            status = self.look(there)
            if status is None:
                raise Lost(2, f"there is no {shown(there)}", there)
            if not stat.S_ISLNK(status.st_mode) or not (ahead or follows_last or path.endswith(b"/")):
                at = there
                continue
            links += 1
            text = self.host.link(self.host_of(there))
            if links > MOST_LINKS:
                raise Lost(40, f"more than {MOST_LINKS} links stand on the way, the last at {shown(there)}", there)
            at = b"/" if text.startswith(b"/") else at
            ahead = parts_of(text) + ahead
        return at, self.ended(at, path)

    def ended(self, text, path):
        status = self.look(text)
        if status is None:
            raise Lost(2, f"there is no {shown(text)}", text)
        if path.endswith(b"/") and not stat.S_ISDIR(status.st_mode):
            raise Lost(20, f"{shown(text)} is no directory", text)
        return status


def located(view, path, keeps_link):
    """The path at which a binding stands: it leads through links of the root as far as something is there."""
    done, ahead, links = [], parts_of(path), 0
    while ahead:
        name = ahead.pop(0)
        if name in (b".", b".."):
            done = done[:-1] if name == b".." else done
            continue
        status = view.look(joined(done + [name]))
        if status is None or not stat.S_ISLNK(status.st_mode) or keeps_link and not ahead and not path.endswith(b"/"):
            done.append(name)
            continue
        links += 1
        if links > MOST_LINKS:
            raise Lost(40, f"more than {MOST_LINKS} links stand on the way", joined(done + [name]))
        text = view.host.link(view.host_of(joined(done + [name])))
        done = [] if text.startswith(b"/") else done
        ahead = parts_of(text) + ahead
    return joined(done)


class Guest:
    """What the program is to see: the root and the bindings as far as they can be settled, each with what was lost."""

    def __init__(self, host, words):
        self.host, self.words = host, words
        self.lost = {}
        self.sources, self.locations = {}, {}
        host_view = View(host)
        self.source(0, host_view, words.root)
        self.root_view = View(host, [(b"/", self.sources.get(0, b"/"))])
        for index, binding in enumerate(words.bindings, 1):
            self.source(index, host_view, binding.host)
            try:
                self.locations[index] = located(self.root_view, os.fsencode(binding.guest), binding.keeps_link)
            except Lost as lost:
                self.lost.setdefault(index, lost)
        self.view = View(host, [(b"/", self.sources.get(0, b"/"))] + [
            (self.locations[index], self.sources[index]) for index in sorted(self.locations) if index in self.sources])

    def source(self, index, view, word):
        try:
            self.sources[index], _ = view.walk(os.fsencode(word))
        except Lost as lost:
            self.lost[index] = lost

    def directory(self):
        """The first working directory, and what was lost on the way to the one that the words name."""
        try:
            text, status = self.view.walk(os.fsencode(self.words.directory))
            if not stat.S_ISDIR(status.st_mode):
                raise Lost(20, f"{shown(text)} is no directory", text)
            if not self.host.may(status, 1):
                raise Lost(13, f"{self.host.who} may not search {shown(text)} ({self.host.owned(status)})", text)
            return text, None
        except Lost as lost:
            return b"/", lost
