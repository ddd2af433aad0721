"""Runs of the program over the listing of a folder, and what interrupts them."""
import contextlib
import os
import shutil
import signal
import subprocess
import sys
import tempfile

from parts import TOOLS, Refused, commands, listing, refusals
from parts.host import Guest, Host

# More than a pipe holds, so that a read takes all of it, and no line of the program in two parts.
WHOLE_PIPE = 1 << 20
NAMES = {signal.SIGINT: "Ctrl-C (SIGINT)", signal.SIGTERM: "SIGTERM"}


class Ended(Exception):
    """A signal asked for the end; the text is what its line tells."""


class Signals:
    """The signals that ask for the end. While another program works it gets them, and ends first, in its own way."""

    def __init__(self, stage):
        self.number = None
        self.child = None
        # What is being done, for the line that tells the end, and whether all is done, so that nothing is ended any more.
        self.stage = stage
        self.is_done = False
        for number in NAMES:
            signal.signal(number, self.come)

    def come(self, number, _frame):
        is_first = self.number is None
        self.number = self.number or number
        if self.child is not None:
            self.child.send_signal(number)
        elif is_first and not self.is_done:
            raise self.ended()

    def ended(self):
        return Ended(f"{NAMES[self.number]} came {self.stage}")

    @contextlib.contextmanager
    def held(self):
        """Holds them back, for what has to be done whole."""
        before = signal.pthread_sigmask(signal.SIG_BLOCK, NAMES)
        try:
            yield
        finally:
            signal.pthread_sigmask(signal.SIG_SETMASK, before)

    def call(self, command, talk=None, is_last=False, **options):
        """Runs a program to its end; answers its status, negative for a signal. `talk` goes on meanwhile. With the success of
        the last one all is done."""
        with self.held():
            # It must be known before a signal may come, and begins with none held back.
            try:
                self.child = subprocess.Popen(command, preexec_fn=lambda: signal.pthread_sigmask(signal.SIG_UNBLOCK, NAMES), **options)
            except OSError as error:
                raise Refused(f"{command[0]}: {error.strerror}") from None
        try:
            if talk is not None:
                talk()
            status = self.child.wait()
            self.is_done = is_last and status == 0
            return status
        finally:
            self.child = None


class Relay:
    """Hands on what a run writes as it comes, but for the program's last line, which is kept to be told in words."""

    def __init__(self, target):
        self.target = target
        self.read_end, self.write_end = os.pipe()
        self.last = b""

    def go(self):
        os.close(self.write_end)
        try:
            while True:
                came = os.read(self.read_end, WHOLE_PIPE)
                if not came:
                    break
                self.hand_on(self.last + came)
        except OSError:
            # Nobody reads any more; the program finds that out where it writes next.
            self.last = b""
        finally:
            os.close(self.read_end)

    def hand_on(self, data):
        at = data.rfind(refusals.BEGINNING)
        at = at if at >= 0 and refusals.LINE.match(data[at:]) else len(data)
        self.last = data[at:]
        while data[:at]:
            done = os.write(self.target, data[:at])
            data, at = data[done:], at - done


def is_same(one, other):
    """Whether two descriptors are the same file, so that the order of what is written to them can be seen."""
    try:
        first, second = os.fstat(one), os.fstat(other)
    except OSError:
        return False
    return (first.st_dev, first.st_ino) == (second.st_dev, second.st_ino)


def shown_run(signals, command):
    """A run whose output and errors are shown as they come; answers its status and its last line, which is kept back."""
    relay = Relay(2)
    output = relay.write_end if is_same(1, 2) else None
    status = signals.call(command, relay.go, stdout=output, stderr=relay.write_end)
    return status, relay.last


class Prepared:
    """A folder whose listing was written, with what its words mean in it."""

    def __init__(self, folder, given, words, directory):
        user = listing.host_user(given.user)
        patterns = listing.Patterns(given.leave_out)
        data, self.left_out = listing.listing_of(folder, user, given.proc, patterns)
        self.words = words
        self.tree = os.path.join(directory, "tree")
        listing.write_new(self.tree, data)
        self.host = Host(folder, user, patterns)
        self.guest = Guest(self.host, words)
        self.is_foreseen = False

    def hints(self):
        """Lines on what can be foreseen of a run."""
        lines, self.is_foreseen = commands.hints(self.guest)
        return lines

    def told(self, line):
        """The sentence for the program's last line, None where it has none."""
        try:
            return refusals.told(line, self.words, self.guest, self.is_foreseen)
        except Exception as error:  # The sentence is a help beside the line, which is told in any case.
            return f"the program's own line tells why (a sentence for it failed: {error!r})"


@contextlib.contextmanager
def directory_beside(place):
    """A directory for listings, beside the place where a folder is to be, so that a rename can bring it there."""
    made = tempfile.mkdtemp(prefix=".proot-folder-", dir=os.path.dirname(place))
    try:
        yield made
    finally:
        remove(made)


def remove(path):
    """Removes a folder with all below it, also where its own modes forbid that, or where it is very deep."""
    for command in (["rm", "-rf", "--", path], ["chmod", "-R", "u+rwx", "--", path], ["rm", "-rf", "--", path]):
        if os.path.lexists(path):
            subprocess.run(command, stderr=subprocess.DEVNULL, start_new_session=True)
    return not os.path.lexists(path)


def make_folder(signals, left, new, is_last):
    """The folder of a listing, by the program of that name, which tells its refusals itself; whether it was made."""
    return signals.call([os.path.join(TOOLS, "folder-of-listing"), "--", left, new], is_last=is_last) == 0


def keep_listing(left, new):
    """Puts the listing of a run without a folder beside the folder's place, so that its outcome isn't lost."""
    directory = tempfile.mkdtemp(prefix=os.path.basename(new) + ".listing-", dir=os.path.dirname(new))
    return shutil.move(left, os.path.join(directory, "left"))


def say(program, text):
    put_error("".join(f"{program}: {line}\n" for line in text.split("\n")).encode("utf-8", "backslashreplace"))


def put_error(data):
    """Puts bytes to the standard error; where nobody reads them, the status tells enough."""
    with contextlib.suppress(OSError):
        while data:
            data = data[os.write(2, data):]


def hint_at_input(program):
    """Who types the input should know that it is read to its end first."""
    if sys.stdin is not None and sys.stdin.isatty() and sys.stderr.isatty():
        say(program, "the input is read to its end before the program starts: end it by Ctrl-D")
