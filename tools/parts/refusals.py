"""What the program's last line means, in a sentence that names the word, path or binding that it is about."""
import os
import re
import stat

from parts import words as words_of
from parts.commands import Search, in_folder
from parts.host import Lost, View, above, joined, parts_of, shown

LINE = re.compile(rb"proot: (?:usage: [ -~]*|word \d+: \w+|tree line \d+: \w+|too long: \w+|bind \d+: \w+|start: errno \d+|deadlock|"
                  rb"turns spent|read fault: \w+|write fault: \w+|no memory)\n\Z")
# Where a line may begin that the program isn't done with.
BEGINNING = b"proot: "
STATUSES = range(121, 126)
OF_PROOT = {"-q": "no emulator is needed", "-k": "the kernel's name is its own", "-R": "bind each directory by -b",
            "-S": "bind each directory by -b, and write -0", "-p": "there is no network", "-n": "there is no network",
            "-l": "links are made as they are", "-v": "the last line tells what went wrong",
            "-V": "the repository tells what is proved", "-h": "docs/proot.1 is the manual",
            "--kill-on-exit": "a run ends when all its processes have ended", "--version": "the repository tells what is proved",
            "--help": "proot-folder --help lists the words"}
OF_TOOLS = ("--proot", "--user", "--proc", "-x", "--leave-out", "--to", "--replace", "--again")
ERRNOS = {
    2: "it isn't there, seen from the root", 7: "the words or the environment are too long: up to 4,096 of each, and 131,072 bytes",
    8: "it is no program for this machine", 12: "it needs more memory than a process may have, 64 MiB",
    13: "the host user may not execute it, or may not search a directory on the way",
    20: "a part of its path is no directory", 36: "its path is too long",
    40: "too many links stand on the way, or it is a script of a script, five times and more",
}
TREE = {
    "Form": "it has not the fields of its kind", "Number": "a mode or an owner is no such number", "Name": "the path has a byte, a name or a length "
    "that a listing can't have", "NoParent": "no directory stands above it", "Twice": "it stands there twice",
    "NoTarget": "its other name is no file before it", "RootUser": "the host user is root; say which user by --user UID:GID",
    "NoRoot": "the listing is empty", "NoUser": "the listing has no user", "TwoElf": "a second name stands for the ELF file",
    "TooBig": "a file is longer than 16,777,216 bytes, or the tree is too large; -x leaves names out",
}
WHOLE = {
    "deadlock": "the run ended since each process that is left waits for another: look for a pipe's end that stays open",
    "turns spent": "the run was ended since its number of turns was made, and each call ends one: give more by --turns, up to 10000000 (without "
    "it 1000000). With --loose these are steps, and a call takes four or more",
    "no memory": "memory ran out: take things out of the folder by -x, or give more memory",
    "too long: Tree": "the listing of the folder has more than 67,108,864 bytes: leave large files out by -x",
    "too long: Elf": "the ELF file has more than 16,777,216 bytes",
    "too long: Input": "the input has more than 16,777,216 bytes, and it is read to its end before the program starts: let the program read a "
    "file of the folder, or give less",
    "read fault: Tree": "the listing of the folder can't be read",
    "read fault: Elf": "the ELF file can't be read",
    "read fault: Input": "the input can't be read: give another, as </dev/null",
    "write fault: Out": "the output can't be written: the disk is full, or what reads it has ended",
    "write fault: Err": "the standard error can't be written: the disk is full, or what reads it has ended",
    "write fault: Left": "the listing of what is left can't be written: look whether the disk is full",
}


def told(line, words, guest, is_foreseen):
    """The sentence of a last line; None where it is none of the program's. The guest is what the words make of the folder, and
    is_foreseen whether it was told before that the command can't be started."""
    if not LINE.match(line):
        return None
    text = line.decode("ascii")[len("proot: "):-1]
    kind, _, why = text.rpartition(": ")
    if text in WHOLE:
        return WHOLE[text]
    if kind.startswith("word "):
        return of_word(int(kind.split()[-1]), why, words)
    if kind.startswith("bind "):
        return of_binding(int(kind.split()[-1]), why, words, guest)
    if kind.startswith("tree line "):
        return f"line {kind.split()[-1]} of the folder's listing is refused: {TREE.get(why, why)}"
    if kind == "start" and is_foreseen:
        return "the command wasn't started, for the reason above"
    if kind == "start":
        return of_start(int(why.split()[-1]), words, guest)
    return "a word isn't UTF-8, so the program took none: " + " ".join(
        words_of.shown(word) for word in words.words if not word.isprintable())


def of_word(place, why, words):
    """A word that was refused. The option that it belongs to was read by then, so its name and value are known."""
    word = words.words[place - 1]
    name, value = words.options.get(place, (word, None))
    named = f"word {place}, {words_of.shown(word)}"
    if value is not None and "=" not in word:
        named = f"word {place}, {word} {words_of.shown(value)}"
    sentence = {
        "Unknown": lambda: unknown(word),
        "NoValue": lambda: no_value(word),
        "BadNumber": lambda: f"{words_of.shown(value or '')} is no number of those that {name} takes ({RANGES.get(name, 'in range')})",
        "BadSchedule": lambda: "the value isn't PICK*FUEL, parted by commas, up to 1,024 of them, with a PICK of 0 to 255 and a FUEL of 1 to 100000; "
        "quote the *",
        "BadBind": lambda: "the path before or behind the : is empty; write HOST:GUEST, or HOST alone",
        "BadEnv": lambda: "there is no = in it, or no name before the =; write --env=NAME=VALUE",
        "BadId": lambda: "the value isn't UID:GID with two numbers up to 4294967294",
        "Twice": lambda: f"this option was given before{first_place(place, words)}, and may be given once",
        "CalmAlone": lambda: "it needs --native, since only a run over mounts is judged",
        "CaseAlone": lambda: "beside --case nothing but --turns and --schedule may stand, and a case reads no folder: run proot itself for it",
        "LooseAlone": lambda: "beside --loose neither --native, nor --schedule, nor an identity (-0, -i) may stand",
        "ZeroByte": lambda: "it has a zero byte",
    }.get(why, lambda: why)
    return f"{named}: {sentence()}"


RANGES = {"--turns": "1 to 10000000", "--case": "0 to 65535"}


def unknown(word):
    """What may have been meant by an option that isn't there."""
    short, name = word[:2], word.partition("=")[0]
    why = OF_PROOT.get(name) or OF_PROOT.get(short if not word.startswith("--") else name)
    if why:
        return f"PRoot has this option, and this program has not: {why}"
    if name in OF_TOOLS:
        return f"{name} is an option of this tool, not of the program: write it before FOLDER"
    if name != word and words_of.VALUES.get(name) is None and name in words_of.VALUES:
        return f"{name} has no value here; write {name} alone"
    if name != word and name in words_of.VALUES:
        return f"the value of a short option is the next word: write {name} {words_of.shown(word[len(name) + 1:])}"
    if not word.startswith("--") and short in words_of.VALUES and word[2:]:
        rest = word[2:]
        apart = f"{short} -{rest}" if words_of.VALUES[short] is None else f"{short} {words_of.shown(rest)}"
        return f"short options aren't joined with what follows: write {apart}"
    return "there is no such option; proot-folder --help lists them"


def no_value(word):
    if word.startswith("--"):
        return f"its value stands behind a =, not in the next word: write {word}=VALUE"
    return f"it needs a value behind it: {words_of.spelled(word, words_of.VALUES.get(word, 'VALUE'))}"


def first_place(place, words):
    """Where an option was given first."""
    here = words_of.MAIN_NAME[words.options[place][0]] if place in words.options else None
    alike = {"-0": ("-0", "-i"), "-i": ("-0", "-i")}.get(here, (here,))
    for before in sorted(words.options):
        if before < place and words_of.MAIN_NAME[words.options[before][0]] in alike:
            return f" as word {before}, {words_of.shown(words.words[before - 1])}"
    return ""


def of_binding(index, why, words, guest):
    if index == 0:
        return of_root(why, words, guest)
    binding = words.bindings[index - 1]
    named = f"binding {index}, {words_of.shown(binding.word)}"
    host, location = shown(os.fsencode(binding.host)), shown(os.fsencode(binding.guest))
    if why == "NoSource":
        return f"{named}: {source_lost(guest, index, host)}"
    if why == "AtRoot":
        return f"{named}: nothing can be bound at /; -r {words_of.shown(binding.host)} makes it the root"
    if why == "Kind":
        return f"{named}: {kinds(guest, index, host, location)}"
    if why == "LinkOnTheWay":
        return f"{named}: {link_on_the_way(guest, index, location)}"
    return f"{named}: {location} is not there and can't be made{no_point(guest, index)}"


def of_root(why, words, guest):
    named = f"the root, -r {words_of.shown(words.root)}"
    if why == "RootNotDir":
        return f"{named}: it is no directory"
    return f"{named}: {source_lost(guest, 0, shown(os.fsencode(words.root)))}"


def source_lost(guest, index, host):
    """Why a path of the host tree isn't found, and where it may have been looked for."""
    lost = guest.lost.get(index)
    why = lost.why if lost else f"{host} isn't there, or {guest.host.who} can't reach it"
    elsewhere = ""
    if lost and lost.number == 2 and lost.text and os.path.lexists(lost.text):
        elsewhere = ", though there is one on your system: copy it into the folder"
    return f"{why} in the folder{elsewhere}"


def kinds(guest, index, host, location):
    """Which of the two is a directory."""
    try:
        _, status = View(guest.host).walk(os.fsencode(guest.words.bindings[index - 1].host))
        if stat.S_ISDIR(status.st_mode):
            return f"{host} is a directory and {location} is none; a directory can be bound over a directory alone"
    except Lost:
        pass
    return f"{location} is a directory and {host} is none; a directory can be covered by a directory alone"


def link_on_the_way(guest, index, location):
    """Which link, and what to write in its place."""
    parts = parts_of(guest.locations.get(index, b"/"))
    # Through the bindings that stand before it: all but this one.
    view = View(guest.host, [(at, source) for at, source in guest.view.places if at != joined(parts)])
    for end in range(1, len(parts) + 1):
        text = joined(parts[:end])
        status = view.look(text)
        if status is not None and stat.S_ISLNK(status.st_mode):
            leads = shown(guest.host.link(view.host_of(text)))
            return f"{shown(text)} is a link to {leads} inside another binding or at the end; write the path that it leads to"
    return f"a link stands on the way to {location}; write the path that it leads to"


def no_point(guest, index):
    """Why a mount point can't be made."""
    location = guest.locations.get(index)
    if location is None:
        lost = guest.lost.get(index)
        return f", since {lost.why}" if lost else ""
    view = View(guest.host, [(at, source) for at, source in guest.view.places if at != location])
    directory = above(location)
    while directory != b"/" and view.host.look(view.host_of(directory)) is None:
        directory = above(directory)
    status = view.look(directory)
    if status is None:
        return ""
    where = in_folder(view, directory)
    if not stat.S_ISDIR(status.st_mode):
        return f", since {where} is no directory"
    if not guest.host.may(status, 2) or not guest.host.may(status, 1):
        return f", since {guest.host.who} may not write in {where}, {guest.host.owned(status)}; make it in the folder, or let that user write"
    return "; make it in the folder"


def of_start(number, words, guest):
    """Why the command wasn't started."""
    command = words.command[0] if words.command else "/bin/sh, which runs where no command is given,"
    why = ERRNOS.get(number, f"error {number} of execve(2)")
    try:
        search = Search(guest)
        judged = search.judge(search.find(os.fsencode(words.command[0] if words.command else "/bin/sh"))[0])
        if judged is not None:
            why = f"{in_folder(guest.view, judged[0])} {judged[1].text}"
    except Lost as lost:
        if lost.number == number:
            why = f"{lost.why}{root_note(guest)}"
    return f"{command if not words.command else words_of.shown(command)} can't be started: {why}"


def root_note(guest):
    root = guest.sources.get(0, b"/")
    return "" if root == b"/" else f" under the root, which is {shown(root)} of the folder"
