"""The words of the program proot: its options, for help, and what they ask for, for sentences about a run."""
import shlex
from dataclasses import dataclass, field

# The names of each option, its value, and what it does in a line.
OPTIONS = [
    (("-r", "--rootfs"), "PATH", "the directory of FOLDER that is the program's /; without it FOLDER itself"),
    (("-b", "--bind", "-m", "--mount"), "HOST[:GUEST[!]]", "HOST of FOLDER is seen as GUEST; may be given many times"),
    (("-w", "--pwd", "--cwd"), "PATH", "the first working directory, seen from the root"),
    (("-0", "--root-id"), None, "the program believes to be root"),
    (("-i", "--change-id"), "UID:GID", "the program believes to be this user and group"),
    (("--env",), "NAME=VALUE", "a variable of the environment, which has no others; may be given many times"),
    (("--turns",), "N", "at most N turns are made, up to 10000000; without it 1000000. Each call ends a turn"),
    (("--schedule",), "'PICK*FUEL,..'", "who runs when, and for how many instructions"),
    (("--loose",), "'PICK*FUEL,..'", "by single steps, which come apart as beneath a real tracer; tells whether the run was quiet"),
    (("--native",), None, "over mounts, without a tracer"),
    (("--calm",), None, "tell whether the run was calm; it needs --native"),
]
LAST_OPTION = (("--case",), "N", "a generated case, without TREE: for the program itself, not for a folder")
VALUES = {name: value for names, value, _ in OPTIONS + [LAST_OPTION] for name in names}
MAIN_NAME = {name: names[0] for names, _, _ in OPTIONS + [LAST_OPTION] for name in names}


def help_text():
    """The options of the program as a list for --help."""
    lines = ["words of proot, behind FOLDER (the value of a short option is the next word, that of a long one stands behind a =):"]
    for names, value, what in OPTIONS:
        shown = ", ".join(spelled(name, value) for name in names[:2])
        lines.append(f"  {shown:<44} {what}" if len(shown) < 44 else f"  {shown}\n  {'':<44} {what}")
    lines.append("and then the command, from the first word without a - in front; without one /bin/sh runs. docs/proot.1 has more.")
    return "\n".join(lines)


def spelled(name, value):
    if value is None:
        return name
    return f"{name}={value}" if name.startswith("--") else f"{name} {value}"


@dataclass
class Binding:
    """A binding as it was written: the whole value, and its parts."""

    word: str
    host: str
    guest: str
    keeps_link: bool


@dataclass
class Words:
    """What some words ask for, as far as they can be read; the program itself judges them."""

    words: list
    root: str = "/"
    bindings: list = field(default_factory=list)
    directory: str = "/"
    has_directory: bool = False
    variables: dict = field(default_factory=dict)
    case: bool = False
    # The option and the value at the place of each word that begins an option, counted from 1.
    options: dict = field(default_factory=dict)
    command: list = field(default_factory=list)

    def set(self, name, value):
        if name == "-r":
            self.root = value
        elif name == "-b":
            self.bindings.append(binding_of(value))
        elif name == "-w":
            self.directory, self.has_directory = value, True
        elif name == "--env":
            key, _, text = value.partition("=")
            self.variables[key] = text
        elif name == "--case":
            self.case = True


def binding_of(word):
    """The parts of a binding; a ! at the end belongs to both paths where only one is written."""
    keeps_link = word.endswith("!")
    bare = word[:-1] if keeps_link else word
    host, colon, guest = bare.partition(":")
    return Binding(word, host, guest if colon else host, keeps_link)


def read(words):
    """Reads words up to the command, or up to the first one that is no option."""
    found = Words(list(words))
    place = 0
    while place < len(words):
        word = words[place]
        if not word.startswith("-"):
            found.command = list(words[place:])
            break
        name, equals, value = word.partition("=")
        if name not in VALUES or bool(equals) != (name.startswith("--") and VALUES[name] is not None):
            break
        is_short = VALUES[name] is not None and not equals
        if is_short and place + 1 == len(words):
            break
        taken = words[place + 1] if is_short else value if equals else None
        found.options[place + 1] = (name, taken)
        found.set(MAIN_NAME[name], taken)
        place += 2 if is_short else 1
    return found


def shown(word):
    """A word as a shell reads it."""
    return shlex.quote(word)
