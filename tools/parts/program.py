"""Where the program proot is."""
import os
import shutil

from parts import TOOLS, Refused

CRATE = os.path.join(os.path.dirname(TOOLS), "crates", "proot")
# What is built stays there; a program of PATH isn't taken, since it may be another one of this name.
PLACES = [os.path.join(CRATE, "out", "proot"), os.path.join(TOOLS, "proot")]
HOW_TO_GET = f"""In {CRATE}, `rt run` proves the program and builds it (over an hour from nothing), and it
stays there as out/proot, where this looks for it. Where you have one already, name it: PROOT=/path/to/proot"""


def find(named=None):
    """The program: the one that is named, by --proot or by PROOT, else one that stands beside the tools."""
    wanted = named or os.environ.get("PROOT")
    if wanted:
        found = shutil.which(wanted)
        if found is None:
            raise Refused(f"{wanted}: no such program; --proot or PROOT has to name one")
        return os.path.abspath(found)
    for place in PLACES:
        if os.access(place, os.X_OK) and os.path.isfile(place):
            return place
    raise Refused("there is no program proot, neither by PROOT nor as " + " or ".join(PLACES) + ".\n" + HOW_TO_GET)
