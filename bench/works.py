"""What more than one bench makes: calls on paths, forks, and trees with many files."""
from guest import HERE, START, code_of, elf_of

DEEP = "/a/b/c/d/e/f/g/h"
OPEN, STAT, ACCESS, PARENT = 56, 79, 48, 173
BUFFER = -1
ROOT = ["-r", "/g"]
BOUND = [*ROOT, "-b", "/data:/mnt"]
TWENTY = [*ROOT, *(word for k in range(20) for word in ("-b", f"/data:/m{k}"))]
FILE = b"a line of a file that nobody reads in this run\n".hex()

# O_WRONLY and O_CREAT
CREATE = 0o101

# the name, the call, its third argument, whether it opens a descriptor and whether it makes a file that is removed again, the path, the words
CALLS = [
    ("getppid", PARENT, 0, 0, 0, "/f", ROOT),
    ("openat and close, one deep", OPEN, 0, 1, 0, "/f", ROOT),
    ("openat and close, nine deep", OPEN, 0, 1, 0, f"{DEEP}/f", ROOT),
    ("newfstatat, nine deep", STAT, BUFFER, 0, 0, f"{DEEP}/f", ROOT),
    ("faccessat, nine deep", ACCESS, 4, 0, 0, f"{DEEP}/f", ROOT),
    ("openat and close, in a binding", OPEN, 0, 1, 0, "/mnt/f", BOUND),
    ("openat and close, 20 bindings", OPEN, 0, 1, 0, "/f", TWENTY),
    ("openat and close, in the last of 20", OPEN, 0, 1, 0, "/m19/f", TWENTY),
    ("a file made, closed and removed, nine deep", OPEN, CREATE, 1, 1, f"{DEEP}/new", ROOT),
]


def tree_of_calls():
    lines = ["user 1000 1000", "d 755 0 0 /", "d 755 0 0 /g", "x 755 0 0 /g/loop", "f 644 0 0 /g/f 00", "d 755 0 0 /g/mnt",
             "d 755 0 0 /data", "f 644 0 0 /data/f 00"]
    lines += [f"d 755 0 0 /g/m{k}" for k in range(20)]
    parts = DEEP.split("/")
    lines += [f"d 777 0 0 /g{'/'.join(parts[:k])}" for k in range(2, len(parts) + 1)]
    lines.append(f"f 644 0 0 /g{DEEP}/f 00")
    return "\n".join(lines) + "\n"


def guest_of_calls(folder, row, count):
    """The guest of a row, with `count` times 4,096 calls, and its words."""
    _, call, third, opens, removes, path, words = row
    source, elf = folder / "calls.s", folder / "calls.elf"
    source.write_text((HERE / "calls.s").read_text() + f'        .asciz "{path}"\n')
    elf.write_bytes(elf_of(code_of(source, folder, [f"COUNT={count}", f"CALL={call}", f"THIRD={third}", f"OPENS={opens}", f"REMOVES={removes}"])))
    # Each call is a turn.
    return elf, ["--turns=10000000", *words, "/loop"]


def guest_of_forks(folder, pages, count):
    """The guest that maps some pages and makes `count` children."""
    elf = folder / "forks.elf"
    elf.write_bytes(elf_of(code_of(HERE / "forks.s", folder, [f"PAGES={pages}", f"FORKS={count}"])))
    elf.chmod(0o755)
    return elf


def tree_of_files(files):
    """A root with a program, and beside it a directory with files, a hundred in each directory."""
    lines = [START + "d 755 0 0 /g", "x 755 0 0 /g/loop", "d 755 0 0 /g/mnt", "d 755 0 0 /data"]
    for k in range(files):
        if k % 100 == 0:
            lines.append(f"d 755 1000 1000 /data/d{k // 100}")
        lines.append(f"f 644 1000 1000 /data/d{k // 100}/f{k} {FILE}")
    return "\n".join(lines) + "\n"
