"""What the scripts know of the repository: its crates, their rings, what stands on what, and what changed since a
commit."""
import os
import re
import subprocess
import sys

# The memory that one check is reckoned to take.
CHECK_BYTES = 5 << 30
TOP = os.path.dirname(os.path.dirname(os.path.dirname(os.path.abspath(__file__))))
sys.path.insert(0, f"{TOP}/tools")
from rings import RINGS, rings_of


def crates():
    """Returns, for each crate of crates.txt, the crates of the repository that its line lists."""
    listed = {}
    with open(f"{TOP}/crates.txt", encoding="utf-8") as lines:
        for line in lines:
            name, colon, below = line.partition("#")[0].partition(":")
            if colon:
                listed[name.split()[0]] = below.split()
    return {name: [it for it in below if it in listed] for name, below in listed.items()}


def all_below(name, listed):
    """Returns the crates that the crate stands on, near and far."""
    found, left = set(), [name]
    while left:
        new = set(listed[left.pop()]) - found
        found |= new
        left += new
    return found


def rings():
    """Returns the ring of each crate."""
    return rings_of(crates())


def lines_of(name):
    """Returns the lines of the crate's sources, by which it is reckoned how long its proof takes."""
    count = 0
    for folder, _, files in os.walk(f"{TOP}/crates/{name}/src"):
        for it in files:
            with open(f"{folder}/{it}", "rb") as text:
                count += text.read().count(b"\n")
    return count


def lanes():
    """Returns how many checks the processors and the free memory take at a time."""
    with open("/proc/meminfo", encoding="ascii") as lines:
        free = next(int(it.split()[1]) * 1024 for it in lines if it.startswith("MemAvailable"))
    return max(1, min(len(os.sched_getaffinity(0)), free // CHECK_BYTES))


def git(*words):
    """Returns what git prints, or stops with what it says."""
    ran = subprocess.run(["git", "-C", TOP, *words], stdout=subprocess.PIPE, text=True)
    if ran.returncode:
        raise SystemExit(3)
    return ran.stdout


def changed_files(commit):
    """Returns the files that differ from the commit's, those that git doesn't track yet too."""
    tracked = git("diff", "--name-only", commit, "--")
    return (tracked + git("ls-files", "--others", "--exclude-standard")).split("\n")[:-1]


def changed_crates(commit):
    """Returns the crates with a file that differs from the commit's, their further edits counted as theirs."""
    files = changed_files(commit)
    return [it for it in crates() if any(file.startswith((f"crates/{it}/", f"tests/edits/{it}.")) for file in files)]


def outline(text):
    """Returns a source without its comments and the bodies of its functions, in the layout that rt fmt makes."""
    kept, end, is_function = [], None, False
    for line in text.split("\n"):
        if end is not None:
            end = None if line == end else end
            continue
        if not line.strip() or line.lstrip().startswith("//"):
            continue
        indent = line[: len(line) - len(line.lstrip())]
        is_function = bool(re.match(r"\s*(pub(\(\w+\))? )?(const )?(unsafe )?fn ", line)) or is_function
        if is_function and line.endswith("{") and line.strip() != "ensures {":
            kept.append(line.rstrip("{ "))
            end, is_function = indent + "}", False
            continue
        kept.append(line)
    return "\n".join(kept)


def text_at(commit, path):
    """Returns the text that a file had at a commit; none where it wasn't there."""
    words = ["git", "-C", TOP, "show", f"{commit}:{path}"]
    ran = subprocess.run(words, stdout=subprocess.PIPE, stderr=subprocess.DEVNULL, text=True)
    return ran.stdout if not ran.returncode else ""


def text_now(path):
    """Returns the text that a file has; none where it isn't there."""
    try:
        with open(f"{TOP}/{path}", encoding="utf-8") as it:
            return it.read()
    except FileNotFoundError:
        return ""


def changes_contracts(commit, name, files):
    """Returns whether what crates above see of this one may differ from the commit's: a definition, a lemma that they
    can cite, or its code beside the bodies of its functions. Where in doubt it says so."""
    for path in files:
        inside = path.removeprefix(f"crates/{name}/")
        if inside == path:
            continue
        if inside.startswith("specs/") or re.fullmatch(r"proofs/[^/]*\.antt", inside):
            return True
        if inside.startswith("src/") and outline(text_at(commit, path)) != outline(text_now(path)):
            return True
    return False


def to_check(commit):
    """Returns the crates that changed since the commit, and those above one whose contracts changed, lowest first."""
    files, changed, below = changed_files(commit), changed_crates(commit), crates()
    moved = {name for name in changed if changes_contracts(commit, name, files)}
    found = []
    for name in lowest_first(below):
        if any(it in moved for it in below[name]):
            moved.add(name)
        if name in moved or name in changed:
            found.append(name)
    return found


def lowest_first(below):
    """Returns the crates, each after those that it stands on."""
    order = []

    def visit(name):
        if name not in order:
            for it in below[name]:
                visit(it)
            order.append(name)

    for name in below:
        visit(name)
    return order
