"""What is tried without a browser: a page's data, and statuses and messages."""
import concurrent.futures
import os
import random
import subprocess

from data import LIMIT, Page, told_by
from pages import WINDOWS
from run import INSPECT, TOP, opened, put, run

BENCH = f"{TOP}/crates/sbx_bench/data"


def data(pages):
    """A page's data, read back, give the text of `inspect trace`; a page of the turns by default is small."""

    def compare(job):
        program, windows = job
        page = Page(program.page("--windows", str(windows), "--limit", str(LIMIT)))
        return program, windows, program.told(windows), list(page.told()), page

    jobs = [(program, windows) for program in [*pages.programs.values(), *pages.further] for windows in WINDOWS]
    with concurrent.futures.ThreadPoolExecutor(len(os.sched_getaffinity(0))) as pool:
        for program, windows, told, back, page in pool.map(compare, jobs):
            at = f"{program.name} on {windows} windows"
            pages.same(f"{at}: turns in the data", len(back), len(told))
            for wanted, got in zip(told, back):
                pages.same(f"{at}: read back", got, wanted)
            listing = {f"{address:08X}": text for address, text in page.code.items() if address < 0x80000}
            pages.same(f"{at}: the listing", listing, program.listing)
    for name in ("nested", "copy", "echo"):
        page = told_by("inspect", "page", f"{BENCH}/{name}.img", given=random.Random(3).randbytes(50_000))
        pages.check(f"{name}: {len(page)} bytes, {len(Page(page).turns)} turns",
                    len(page) < 1_600_000 and len(Page(page).turns) == 100_000)
    slots = pages.programs["slots"]
    for limit in (0, 1, 2, 17, 18, 19):
        pages.same(f"slots: a limit of {limit}", list(Page(slots.page("--limit", str(limit))).told()),
                   slots.told(8)[:limit])


def gives(pages, status, message, *line, given=subprocess.DEVNULL, out=subprocess.PIPE):
    """Looks whether a command has the status and the message: the usage text where none is given."""
    ran = run([INSPECT, "page", *line], given, stdout=out)
    told = ran.err.decode()
    as_wanted = told == message if message else told.startswith("Usage: inspect page")
    holds = ran.status == status and as_wanted and not ran.out
    pages.check(f"inspect page {' '.join(line)}", holds, f"wanted {status}, {message!r}, came {ran.status}, {told!r}")


def words(pages):
    """Statuses and messages are `inspect`'s."""
    slots, none, other = pages.programs["slots"], f"{pages.folder}/none.img", f"{pages.folder}/other.s"
    image = slots.image
    for path in (none, other):
        put(path, "no image")
    for line in ((), ("--help", image), (image, image), (image, "--limit"), ("--limit", "1", "--limit", "2", image)):
        gives(pages, 3, "", *line)
    for word, number, most in (
        ("--windows", "3", "4 to 32"),
        ("--windows", "33", "4 to 32"),
        ("--limit", "-1", "0 to 9999999999"),
        ("--limit", "10000000000", "0 to 9999999999"),
        ("--beside-windows", "3", "4 to 32"),
    ):
        gives(pages, 3, f"inspect: {word} wants a decimal number from {most}\n", word, number, image)
    gives(pages, 2, "image I2\n", none)
    gives(pages, 2, "image I2\n", "--beside-image", none, image)
    gives(pages, 2, "line 1: S1\n", "--source", other, image)
    source = pages.programs["fault"].source
    gives(pages, 2, f"inspect: {source}: the source is another image's\n", "--source", source, image)
    for line in (
        (f"{pages.folder}/missing",),
        ("--source", f"{pages.folder}/missing", image),
        ("--beside-input", f"{pages.folder}/missing", image),
        ("--beside-image", f"{pages.folder}/missing", image),
    ):
        gives(pages, 4, f"inspect: {pages.folder}/missing: no such file\n", *line)
    gives(pages, 4, f"inspect: {pages.folder}: is a directory\n", pages.folder)
    with opened(pages.folder) as at_folder:
        gives(pages, 4, "input\n", image, given=at_folder)
    with open("/dev/full", "wb") as full:
        gives(pages, 4, "output\n", image, out=full)
    with open(f"{pages.folder}/written", "wb") as unread:
        gives(pages, 4, "input\n", image, given=unread)
        gives(pages, 4, "input\n", "--beside-windows", "4", image, given=unread)
