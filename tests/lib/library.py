"""Has libgeyserpan stand for the suites that build hosts over it."""
import os

from run import TOP, run


def library(tally, prefix, work):
    """The folder below which header and library stand: PREFIX, where one is named, else one of the suite's own, which
    tools/release/library fills. None where that fails, which is counted."""
    if prefix:
        stands = all(os.path.exists(f"{prefix}/{it}") for it in ("include/geyserpan.h", "lib/libgeyserpan.a"))
        wanted = "wanted include/geyserpan.h and lib/libgeyserpan.a there, came none"
        return os.path.abspath(prefix) if tally.check(prefix, stands, wanted) else None
    ran = run([f"{TOP}/tools/release/library", f"{work}/library"], seconds=None)
    wanted = f"wanted that it lays all out, came {ran.said[-1500:]}"
    return f"{work}/library" if tally.check("tools/release/library", ran.status == 0, wanted) else None
