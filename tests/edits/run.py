#!/usr/bin/env python3
"""usage: tests/edits/run.py [--try [--ring NAME | --since COMMIT | CRATE | CRATE/EDIT ..] | CRATE ..]

Tells which edits can't be applied, of all crates or of those named, as tests/edits/apply; with --try, whether the
prover refuses those of the lists tests/edits/CRATE.edits, as tests/edits/run, which takes 10 to 20 seconds an
edit."""
import os
import sys


def main(words):
    if words[:1] in (["-h"], ["--help"]):
        print(__doc__)
        return 0
    script = "run" if words[:1] == ["--try"] else "apply"
    path = f"{os.path.dirname(os.path.abspath(__file__))}/{script}"
    os.execv(sys.executable, [sys.executable, path, *words[script == "run":]])


if __name__ == "__main__":
    sys.exit(main(sys.argv[1:]))
