#!/usr/bin/env python3
"""Makes images of C: tools/cc/usage tells how it is called. As c++ it takes C++."""
import os
import sys

# What Python compiles of the scripts is kept beside the library, and not in the checkout; to compile it takes longer
# than all that the scripts do.
sys.dont_write_bytecode = False
sys.pycache_prefix = os.path.expanduser(os.environ.get("XDG_CACHE_HOME") or "~/.cache") + "/geyserpan/python"
TOP = os.path.dirname(os.path.realpath(__file__))
NAME = "c++" if os.path.basename(__file__) == "c++" else "cc"
sys.path.insert(0, f"{TOP}/tools/cc")


def main():
    try:
        import driver
    except ModuleNotFoundError:
        print(f"{NAME}: this is a copy of the script: make a link to the one of the checkout instead "
              f"(ln -s CHECKOUT/{NAME} {sys.argv[0]})", file=sys.stderr)
        return 125
    return driver.main(NAME, sys.argv[1:])


if __name__ == "__main__":
    sys.exit(main())
