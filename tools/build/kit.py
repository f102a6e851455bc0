# The kit on the PATH, for the scripts of this folder, and its `rt` as a module where that is made as they know it.
import importlib.machinery
import importlib.util
import inspect
import os
import shutil
import sys

sys.dont_write_bytecode = True
# What is called of a kit's `rt` to prove a crate as `rt ci` does, and with what: of the script, of its crates, and of
# what it shares with older ones.
CALLED = {"free": "()", "handles_of": "(root)", "need": "(crate)", "processors": "()", "stop": "(why)",
          "stop_on_words": "(crate)"}
OF_A_CRATE = {"below": "(self)", "link": "(self, made, program)", "makes_rlib": "(self)", "prove": "(self, *commands)",
              "words": "(self, flags, tests=False, keeps=True, as_source=False)"}
OF_RTLIB = {"guarded": "()", "help_of": "(verb)", "stop_on_links": "(folder)", "stop_on_text": "(crate, verb)"}


def path():
    """The path of the kit's `rt`; None where there is none on the PATH."""
    found = shutil.which("rt")
    return found and os.path.realpath(found)


def loaded(script):
    """The script at this path as a module; None where it isn't one of the kit's form."""
    if not os.path.isfile(os.path.join(os.path.dirname(script), "rtlib.py")):
        return None
    loader = importlib.machinery.SourceFileLoader("rt", script)
    made = importlib.util.module_from_spec(importlib.util.spec_from_loader("rt", loader))
    sys.modules["rt"] = made
    loader.exec_module(made)
    crate = getattr(getattr(made, "rtlib", None), "Crate", None)
    return made if hasattr(made, "main") and hasattr(crate, "stamp") and hasattr(crate, "call") else None


def has(holder, called):
    """Whether something has functions of these names with these parameters."""
    return all(callable(getattr(holder, name, None)) and str(inspect.signature(getattr(holder, name))) == parameters
               for name, parameters in called.items())


def by_statements():
    """The kit's `rt` as a module, where it proves crates over the statements of those below, in the way that the
    scripts here know; None elsewhere."""
    script = path()
    rt = script and loaded(script)
    if not rt or not has(rt, CALLED) or not has(rt.rtlib, OF_RTLIB):
        return None
    if not has(getattr(rt, "Crate", None), OF_A_CRATE) or not os.path.isfile(f"{rt.KIT}/WHAT"):
        return None
    return rt if "--statements" in rt.rtlib.help_of("build") else None
