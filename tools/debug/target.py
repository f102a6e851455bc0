"""The registers of the target, as gdb wants them described: its own of SPARC, then the turns done and the fault
status."""
COUNT = 74
TYPES = {"sp": "data_ptr", "fp": "data_ptr", "pc": "code_ptr", "npc": "code_ptr", "psr": "psr_flags"}
FLAGS = (("CWP", 0, 4, ' type="uint32"'), ("ET", 5, 5, ""), ("PS", 6, 6, ""), ("S", 7, 7, ""), ("C", 20, 20, ""),
         ("V", 21, 21, ""), ("Z", 22, 22, ""), ("N", 23, 23, ""))


def registers(names, first, kind="uint32", bits=32):
    """The elements of some registers, numbered from one on."""
    return "".join(f'<reg name="{name}" bitsize="{bits}" type="{TYPES.get(name, kind)}" regnum="{first + at}"/>'
                   for at, name in enumerate(names))


def description():
    """The target's description."""
    core = [f"{kind}{it}" for kind in "goli" for it in range(8)]
    core[14], core[30] = "sp", "fp"
    flags = "".join(f'<field name="{name}" start="{low}" end="{high}"{kind}/>' for name, low, high, kind in FLAGS)
    features = (
        ("org.gnu.gdb.sparc.cpu", registers(core, 0)),
        ("org.gnu.gdb.sparc.fpu", registers([f"f{it}" for it in range(32)], 32, "ieee_single")),
        ("org.gnu.gdb.sparc.cp0", f'<flags id="psr_flags" size="4">{flags}</flags>'
         + registers("y psr wim tbr pc npc fsr csr".split(), 64)),
        ("geyserpan.machine", registers(["turn"], 72, "uint64", 64) + registers(["status"], 73)))
    body = "".join(f'<feature name="{name}">{text}</feature>' for name, text in features)
    return ('<?xml version="1.0"?><!DOCTYPE target SYSTEM "gdb-target.dtd"><target><architecture>sparc</architecture>'
            f"{body}</target>").encode()
