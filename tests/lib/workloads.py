"""The ten workloads of tests/peers/workloads: their names, sources and input."""
from run import TOP, text_of

WORK = f"{TOP}/tests/peers/workloads"
NAMES = ["loops", "sieve", "crc", "crcpage1", "echo", "chain", "calls", "muldiv", "copy", "stride"]
READERS = ("crc", "crcpage1", "echo")
BYTES = 4_000_000


def input_bytes():
    """The input of the workloads that read, as the module makes it for itself."""
    made, x = bytearray(), 1
    for _ in range(BYTES):
        x = (x * 1103515245 + 12345) % 2**32
        made.append(x >> 16 & 255)
    return bytes(made)


def source_of(name):
    """The source of a workload; that of crcpage1 is crc's with its table a page further on, where it meets no line of
    the code's."""
    text = text_of(f"{WORK}/{name.removesuffix('page1')}.s")
    return text.replace(".skip 1024", ".skip 5120").replace("524288", "528384") if name == "crcpage1" else text
