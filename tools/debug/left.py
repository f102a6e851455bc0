"""What ./cc leaves beside an image: its map, and its ELF file for gdb."""
import shutil
import subprocess

import linked
from loaded import Loaded

SECONDS = 120
GDB_FAULT = "gdb itself ends by a fault on what the compiler tells of them"


def is_read(path):
    """Whether gdb reads an ELF file whole, where gdb is there, and doesn't itself end by a fault."""
    gdb = shutil.which("gdb-multiarch") or shutil.which("gdb")
    if not gdb:
        return True
    words = [gdb, "-q", "-nx", "-batch", "-ex", "maint expand-symtabs", path]
    try:
        ran = subprocess.run(words, stdin=subprocess.DEVNULL, stdout=subprocess.PIPE, stderr=subprocess.STDOUT,
                             timeout=SECONDS, check=False)
    except subprocess.TimeoutExpired:
        return True
    return ran.returncode >= 0 and b"Fatal signal" not in ran.stdout


def leave(build, map_path, elf_path):
    """Writes the map of an image that was built, and its ELF file where a path is given; returns why that has no
    variables, if it hasn't."""
    loaded, why = Loaded(build.image), None
    with open(map_path, "w", encoding="utf-8", errors="surrogateescape") as file:
        file.write(build.mapped.text(loaded.image))
    if elf_path:
        with open(build.source, encoding="utf-8", errors="surrogateescape") as file:
            source = file.read()
        told, folder = build.with_variables()

        def write(told):
            data, why = linked.debug_file(loaded, source, build.mapped, build.origins, folder, (build.program, told))
            with open(elf_path, "wb") as file:
                file.write(data)
            return why
        why = write(told)
        if not why and not is_read(elf_path):
            write({})
            why = GDB_FAULT
    return why
