"""Puts out the lines of a file that an image matches, on a cluster of Dask: dask_map.py IMG FILE [SCHEDULER]

A line matches where the run on it ends with the exit word 0. SCHEDULER is the address of a cluster whose workers see
the file by the same name; without it there are two workers on this machine, whose process numbers standard error tells.

The image goes along with each task by its bytes, and each worker verifies it once: no worker believes another one's
verdict. A run is a function of image, input and terms: so Dask makes a task again that was lost with its worker, and
the answers stay the same. Each task reads its own part of the file, since inputs that were handed out by `scatter` would
go with the worker that has them.
"""
from __future__ import annotations

import os
import sys

from distributed import Client, LocalCluster

from geyserpan import Error, Image, Terms

# Bytes of the file that a task reads.
PART = 1 << 16
# What each run is granted: turns of a few milliseconds.
TERMS = Terms(turns=1_000_000)


def matching(start: int, path: str, image: Image) -> bytes:
    """The lines that begin in the part of the file from here on, and match."""
    kept = []
    with open(path, "rb") as file:
        file.seek(max(start - 1, 0))
        if start:
            file.readline()
        while file.tell() < start + PART and (line := file.readline()):
            if image.matches(line.rstrip(b"\n")):
                kept.append(line)
    return b"".join(kept)


def put_matching(client: Client, image: Image, path: str) -> None:
    """Puts the matching lines of the whole file out, in order, as the parts are done."""
    parts = range(0, os.path.getsize(path), PART)
    for future in client.map(matching, parts, path=os.path.abspath(path), image=image, pure=True):
        sys.stdout.buffer.write(future.result())
        sys.stdout.buffer.flush()


def main(image_path: str, path: str, scheduler: str | None = None) -> None:
    with open(image_path, "rb") as file:
        image = Image(file.read(), TERMS)
    if scheduler:
        with Client(scheduler) as client:
            put_matching(client, image, path)
        return
    with LocalCluster(n_workers=2, threads_per_worker=1, dashboard_address=None) as cluster, Client(cluster) as client:
        print("workers:", *client.run(os.getpid).values(), file=sys.stderr, flush=True)
        put_matching(client, image, path)


if __name__ == "__main__":
    if len(sys.argv) not in (3, 4):
        sys.exit("usage: dask_map.py IMG FILE [SCHEDULER]")
    try:
        main(*sys.argv[1:])
    except (Error, OSError) as error:
        sys.exit(f"dask_map: {error}")
