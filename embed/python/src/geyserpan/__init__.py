"""Runs machine code that you don't trust inside your own process.

    import geyserpan

    image = geyserpan.Image(data, geyserpan.Terms(turns=100_000))  # verified here, once
    image.run(b"HAL").output                                       # b"IBM"
    image.matches(line)                                            # is the exit word 0?
    for output in image.map(lines, threads=4): ...                 # in order

    with image.session() as session:                               # a run in pieces
        session.feed(b"HA") + session.feed(b"L") + session.finish()

    geyserpan.filter(image, sys.stdin.buffer, sys.stdout.buffer)   # a run over streams

An image may be used by many threads at once. Runs are made without the GIL on the library's engine, or by an object of
native code where the image was given one, and Ctrl-C ends one within a second. An image pickles by its bytes and its
terms: a process that gets it verifies it once, however often it comes.
"""
from __future__ import annotations

import enum
import functools
import os
from collections import deque
from collections.abc import Callable, Iterable, Iterator
from concurrent.futures import Future, ThreadPoolExecutor
from dataclasses import astuple, dataclass
from itertools import islice
from typing import TYPE_CHECKING, BinaryIO, NoReturn

from . import _native

if TYPE_CHECKING:
    from _typeshed import ReadableBuffer as Buffer

__all__ = ["Denied", "Error", "Facts", "Image", "Lost", "NoObject", "OutputTooLong", "Refused", "Result", "Services",
           "Session", "Status", "Step", "Terms", "Test", "assemble", "check", "filter", "sha256", "version"]
__version__ = "0.1.0"


class Services(enum.IntFlag):
    """What a program may ask its host for."""

    EXIT = 1
    GET = 2
    PUT = 4
    ALL = 7


class Status(enum.IntEnum):
    """What a call of the library answers."""

    OK = 0
    NO_IMAGE = 1
    REFUSED = 2
    MEMORY = 3
    WINDOWS = 4
    SERVICES = 5
    TURNS = 6
    ROOM = 7
    ENDED = 8
    WANTS = 9
    FULL = 10
    PAUSED = 11
    HANDLE = 12
    SOURCE = 13
    OUTPUT = 14
    LOST = 15
    FILE = 16
    OBJECT = 17
    OBJECT_ABI = 18
    OBJECT_IMAGE = 19
    OBJECT_COUNTS = 20


class Test(enum.IntEnum):
    """By which test of the front end's a run ended."""

    NONE = 0
    INDEX = 1
    POINTER = 2
    DIVISOR = 3
    LOOPS = 4
    DEPTH = 5
    CALL = 9


class Error(Exception):
    """A status that isn't what was asked for: its text, the status, and the numbers that tell why."""

    def __init__(self, text: str, status: int, number: int = 0, function: int = 0, address: int = 0):
        super().__init__(text, status, number, function, address)
        self.status, self.number, self.function, self.address = Status(status), number, function, address

    def __str__(self) -> str:
        return str(self.args[0])


class Refused(Error, ValueError):
    """Bytes that are no image, an image that breaks a rule, or a source that has a fault: `number` is that of the
    fault, the rule or the cause, in `function` at `address`; of a source `address` is the line."""


class Denied(Error, ValueError):
    """An image that asks for more turns or services than the terms grant, or terms of no such count of windows."""


class OutputTooLong(Error):
    """A run that was stopped where its output came to what the terms grant."""


class NoObject(Error, ValueError):
    """A file that is no object of native code for this image."""


class Lost(Error):
    """A run that the library can't vouch for; never seen."""


@dataclass(frozen=True)
class Terms:
    """What is granted: turns, some 40 million a second on a board and four times as many here, bytes of output, and
    services; and on how many register windows turns are counted, 4 to 32."""

    turns: int = 1_000_000
    output: int = 65_536
    services: Services = Services.ALL
    windows: int = 8

    def __post_init__(self) -> None:
        for name, bits in (("turns", 64), ("output", 64), ("services", 32), ("windows", 32)):
            if not 0 <= getattr(self, name) < 1 << bits:
                raise ValueError(f"{name}: {getattr(self, name)} isn't 0 to 2^{bits} - 1")

    def _numbers(self) -> tuple[int, int, int, int]:
        return self.turns, self.output, int(self.services), self.windows


@dataclass(frozen=True)
class Facts:
    """What an image declares and is made of; `depth` is 0 before version 3."""

    budget: int
    services: Services
    version: int
    words: int
    data_bytes: int
    stack_pages: int
    functions: int
    depth: int


@dataclass(frozen=True)
class Result:
    """What a run gave: its output, its exit word, and its turns."""

    output: bytes
    exit: int
    turns: int

    @property
    def test(self) -> Test:
        """By which test of the front end's it ended; any program may end with such a word of its own."""
        return Test(_native.exit_kind(self.exit))

    @property
    def line(self) -> int:
        """The line of that test; 0 where it ended by none."""
        return self.exit % 0x1_0000 if self.test else 0


@dataclass(frozen=True)
class Step:
    """What a step did: why it ended, how many bytes of the piece it read, and what it put out."""

    status: Status
    read: int
    output: bytes


_KINDS: dict[int, type[Error]] = {Status.WINDOWS: Denied, Status.SERVICES: Denied, Status.TURNS: Denied,
                                  Status.OUTPUT: OutputTooLong, Status.LOST: Lost, Status.FILE: NoObject,
                                  Status.OBJECT: NoObject, Status.OBJECT_ABI: NoObject,
                                  Status.OBJECT_IMAGE: NoObject, Status.OBJECT_COUNTS: NoObject}


def _raise(failure: _native.Failure) -> NoReturn:
    """Raises the exception of a status."""
    raise _KINDS.get(failure.args[1], Refused)(*failure.args) from None


def _facts(told: tuple[int, int, int, int, int, int, int, int]) -> Facts:
    return Facts(told[0], Services(told[1]), *told[2:])


def check(data: Buffer) -> Facts:
    """The facts of an image that is accepted. Refused where it isn't."""
    try:
        return _facts(_native.check(data))
    except _native.Failure as failure:
        _raise(failure)


def assemble(source: str | Buffer) -> bytes:
    """The image that a source of the sandbox's language means. Refused where it has a fault."""
    try:
        return _native.assemble(source.encode() if isinstance(source, str) else source)
    except _native.Failure as failure:
        _raise(failure)


def sha256(data: Buffer) -> str:
    """The name of an image: the SHA-256 of its bytes, in hex."""
    return _native.sha256(data).hex()


def version() -> str:
    """The version of the library's sources."""
    return _native.version()


def _batches(items: Iterable[Buffer], size: int) -> Iterator[list[Buffer]]:
    rest = iter(items)
    while batch := list(islice(rest, size)):
        yield batch


class Image:
    """An image that was verified, and the terms that it was admitted on. Any thread may use it at any time."""

    __slots__ = ("__weakref__", "_native", "facts", "sha256", "terms")

    def __init__(self, data: Buffer, terms: Terms = Terms()):
        """Refused where the bytes are no image or it breaks a rule, Denied where it asks for more than the terms."""
        try:
            self._native = _native.Image(data, terms._numbers())
        except _native.Failure as failure:
            _raise(failure)
        self.terms = terms
        self.facts = _facts(self._native.facts)
        self.sha256 = sha256(self._native.data)

    def native(self, path: str | bytes | os.PathLike[str]) -> None:
        """Has the runs that are begun from now on go by the shared object that `native build` made of it: outputs and
        counts are the same, and a step may make more turns than it is allowed. NoObject where the file is another one.
        The object is run in this process: load what you built yourself. It doesn't travel with a pickle."""
        try:
            self._native.native(path)
        except _native.Failure as failure:
            _raise(failure)

    @property
    def data(self) -> bytes:
        """The bytes that it was made of."""
        return self._native.data

    def _run(self, data: Buffer, terms: Terms | None) -> tuple[bytes, int, int]:
        try:
            return self._native.run(data, None if terms is None else terms._numbers())
        except _native.Failure as failure:
            _raise(failure)

    def run(self, data: Buffer = b"", terms: Terms | None = None) -> Result:
        """Runs it to its end on an input; with terms on these in the place of its own, which then may deny it."""
        return Result(*self._run(data, terms))

    def matches(self, data: Buffer) -> bool:
        """Whether the exit word is 0."""
        return self._run(data, None)[1] == 0

    def map(self, items: Iterable[Buffer], threads: int = 1, batch: int = 64) -> Iterator[bytes]:
        """The outputs on the items, in order; in so many threads, each of so many items at a time."""
        run = self._run
        if threads <= 1:
            yield from (run(item, None)[0] for item in items)
            return

        def some(part: list[Buffer]) -> list[bytes]:
            return [run(item, None)[0] for item in part]

        with ThreadPoolExecutor(threads) as pool:
            waiting: deque[Future[list[bytes]]] = deque()
            for part in _batches(items, batch):
                waiting.append(pool.submit(some, part))
                if len(waiting) > 2 * threads:
                    yield from waiting.popleft().result()
            while waiting:
                yield from waiting.popleft().result()

    def session(self, terms: Terms | None = None) -> Session:
        """A run in pieces."""
        return Session(self, terms)

    def __repr__(self) -> str:
        return f"<geyserpan.Image {self.sha256[:12]}, {self.facts.budget} turns>"

    def __eq__(self, other: object) -> bool:
        return isinstance(other, Image) and self.data == other.data and self.terms == other.terms

    def __hash__(self) -> int:
        return hash((self.sha256, self.terms))

    def __reduce__(self) -> tuple[Callable[[bytes, Terms], Image], tuple[bytes, Terms]]:
        return _received, (self.data, self.terms)

    def __dask_tokenize__(self) -> tuple[object, ...]:
        return "geyserpan.Image", self.sha256, astuple(self.terms)


@functools.lru_cache(maxsize=256)
def _received(data: bytes, terms: Terms) -> Image:
    """The image of these bytes in this process, verified once."""
    return Image(data, terms)


class Session:
    """A run in pieces, of one thread at a time: a step beside another, or beside close, is a RuntimeError. `exit` is
    its exit word once it has ended, and None before; `turns` are those that it has made."""

    def __init__(self, image: Image, terms: Terms | None = None):
        self.exit: int | None = None
        self.turns = 0
        try:
            self._native = _native.Session(image._native, None if terms is None else terms._numbers())
        except _native.Failure as failure:
            _raise(failure)

    def step(self, piece: Buffer = b"", *, last: bool = False, turns: int = 1_000_000, room: int = 4096) -> Step:
        """Goes on for at most so many turns, reads of the piece, behind which there is no input where `last` is set,
        and puts out at most so many bytes. ENDED, WANTS, FULL, PAUSED, OUTPUT; MemoryError, behind which it goes on."""
        status, read, output, word, self.turns = self._native.step(turns, piece, last, room)
        if status == Status.MEMORY:
            raise MemoryError
        if status == Status.ENDED:
            self.exit = word
        return Step(Status(status), read, output)

    def _through(self, piece: Buffer, last: bool) -> bytes:
        """What it puts out until it has read the piece, or has ended."""
        made, view = [], memoryview(piece).cast("B")
        while self.exit is None:
            step = self.step(view, last=last, turns=20_000_000)
            made.append(step.output)
            view = view[step.read:]
            if step.status in (Status.OUTPUT, Status.LOST):
                self._deny(step.status)
            if step.status == Status.WANTS:
                break
        return b"".join(made)

    def _deny(self, status: Status) -> NoReturn:
        try:
            self._native.deny(status)
        except _native.Failure as failure:
            _raise(failure)
        raise AssertionError(status)

    def feed(self, piece: Buffer) -> bytes:
        """What it puts out until it has read the piece, or has ended. OutputTooLong where that is more than is
        granted; `step` gives the bytes that are."""
        return self._through(piece, False)

    def finish(self) -> bytes:
        """What it puts out once its input has ended."""
        return self._through(b"", True)

    def close(self) -> None:
        """Lets the run go."""
        self._native.close()

    def __enter__(self) -> Session:
        return self

    def __exit__(self, *_: object) -> None:
        self.close()


def filter(image: Image, reader: BinaryIO, writer: BinaryIO, terms: Terms | None = None) -> Result:
    """Runs an image over streams: reads as it asks, and writes what it puts out before it waits for more. The result's
    output is empty, since it was written."""
    with image.session(terms) as session:
        read = getattr(reader, "read1", reader.read)
        while session.exit is None:
            piece = read(65_536)
            writer.write(session.feed(piece) if piece else session.finish())
            writer.flush()
        return Result(b"", session.exit, session.turns)
