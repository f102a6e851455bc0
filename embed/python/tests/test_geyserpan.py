"""The package over the library: what it gives, what it refuses, threads, pickles, signals."""
import hashlib
import io
import os
import pathlib
import pickle
import signal
import threading
import time
from array import array
from collections.abc import Callable

import pytest

import geyserpan
from geyserpan import Denied, Image, NoObject, OutputTooLong, Refused, Services, Status, Terms


def test_runs(echo: Image) -> None:
    result = echo.run(b"abc")
    assert (result.output, result.exit, result.test, result.line) == (b"abc", 0, geyserpan.Test.NONE, 0)
    assert 0 < result.turns <= echo.facts.budget and echo.matches(b"") and geyserpan.version()


@pytest.mark.parametrize("kind", [bytes, bytearray, memoryview, lambda it: array("B", it)])
def test_takes_any_buffer(data: bytes, kind: Callable[[bytes], bytes]) -> None:
    image = Image(kind(data))
    assert image.run(kind(b"abc")).output == b"abc" and image.data == data
    with image.session() as session:
        assert session.feed(kind(b"ab")) + session.finish() == b"ab"


def test_text_is_no_buffer(echo: Image) -> None:
    with pytest.raises(TypeError):
        getattr(echo, "run")("abc")


def test_refuses(examples: pathlib.Path) -> None:
    with pytest.raises(Refused, match="image I1") as told:
        Image(b"")
    assert (told.value.status, told.value.number) == (Status.NO_IMAGE, 1)
    with pytest.raises(Refused, match="refused V14 in function 0 at 0004000C") as told:
        Image(geyserpan.assemble((examples / "refused/V14.s").read_text()))
    wanted = (Status.REFUSED, 14, 0, 0x4000C)
    assert (told.value.status, told.value.number, told.value.function, told.value.address) == wanted
    with pytest.raises(Refused, match="line 2: S1") as told:
        geyserpan.assemble("\nfrobnicate %o0\n")
    assert (told.value.status, told.value.address) == (Status.SOURCE, 2)


def test_denies_by_terms(data: bytes, echo: Image) -> None:
    with pytest.raises(Denied, match=f"asks for {echo.facts.budget:,} turns, 1,000 are granted") as told:
        Image(data, Terms(turns=1000))
    assert told.value.status == Status.TURNS
    few = Terms(services=Services.EXIT | Services.GET)
    calls: list[Callable[[], object]] = [lambda: Image(data, few), lambda: echo.run(b"", few),
                                         lambda: echo.session(few)]
    for denied in calls:
        with pytest.raises(Denied, match="asks for exit, get and put; granted: exit and get"):
            denied()
    with pytest.raises(Denied, match="no run on 3 windows"):
        Image(data, Terms(windows=3))


@pytest.mark.parametrize("name", ["turns", "output", "services", "windows"])
def test_terms_out_of_range_grant_nothing(name: str) -> None:
    for number in (-1, 1 << 64):
        with pytest.raises(ValueError):
            Terms(**{name: number})  # type: ignore[arg-type]


def test_terms_of_a_run(data: bytes, echo: Image) -> None:
    assert echo.run(b"ab", Terms(output=2)).output == b"ab"
    with pytest.raises(OutputTooLong, match="more than the 2 bytes"):
        echo.run(b"abc", Terms(output=2))
    assert echo.run(b"abc").output == b"abc"
    four = Image(data, Terms(windows=4)).run(b"abc")
    assert echo.run(b"abc", Terms(windows=4)) == four


def test_output_of_any_length(examples: pathlib.Path) -> None:
    image = Image((examples / "lower/lower.img").read_bytes(), Terms(turns=1 << 40, output=1 << 30))
    assert image.run(b"A" * 1_000_000).output == b"a" * 1_000_000


def test_session(echo: Image) -> None:
    with echo.session() as session:
        assert session.feed(b"ab") + session.feed(b"") + session.feed(b"c") == b"abc" and session.exit is None
        assert session.finish() == b"" and session.exit == 0 and session.feed(b"d") == b""
    with echo.session(Terms(output=2)) as session, pytest.raises(OutputTooLong, match="the 2 bytes"):
        session.feed(b"abc")


def test_steps(echo: Image) -> None:
    session, rounds, output, piece = echo.session(), 0, b"", b"abcdef"
    while session.exit is None:
        step = session.step(piece, last=True, turns=10, room=2)
        piece, output, rounds = piece[step.read:], output + step.output, rounds + 1
    assert output == b"abcdef" and rounds > 5 and session.turns == echo.run(b"abcdef").turns
    with pytest.raises(ValueError):
        session.step(room=-1)
    with pytest.raises(OverflowError):
        session.step(turns=-1)


def test_closed(echo: Image) -> None:
    session = echo.session()
    session.close()
    session.close()
    with pytest.raises(RuntimeError, match="closed"):
        session.feed(b"a")


def test_filter(echo: Image) -> None:
    text, out = os.urandom(1000), io.BytesIO()
    result = geyserpan.filter(echo, io.BytesIO(text), out)
    assert (out.getvalue(), result.exit, result.turns) == (text, 0, echo.run(text).turns)


def test_names(data: bytes, echo: Image) -> None:
    assert echo.sha256 == geyserpan.sha256(data) == hashlib.sha256(data).hexdigest()
    assert echo.sha256[:12] in repr(echo)
    twin = Image(data, Terms(turns=100_000))
    assert echo == twin and hash(echo) == hash(twin) and echo != Image(data) and len({echo, twin}) == 1


def test_pickles_by_its_bytes(data: bytes, echo: Image) -> None:
    twin = pickle.loads(pickle.dumps(echo))
    assert twin == echo and twin.run(b"q").output == b"q" and pickle.loads(pickle.dumps(echo)) is twin
    with pytest.raises(Refused):
        pickle.loads(pickle.dumps(echo).replace(data, b"x" + data[1:]))
    with pytest.raises(Refused) as told:
        Image(b"")
    same = pickle.loads(pickle.dumps(told.value))
    assert (type(same), str(same), same.status) == (Refused, str(told.value), Status.NO_IMAGE)


def test_test_that_ended() -> None:
    source = ".services exit\n.function main,leaf,0,0,10\n.fuel 10\n sethi 64,%o0\n or %o0,7,%o0\n ta 0\n"
    result = Image(geyserpan.assemble(source)).run()
    assert (result.exit, result.test, result.line) == (0x10007, geyserpan.Test.INDEX, 7)


def in_threads(count: int, work: Callable[[int], None]) -> None:
    """Work in threads at once; what one raises is raised."""
    wrong: list[BaseException] = []

    def guarded(number: int) -> None:
        try:
            work(number)
        except BaseException as error:  # raised in the caller's thread
            wrong.append(error)

    threads = [threading.Thread(target=guarded, args=(number,)) for number in range(count)]
    for thread in threads:
        thread.start()
    for thread in threads:
        thread.join()
    if wrong:
        raise wrong[0]


def test_threads_share_an_image(echo: Image) -> None:
    def work(number: int) -> None:
        given = bytes([65 + number]) * 50
        for _ in range(500):
            assert echo.run(given).output == given
    in_threads(8, work)


def test_an_image_goes_while_threads_run(data: bytes) -> None:
    def work(number: int) -> None:
        for _ in range(200):
            image = Image(data)
            session = image.session()
            del image
            assert session.feed(b"ab") == b"ab"
    in_threads(8, work)


def test_one_session_in_many_threads(busy: Image) -> None:
    """A step beside another, and close beside a step, are told, and do no harm."""
    session, told = busy.session(), []

    def work(number: int) -> None:
        for _ in range(50):
            try:
                session.step(turns=1_000_000) if number else session.close()
            except RuntimeError as error:
                told.append(str(error))
    in_threads(8, work)
    assert told and all("session" in it for it in told)


def test_a_buffer_that_changes(echo: Image) -> None:
    given = bytearray(b"a" * 1000)

    def work(number: int) -> None:
        for at in range(1000):
            if number:
                assert set(echo.run(given).output) <= set(b"ab")
            else:
                given[at] = ord("b")
    in_threads(4, work)


def test_gil_is_free_within_a_run(busy: Image) -> None:
    session, beats = busy.session(), 0
    thread = threading.Thread(target=lambda: session.step(turns=100_000_000))
    thread.start()
    while thread.is_alive():
        beats += 1
        time.sleep(0.001)
    assert beats > 10


def test_interrupt(busy: Image) -> None:
    threading.Timer(0.2, lambda: signal.raise_signal(signal.SIGINT)).start()
    begun = time.monotonic()
    with pytest.raises(KeyboardInterrupt):
        busy.run()
    assert time.monotonic() - begun < 5


def test_map_keeps_order(echo: Image) -> None:
    items = [str(number).encode() for number in range(1000)]
    assert list(echo.map(items)) == list(echo.map(items, threads=4)) == items


def is_native(image: Image) -> bool:
    """Whether its runs go by an object: a step of one turn is more than that."""
    with image.session() as session:
        session.step(b"abc", last=True, turns=1)
        return session.turns > 1


def test_goes_by_an_object(data: bytes, examples: pathlib.Path) -> None:
    path = os.environ.get("GEYSERPAN_OBJECT")
    if not path:
        pytest.skip("GEYSERPAN_OBJECT isn't set")
    image, plain = Image(data), Image(data)
    before = image.session()
    assert image.run(b"x").output == b"x" and not is_native(image)
    image.native(pathlib.Path(path))
    assert is_native(image) and not is_native(plain) and image == plain
    before.step(b"abc", last=True, turns=1)
    assert before.turns <= 1
    assert image.run(data) == plain.run(data) and list(image.map([b"a", b"b"], threads=2)) == [b"a", b"b"]
    for other, status in (("/nowhere", Status.FILE), ("/", Status.OBJECT)):
        with pytest.raises(NoObject) as told:
            image.native(other)
        assert told.value.status == status and is_native(image)
    with pytest.raises(NoObject, match="another image"):
        Image((examples / "hello/hello.img").read_bytes()).native(path)
    with pytest.raises(ValueError):
        image.native("a\0b")
    assert not is_native(pickle.loads(pickle.dumps(image)))
