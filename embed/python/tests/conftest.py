"""The examples of the repository, below GEYSERPAN_EXAMPLES."""
import os
import pathlib

import pytest

import geyserpan

COUNTDOWN = """.services exit
.function main,leaf,0,0,6442447877
.fuel 6442447877
 sethi 2097151,%o1
.block loop
.cell %o1,1,2147482624,0
.fuel 4
.term %o1,3
 deccc %o1
 bne loop
 nop
.block done
.fuel 4
 mov 0,%o0
 ta 0
"""


@pytest.fixture(scope="session")
def examples() -> pathlib.Path:
    path = os.environ.get("GEYSERPAN_EXAMPLES")
    if not path:
        pytest.skip("GEYSERPAN_EXAMPLES isn't set")
    return pathlib.Path(path)


@pytest.fixture(scope="session")
def data(examples: pathlib.Path) -> bytes:
    """An image that hands on its input."""
    return (examples / "echo/echo.img").read_bytes()


@pytest.fixture(scope="session")
def echo(data: bytes) -> geyserpan.Image:
    return geyserpan.Image(data, geyserpan.Terms(turns=100_000))


@pytest.fixture(scope="session")
def busy() -> geyserpan.Image:
    """An image that counts down from 2^31 - 1,024, which takes half a minute or so, and puts nothing out."""
    return geyserpan.Image(geyserpan.assemble(COUNTDOWN), geyserpan.Terms(turns=1 << 40))
