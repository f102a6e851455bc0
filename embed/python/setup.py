"""The extension has the static library in it, so that the wheel needs nothing of the system's but the C library.
GEYSERPAN says below which folder `tools/release/library` laid header and archive out."""
import os

from setuptools import Extension, setup
from setuptools.command.build_ext import build_ext
from wheel.bdist_wheel import bdist_wheel

PREFIX = os.environ.get("GEYSERPAN", "/usr/local")


class StableWheel(bdist_wheel):
    """One wheel for each Python from 3.11 on."""

    def get_tag(self):
        return "cp311", "abi3", super().get_tag()[2]


class Built(build_ext):
    """The module, where the library is laid out."""

    def run(self):
        lacks = [it for it in ("include/geyserpan.h", "lib/libgeyserpan.a") if not os.path.isfile(f"{PREFIX}/{it}")]
        if lacks:
            raise SystemExit(f"{PREFIX}/{lacks[0]} isn't there: set GEYSERPAN to the folder that tools/release/library, "
                             "or a release's install, laid out")
        super().run()


setup(
    cmdclass={"bdist_wheel": StableWheel, "build_ext": Built},
    ext_modules=[Extension(
        "geyserpan._native",
        ["src/geyserpan/_native.c"],
        include_dirs=[f"{PREFIX}/include"],
        extra_objects=[f"{PREFIX}/lib/libgeyserpan.a"],
        define_macros=[("Py_LIMITED_API", "0x030B0000")],
        py_limited_api=True,
        extra_compile_args=["-std=c11", "-O2", "-Wall", "-Wextra"],
        extra_link_args=["-Wl,--exclude-libs,ALL", "-Wl,-s"],
    )],
)
