"""Builds the module mmdb._mmdb with the library libmmdb.a inside it.

The library and its header are looked for in this order: below the folder that the variable MMDB_PREFIX names, as
include/mmdb.h and lib/libmmdb.a; where pkg-config finds mmdb; and in the checkout that this folder belongs to, whose
tools/install then installs the library for the build.
"""

from __future__ import annotations

import os
import shutil
import subprocess
import tempfile
from collections.abc import Iterator
from contextlib import contextmanager
from glob import glob

from setuptools import Extension, setup
from setuptools.command.build_ext import build_ext

HERE = os.path.dirname(os.path.abspath(__file__))
INSTALL = os.path.join(HERE, "..", "..", "tools", "install")


def told_by_pkg_config(variable: str) -> str | None:
    """Returns a variable of the package mmdb, or None if pkg-config does not know it."""
    if shutil.which("pkg-config") is None:
        return None
    command = ["pkg-config", f"--variable={variable}", "mmdb"]
    found = subprocess.run(command, capture_output=True, text=True, check=False)
    return found.stdout.strip() or None


@contextmanager
def installed() -> Iterator[tuple[str, str]]:
    """Yields the folders of the header and of the library."""
    prefix = os.environ.get("MMDB_PREFIX")
    include, library = told_by_pkg_config("includedir"), told_by_pkg_config("libdir")
    if prefix:
        yield os.path.join(prefix, "include"), os.path.join(prefix, "lib")
    elif include and library:
        yield include, library
    elif os.path.exists(INSTALL):
        with tempfile.TemporaryDirectory() as folder:
            subprocess.run(["bash", INSTALL, folder], check=True)
            yield os.path.join(folder, "include"), os.path.join(folder, "lib")
    else:
        raise SystemExit("libmmdb.a was not found: set MMDB_PREFIX to the folder that tools/install filled")


class BuildWithLibrary(build_ext):
    """Links the library into the module."""

    def build_extension(self, extension: Extension) -> None:
        with installed() as (include, library):
            archive = os.path.join(library, "libmmdb.a")
            if not os.path.exists(archive):
                raise SystemExit(f"{archive} was not found: set MMDB_PREFIX to the folder that tools/install filled")
            extension.include_dirs.append(include)
            extension.extra_objects.append(archive)
            super().build_extension(extension)


setup(
    cmdclass={"build_ext": BuildWithLibrary},
    options={"bdist_wheel": {"py_limited_api": "cp311"}},
    ext_modules=[
        Extension(
            "mmdb._mmdb",
            sources=sorted(glob("src/*.c")),
            depends=["src/client.h"],
            define_macros=[("Py_LIMITED_API", "0x030B0000")],
            py_limited_api=True,
            extra_compile_args=["-std=c11", "-fvisibility=hidden"],
            # The module shows its PyInit function and nothing else.
            extra_link_args=["-Wl,--exclude-libs,ALL"],
        )
    ],
)
