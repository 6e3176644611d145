"""Puts the shared library, which is made before, into the package as it is built."""

import os
import shutil
from pathlib import Path

from setuptools import Distribution, setup
from setuptools.command.build_py import build_py

NAME = "libnyolifuwe.so"
MADE = Path(os.environ.get("NYO_LIBRARY") or Path(__file__).resolve().parent.parent / "target" / "native" / NAME)


class BuildWithLibrary(build_py):
    """Copies the shared library beside the modules."""

    def run(self) -> None:
        super().run()
        if not MADE.exists():
            raise SystemExit(f"{MADE} is not there: run tools/shared-lib.sh first, or name a library with NYO_LIBRARY")
        shutil.copy(MADE, Path(self.build_lib) / "nyolifuwe" / NAME)


class ForThisMachine(Distribution):
    """A package that holds code of one machine."""

    def has_ext_modules(self) -> bool:
        return True


setup(cmdclass={"build_py": BuildWithLibrary}, distclass=ForThisMachine)
