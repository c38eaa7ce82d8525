"""What pyproject.toml can't say: the wheel carries docs/PROTOCOL.md. Where the shared library is there, it also carries that, and is one of this
platform.

The library is the one that the environment's BPFAGENT_LIBRARY names, or that of `make lib`. If the variable is empty, none is carried.
"""
from __future__ import annotations

import os
import pathlib
import shutil

from setuptools import Distribution, setup
from setuptools.command.build_py import build_py

try:
    from setuptools.command.bdist_wheel import bdist_wheel
except ImportError:
    from wheel.bdist_wheel import bdist_wheel

SONAME = "libbpfagent.so.0"
ROOT = pathlib.Path(__file__).resolve().parents[1]
LIBRARY = pathlib.Path(os.environ.get("BPFAGENT_LIBRARY", ROOT / "out/lib" / SONAME))
# The package reads the commands of the protocol there.
PAGE = ROOT / "docs/PROTOCOL.md"


class WithLibrary(build_py):
    """Puts the page and the library beside the package's modules."""

    def run(self) -> None:
        super().run()
        package = pathlib.Path(self.build_lib) / "bpfagent"
        # An archive of this folder has it beside the modules.
        if PAGE.is_file():
            shutil.copyfile(PAGE, package / PAGE.name)
        if LIBRARY.is_file():
            folder = package / "lib"
            folder.mkdir(parents=True, exist_ok=True)
            shutil.copyfile(LIBRARY, folder / SONAME)


class Carrying(Distribution):
    """With the library its modules lie where those of one platform lie."""

    def has_ext_modules(self) -> bool:
        return LIBRARY.is_file()


class Wheel(bdist_wheel):
    """A wheel with the library is for this platform, and for each Python 3."""

    def get_tag(self) -> tuple[str, str, str]:
        python, abi, platform = super().get_tag()
        return (python, abi, platform) if self.root_is_pure else ("py3", "none", platform)


setup(cmdclass={"build_py": WithLibrary, "bdist_wheel": Wheel}, distclass=Carrying)
