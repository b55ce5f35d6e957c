"""Puts the released library into the package, and names the machines that it runs on in the name of the wheel."""

import shutil
from pathlib import Path

from setuptools import setup
from setuptools.command.build_py import build_py

try:
    from setuptools.command.bdist_wheel import bdist_wheel
except ImportError:
    from wheel.bdist_wheel import bdist_wheel

LIBRARY = Path(__file__).resolve().parent.parent / "dist" / "libshex.so"


class BuildWithLibrary(build_py):
    """Copies dist/libshex.so beside the modules."""

    def run(self):
        super().run()
        shutil.copy(LIBRARY, Path(self.build_lib) / "shex_proved")


class WheelForLinux(bdist_wheel):
    """Is for any Python 3 on Linux for x86-64."""

    def finalize_options(self):
        super().finalize_options()
        self.root_is_pure = False

    def get_tag(self):
        return "py3", "none", "manylinux_2_17_x86_64"


setup(cmdclass={"build_py": BuildWithLibrary, "bdist_wheel": WheelForLinux})
