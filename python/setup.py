"""Brings along the shared library that make builds, and leaves nothing behind in the source folder."""

from pathlib import Path
from tempfile import TemporaryDirectory

from setuptools import Distribution, setup
from setuptools.command.build_py import build_py

ROOT = Path(__file__).resolve().parent.parent
LIBRARY = ROOT / "target" / "staticlib" / "libquailribbon.so"


class BuildWithLibrary(build_py):
    def run(self):
        super().run()
        self.copy_file(str(LIBRARY), str(Path(self.build_lib) / "quailribbon"))


class Binary(Distribution):
    """A package that is made for one kind of machine, though setuptools compiles none of it."""

    def has_ext_modules(self):
        return True


if not LIBRARY.exists():
    raise SystemExit(f"{LIBRARY} is not there yet: run make in {ROOT}, which builds it, and try again")

with TemporaryDirectory() as scratch:
    setup(
        distclass=Binary,
        cmdclass={"build_py": BuildWithLibrary},
        options={"build": {"build_base": scratch}, "egg_info": {"egg_base": scratch}},
    )
