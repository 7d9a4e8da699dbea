"""Puts the library that bindings/build made, and what it was proved from, into the wheel."""

import json
import os
import shutil
from pathlib import Path

from setuptools import Distribution, setup
from setuptools.command.build_py import build_py

HERE = Path(__file__).resolve().parent


def library() -> Path:
    """Returns where the library is: the file that GOMZELAT_LIBRARY names, else that in bindings/out."""
    named = os.environ.get("GOMZELAT_LIBRARY")
    path = Path(named) if named else HERE.parent / "out" / "libgomzelat.so"
    if not path.exists():
        raise SystemExit(f"there is no {path}: run bindings/build, or name the library in GOMZELAT_LIBRARY")
    return path


class WithLibrary(build_py):
    def run(self) -> None:
        super().run()
        package = Path(self.build_lib) / "gomzelat"
        package.mkdir(parents=True, exist_ok=True)
        shutil.copyfile(library(), package / "libgomzelat.so")
        origin: dict[str, object] = {}
        exec((HERE / "src" / "gomzelat" / "origin.py").read_text(encoding="utf-8"), origin)
        told = origin["of_folder"](str(HERE))  # type: ignore[operator]
        (package / "built.json").write_text(json.dumps(told, indent=1) + "\n", encoding="utf-8")


class ForOneMachine(Distribution):
    """The wheel holds compiled code, so that its name has the platform, but none that depends on Python's version."""

    def has_ext_modules(self) -> bool:
        return True


def commands() -> dict[str, type]:
    try:
        from wheel.bdist_wheel import bdist_wheel
    except ImportError:
        return {"build_py": WithLibrary}

    class AnyPython(bdist_wheel):  # type: ignore[misc]
        def get_tag(self) -> tuple[str, str, str]:
            return "py3", "none", super().get_tag()[2]

    return {"build_py": WithLibrary, "bdist_wheel": AnyPython}


setup(distclass=ForOneMachine, cmdclass=commands())
