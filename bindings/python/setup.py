"""Builds the extension of boddurci.py; pyproject.toml has the other settings. If the extension cannot be compiled, it is left out, and the
module uses ctypes. If the header is missing, or the package `wheel` is needed and missing, the build ends with a message."""

import importlib.util
import pathlib
import sys

from setuptools import Extension, setup

INCLUDE = pathlib.Path(__file__).resolve().parent.parent.parent / "include"
EXTENSION = Extension(
    "_boddurci", ["_boddurci.c"], include_dirs=[str(INCLUDE)], extra_compile_args=["-std=c11"], py_limited_api=True, optional=True
)


def makes_wheels():
    """Returns whether setuptools can make a wheel. Versions before 70.1 need the package `wheel` for this."""
    return any(importlib.util.find_spec(name) for name in ("wheel", "setuptools.command.bdist_wheel"))


if not (INCLUDE / "boddurci.h").exists():
    sys.exit(f"boddurci: {INCLUDE / 'boddurci.h'} is missing: install from a whole copy of the repository, by pip 21.3 or later")
if {"dist_info", "bdist_wheel"} & set(sys.argv) and not makes_wheels():
    sys.exit("boddurci: the Python package wheel is missing: install it, or leave out --no-build-isolation")

setup(ext_modules=[EXTENSION], options={"bdist_wheel": {"py_limited_api": "cp38"}})
