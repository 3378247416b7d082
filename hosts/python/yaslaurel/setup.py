"""What pyproject.toml cannot say: the version is that of the C header, the extension is made by cffi, and one wheel serves CPython 3.9 and later."""

import os
import sys
from pathlib import Path

from setuptools import setup

HERE = Path(__file__).resolve().parent
sys.path.insert(0, str(HERE))
from declarations import HEADER, version  # noqa: E402

setup(
    version=version(Path(os.environ.get("YASLAUREL_LIB") or HERE / "native") / HEADER),
    cffi_modules=["build_ffi.py:ffi"],
    options={"bdist_wheel": {"py_limited_api": "cp39"}},
)
