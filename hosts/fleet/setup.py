"""The version is the header's, as for every part of the project."""

import re
from pathlib import Path

from setuptools import setup

HEADER = Path(__file__).resolve().parents[2] / "include" / "yaslaurel.h"
setup(version=".".join(re.findall(r"^#define YASLAUREL_VERSION_(?:MAJOR|MINOR|PATCH) (\d+)u$", HEADER.read_text(), re.MULTILINE)))
