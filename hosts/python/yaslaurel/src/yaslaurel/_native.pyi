# The extension that cffi makes: the names are those of the C header.
from typing import Any

ffi: Any
lib: Any
