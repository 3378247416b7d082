#!/usr/bin/env python3
"""doctests.py: the examples in the package's documentation; every module and every public class, function and method has a text."""

import doctest
import importlib
import inspect
import pkgutil

import yaslaurel
from common import finish, note

modules = [yaslaurel, *(importlib.import_module(f"yaslaurel.{found.name}") for found in pkgutil.iter_modules(yaslaurel.__path__) if found.name != "_native")]
results = [doctest.testmod(module) for module in modules]
attempted = sum(result.attempted for result in results)
note(attempted > 15 and not any(result.failed for result in results), f"{attempted} examples of {len(modules)} modules")
silent = [module.__name__ for module in modules if not module.__doc__]
for name in yaslaurel.__all__:
    item = getattr(yaslaurel, name)
    if inspect.isclass(item) or inspect.isfunction(item):
        silent += [name] if not item.__doc__ else []
    if inspect.isclass(item):
        silent += [f"{name}.{method}" for method, value in vars(item).items() if not method.startswith("_") and inspect.isfunction(value) and not value.__doc__]
note(not silent, f"every public class, function and method has its text {silent or ''}")
finish()
