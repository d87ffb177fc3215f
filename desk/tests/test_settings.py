# SPDX-License-Identifier: LicenseRef-Wengeludo
"""Limits, words and what is left unsaid, module by module: every constant and every default of the desk, as they were looked at and kept.

A constant that is changed must be changed here too: a slip is seen, whether or not a page or a table shows it.
WENGELUDO_GOLDEN=write  writes them anew
"""

import dataclasses
import enum
import importlib
import inspect
import pkgutil
import re
from fractions import Fraction

from test_golden import GOLDEN, same

import wengeludo

PLAIN = (bool, int, float, str, bytes, Fraction, type(None))


def shown(value):
    """A value as text; sets in order, and nothing that another run or another Python says otherwise."""
    if isinstance(value, re.Pattern):
        return f"{value.pattern!r} {value.flags}"
    if isinstance(value, (set, frozenset)):
        return "{" + ", ".join(sorted(map(shown, value))) + "}"
    if isinstance(value, dict):
        return "{" + ", ".join(f"{shown(key)}: {shown(one)}" for key, one in value.items()) + "}"
    if isinstance(value, (tuple, list)):
        return "(" + ", ".join(map(shown, value)) + ")"
    if isinstance(value, enum.Enum):
        return f"{type(value).__name__}.{value.name}"
    if isinstance(value, PLAIN):
        return repr(value)
    return getattr(value, "__qualname__", type(value).__qualname__)


def told(module):
    """The constants of a module, and the defaults of what it defines."""
    for name, value in sorted(vars(module).items()):
        own = getattr(value, "__module__", module.__name__) == module.__name__
        if name.startswith("__") or inspect.ismodule(value) or not own:
            continue
        if inspect.isfunction(value):
            yield from defaults(name, value)
        elif inspect.isclass(value):
            yield from of_class(name, value)
        elif isinstance(value, (*PLAIN, re.Pattern, set, frozenset, dict, tuple, list)):
            yield f"{name} = {shown(value)}"


def defaults(name, function):
    left = {one: shown(what.default) for one, what in inspect.signature(function).parameters.items() if what.default is not inspect.Parameter.empty}
    if left:
        yield f"{name}({', '.join(f'{one}={text}' for one, text in left.items())})"


def of_class(name, kind):
    if dataclasses.is_dataclass(kind):
        kept = {one.name: shown(one.default) for one in dataclasses.fields(kind) if one.default is not dataclasses.MISSING}
        yield f"{name}: {'frozen' if kind.__dataclass_params__.frozen else 'open'}, compared {kind.__dataclass_params__.eq} {kept}"
    for one, value in sorted(vars(kind).items()):
        if inspect.isfunction(value) and (one == "__init__" or not one.startswith("__")) and not (dataclasses.is_dataclass(kind) and one == "__init__"):
            yield from defaults(f"{name}.{one}", value)
        elif not one.startswith("_") and isinstance(value, (int, float, str, tuple)):
            yield f"{name}.{one} = {shown(value)}"


def part(name):
    """What a module tells; as it was kept if a package that it needs is not on this machine."""
    try:
        return f"# {name}\n" + "".join(f"{line}\n" for line in told(importlib.import_module(name)))
    except ImportError:
        return re.search(rf"^# {re.escape(name)}\n(?:[^#].*\n)*", (GOLDEN / "settings.txt").read_text(encoding="utf-8"), re.M)[0]


def test_constants_and_defaults():
    found = sorted(one.name for one in pkgutil.walk_packages(wengeludo.__path__, "wengeludo.") if not one.name.endswith("__main__"))
    same("settings.txt", "".join(map(part, found)))
