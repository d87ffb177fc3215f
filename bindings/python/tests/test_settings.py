# SPDX-License-Identifier: LicenseRef-Wengeludo
"""What the package gives, its constants and its defaults, module by module, as they were looked at and kept (settings.txt).

WENGELUDO_GOLDEN=write  writes them anew
"""

import dataclasses
import enum
import importlib
import inspect
import os
import pkgutil
from pathlib import Path

import wengeludo_balance

KEPT = Path(__file__).parent / "settings.txt"
PLAIN = (bool, int, float, str, bytes, tuple, frozenset, dict)


def shown(value):
    """A value as text, the same in every run."""
    if isinstance(value, dict):
        return "{" + ", ".join(f"{shown(key)}: {shown(one)}" for key, one in value.items()) + "}"
    if isinstance(value, (tuple, list)):
        return "(" + ", ".join(map(shown, value)) + ")"
    if isinstance(value, frozenset):
        return "{" + ", ".join(sorted(map(shown, value))) + "}"
    if isinstance(value, enum.Enum):
        return f"{type(value).__name__}.{value.name}"
    return repr(value) if isinstance(value, (*PLAIN, type(None))) else getattr(value, "__qualname__", type(value).__qualname__)


def told(module):
    """The constants of a module, and the defaults of what it defines."""
    for name, value in sorted(vars(module).items()):
        if name.startswith("__") or getattr(value, "__module__", module.__name__) != module.__name__ or "version" in name.lower():
            continue
        if inspect.isfunction(value) or inspect.isclass(value):
            yield from defaults(name, value)
        elif isinstance(value, PLAIN):
            yield f"{name} = {shown(value)}"


def defaults(name, one):
    if inspect.isclass(one):
        if dataclasses.is_dataclass(one):
            yield f"{name}: {'frozen' if one.__dataclass_params__.frozen else 'open'}"
        if issubclass(one, enum.Enum):
            yield f"{name}: {[(member.name, member.value) for member in one]}"
    try:
        left = {key: shown(what.default) for key, what in inspect.signature(one).parameters.items() if what.default is not inspect.Parameter.empty}
    except ValueError:
        return
    if left and not (inspect.isclass(one) and issubclass(one, (enum.Enum, Exception))):
        yield f"{name}({', '.join(f'{key}={text}' for key, text in left.items())})"


def test_constants_and_defaults():
    found = sorted(one.name for one in pkgutil.iter_modules(wengeludo_balance.__path__) if one.name not in ("_native", "_version"))
    text = "".join(f"# {name}\n" + "".join(f"{line}\n" for line in told(importlib.import_module(f"wengeludo_balance.{name}"))) for name in found)
    text += f"# what is given\n{sorted(wengeludo_balance.__all__)}\n"
    if os.environ.get("WENGELUDO_GOLDEN") == "write":
        KEPT.write_text(text, encoding="utf-8")
    assert text == KEPT.read_text(encoding="utf-8"), "if that is meant: WENGELUDO_GOLDEN=write"


def test_what_modules_name_is_there():
    for found in pkgutil.iter_modules(wengeludo_balance.__path__):
        module = importlib.import_module(f"wengeludo_balance.{found.name}")
        assert [name for name in getattr(module, "__all__", ()) if not hasattr(module, name)] == [], found.name


def test_all_that_is_given_is_there():
    space = {}
    exec("from wengeludo_balance import *", space)
    assert sorted(name for name in space if name != "__builtins__") == sorted(wengeludo_balance.__all__)
