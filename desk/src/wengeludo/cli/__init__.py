# SPDX-License-Identifier: LicenseRef-Wengeludo
"""The command line."""

from __future__ import annotations

import os
import sqlite3
import sys
from contextlib import redirect_stdout
from pathlib import Path
from typing import Any, Mapping, Optional, Sequence, TextIO, Tuple

import click

import wengeludo_balance as engine

from .. import __version__
from ..keep.store import title_of
from ..read.faults import Faulty, Stopped
from ..read.numbers import UNSURE
from . import books, files, histories, kept, meters, served, sheets
from .options import REFUSED

HINTS = {  # what the command line has for a fault
    UNSURE: "--decimal point or --decimal comma says which it is", "unit would do": "--unit sets the unit", "or a floor below": "--floor sets a floor for the whole list",
}
SUBJECTS = ("list", "plant", "book", "folder")  # of commands: what their errors are about


@click.group(context_settings={"help_option_names": ["-h", "--help"]})
@click.version_option(__version__, prog_name="wengeludo")
def cli() -> None:
    """Balance sheets of steam and condensate from a pipe list (CSV or XLSX).

    Exit status: 0 done, 1 refused (faults in the list, the engine refuses, or a sheet that is not judged), 2 wrong use, 3 a sheet that
    fails its test, or a finding of a history.
    """


def _about(command: click.Command) -> click.Command:
    """The command; what ends it names the file that it is about."""
    for inner in getattr(command, "commands", {}).values():
        _about(inner)
    plain = command.invoke

    def invoke(context: click.Context) -> Any:
        try:
            return plain(context)
        except Faulty:
            raise
        except (Stopped, engine.Refusal, sqlite3.Error, MemoryError, RecursionError) as error:
            raise Stopped(_named(_told(error), context.params)) from None

    command.invoke = invoke  # type: ignore[method-assign]
    return command


def _named(told: str, words: Mapping[str, Any]) -> str:
    """A message with the file that it is about before it, if it names none of the command's files itself."""
    files = [str(one) for value in words.values() for one in (value if isinstance(value, tuple) else (value,)) if isinstance(one, Path)]
    subject = next((title_of(words[name]) for name in SUBJECTS if words.get(name)), "")
    return told if not subject or any(file in told for file in (subject, *files)) else f"{subject}: {told}"


def _told(error: BaseException) -> str:
    """What is told of an error."""
    if isinstance(error, engine.Refusal):
        return f"the engine refuses: {error.text} ({error.number})"
    if isinstance(error, sqlite3.Error):
        return f"the book cannot be used: {error}"
    if isinstance(error, (MemoryError, RecursionError)):
        return f"it is more than this machine can hold ({type(error).__name__})"
    return str(error)


for command in (
    sheets.sheet, sheets.why_, sheets.suspects_, meters.buy, meters.layouts, meters.bill, kept.keep, kept.open_, kept.check, files.pack,
    files.unpack, kept.batch, books.book, histories.history, histories.histories, served.serve, served.people,
):
    cli.add_command(_about(command))


class Patient:
    """Standard output whose reader may have gone: what is then written is dropped, and the command goes on to its end."""

    def __init__(self, stream: TextIO) -> None:
        self._stream = stream

    def __getattr__(self, name: str) -> Any:
        return getattr(self._stream, name)

    def write(self, text: str) -> int:
        try:
            return self._stream.write(text)
        except BrokenPipeError:
            self._drop()
            return len(text)

    def flush(self) -> None:
        try:
            self._stream.flush()
        except BrokenPipeError:
            self._drop()

    def _drop(self) -> None:
        os.dup2(os.open(os.devnull, os.O_WRONLY), self._stream.fileno())


def main(arguments: Optional[Sequence[str]] = None) -> int:
    """Runs the command line; every end is a status and a line, none a traceback."""
    for stream in (sys.stdout, sys.stderr):
        if hasattr(stream, "reconfigure"):
            stream.reconfigure(errors="replace")
    with redirect_stdout(Patient(sys.stdout)):  # type: ignore[type-var]
        status, told = _run(arguments)
        sys.stdout.flush()
    if told:
        print(told, file=sys.stderr)
    return status


def _run(arguments: Optional[Sequence[str]]) -> Tuple[int, str]:
    """The status of a command, and what is to be told of its end."""
    try:
        return cli.main(args=arguments, prog_name="wengeludo", standalone_mode=False) or 0, ""
    except click.exceptions.Abort:
        return 130, "stopped"
    except click.ClickException as error:
        error.show()
        return error.exit_code, ""
    except Faulty as error:
        return REFUSED, "\n".join([str(error), *(hint for words, hint in HINTS.items() if any(words in fault.wanted for fault in error.faults))])
    except Stopped as error:
        return REFUSED, str(error)
    except OSError as error:
        return REFUSED, f"{error.filename or ''}: {error.strerror or error}".lstrip(": ")
    except Exception as error:  # the last resort: a fault of this program, told in a line
        if os.environ.get("WENGELUDO_TRACE"):
            raise
        return REFUSED, f"a fault of this program, please report it: {type(error).__name__}: {error} (WENGELUDO_TRACE=1 shows where)"
