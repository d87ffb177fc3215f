#!/usr/bin/env python3
# SPDX-License-Identifier: LicenseRef-Wengeludo
"""Prints the manual page wengeludo(1): every command with its own first sentence, as the tool has them."""

from __future__ import annotations

from typing import Iterator, Tuple

import click

import wengeludo
from wengeludo import cli


def commands(group: click.Group, before: str = "") -> Iterator[Tuple[str, str]]:
    """The commands of a group and of those below it, each with its first sentence."""
    for name, command in sorted(group.commands.items()):
        if isinstance(command, click.Group):
            yield from commands(command, f"{before}{name} ")
        else:
            yield before + name, command.get_short_help_str(200)


def plain(text: str) -> str:
    """A text as troff prints it unchanged."""
    return text.replace("\\", "\\e").replace("-", "\\-").replace("'", "\\(aq")


def root() -> click.Group:
    """The tool's own group of commands."""
    return next(one for one in vars(cli).values() if isinstance(one, click.Group) and "sheet" in one.commands)


def main() -> None:
    """Prints the page."""
    print(f'.TH WENGELUDO 1 "" "wengeludo {wengeludo.__version__}"')
    print(".SH NAME\nwengeludo \\- balance sheets of steam and condensate from a pipe list")
    print(".SH SYNOPSIS\n.B wengeludo\n.I COMMAND\n[\\fIOPTIONS\\fR] [\\fIARGUMENTS\\fR]")
    print(".SH DESCRIPTION\nEach command tells its options and arguments with \\fB\\-\\-help\\fR.\n.SH COMMANDS")
    for name, sentence in commands(root()):
        print(f".TP\n.B {plain(name)}\n{plain(sentence)}")


if __name__ == "__main__":
    main()
