# SPDX-License-Identifier: LicenseRef-Wengeludo
"""Commands of the desk in a browser: serve, people."""

from __future__ import annotations

import sys
from pathlib import Path
from typing import Optional, Tuple

import click

from ..read.faults import Stopped
from ..write import terminal
from .options import FILE

ROLES = ("reader", "engineer", "admin")


@click.command()
@click.argument("book", default="site.book")
@click.option("--host", default="127.0.0.1", show_default=True, help="The address to serve; another than the machine's own needs --people.")
@click.option("--port", type=click.IntRange(1, 65535), default=8417, show_default=True)
@click.option("--people", "people_", type=FILE, help="The file of people who may come in; without it only the machine itself is served.")
@click.option("--name", "names", multiple=True, help="A name by which browsers reach the server behind TLS, as desk.example. May be given more than once.")
@click.option("--plain-http", is_flag=True, help="Serve passwords without TLS: only in a network that is trusted as a whole.")
@click.option("--runs", type=FILE, help="A folder whose pages of history runs are shown.")
@click.option("--threads", type=click.IntRange(1, 64), default=8, show_default=True)
def serve(book: str, host: str, port: int, people_: Optional[Path], names: Tuple[str, ...], plain_http: bool, runs: Optional[Path], threads: int) -> int:
    """The desk in a browser, over BOOK, which is made if there is none. Open the address that is printed."""
    try:
        import waitress

        from ..serve.app import application
        from ..serve.run import door_of, free
        from ..serve.shelf import Shelf
    except ImportError as error:
        raise Stopped(f"serving needs {error.name} (Debian: apt-get install python3-flask python3-waitress)") from None
    door = door_of(host, port, people_, names, plain_http)
    free(host, port)
    app = application(Shelf.opened(book, runs), door)
    shown = f"[{host}]" if ":" in host else host
    print(f"wengeludo: http://{shown}:{port}/" + (f"?key={door.key}" if door.key else ""), flush=True)
    waitress.serve(app, host=host, port=port, threads=threads, ident=None, channel_timeout=30, max_request_body_size=3_000_000, max_request_header_size=65_536)
    return 0


@click.group()
def people() -> None:
    """Who may come in when the desk is served to other machines."""


@people.command("add")
@click.argument("file", type=FILE)
@click.argument("name")
@click.option("--role", type=click.Choice(ROLES), default="reader", show_default=True)
@click.option("--offices", default="", help="The offices that they keep sheets for, as 0,3.")
def add(file: Path, name: str, role: str, offices: str) -> int:
    """Adds NAME to FILE, which is made if there is none; the password is asked for, or read as one line if nobody sits there."""
    from ..serve.people import People
    from ..serve.ways import offices_in

    People(file).add(name, _password(), role, offices_in(offices))
    terminal.lines([f"{name} may come in as {role}" + (f", offices {offices}" if offices else "")])
    return 0


@people.command("list")
@click.argument("file", type=FILE)
def listed(file: Path) -> int:
    """Lists everybody in FILE."""
    from ..serve.people import People

    if not file.is_file():
        raise Stopped(f"{file}: there is no such file of people")
    rows = [((name, role, offices, "no" if disabled else "yes"), "") for name, role, offices, disabled in People(file).all()]
    terminal.table(("name", "role", "offices", "may come in"), rows, ())
    return 0


def _password() -> str:
    if sys.stdin.isatty():
        return str(click.prompt("Password", hide_input=True, confirmation_prompt=True))
    return sys.stdin.readline().rstrip("\n")
