# SPDX-License-Identifier: LicenseRef-Wengeludo
"""The server: one command, one address printed, open it, done."""

from __future__ import annotations

import fcntl
import ipaddress
import os
import secrets
import socket
from pathlib import Path
from typing import Optional, Tuple

from ..read.faults import Stopped
from .door import Door
from .people import People

SHORTEST_KEY = 20


def names_of(host: str, port: int, names: Tuple[str, ...]) -> Tuple[str, ...]:
    """The names that the server answers to."""
    own = {host, "localhost", "127.0.0.1"} if ipaddress.ip_address(host).is_loopback else {host}
    shown = {f"[{name}]" if ":" in name else name for name in own}
    return tuple(sorted({f"{name}:{port}" for name in shown} | set(names)))


def door_of(host: str, port: int, people: Optional[Path], names: Tuple[str, ...], plain: bool) -> Door:
    """The door: a key at the machine itself, people with passwords anywhere else, and there only behind TLS unless plain is said."""
    try:
        loopback = ipaddress.ip_address(host).is_loopback
    except ValueError:
        raise Stopped(f"{host} is no address: 127.0.0.1 would do, or the machine's own") from None
    if not loopback and people is None:
        raise Stopped(f"{host} is not the machine itself: --people FILE says who may come in (`wengeludo people add`)")
    secure = bool(names) and not plain
    if not loopback and not (names or plain):
        raise Stopped("passwords would cross the network in the open: serve 127.0.0.1 behind TLS and name it (--name desk.example), or say --plain-http")
    if people is not None:
        return Door(names_of(host, port, names), People(people), secure=secure)
    return Door(names_of(host, port, names), key=key_in(state_folder()))


def key_in(folder: Path) -> str:
    """The key of the printed address, made once and readable by its owner alone: after a restart open pages go on."""
    path = folder / "serve.key"
    try:
        folder.mkdir(mode=0o700, parents=True, exist_ok=True)
        with open(os.open(path, os.O_RDWR | os.O_CREAT, 0o600), "r+", encoding="ascii") as file:
            fcntl.flock(file, fcntl.LOCK_EX)
            os.fchmod(file.fileno(), 0o600)
            found = file.read().strip()
            if len(found) < SHORTEST_KEY:
                found = secrets.token_urlsafe(24)
                file.seek(0)
                file.truncate()
                file.write(found + "\n")
            return found
    except (OSError, UnicodeDecodeError):
        return secrets.token_urlsafe(24)  # nothing can be kept here: a key for this run


def state_folder() -> Path:
    """Where the key is kept."""
    return Path(os.environ.get("XDG_STATE_HOME") or Path.home() / ".local" / "state") / "wengeludo"


def free(host: str, port: int) -> None:
    """Stopped if the port is taken."""
    with socket.socket(socket.AF_INET6 if ":" in host else socket.AF_INET) as probe:
        probe.setsockopt(socket.SOL_SOCKET, socket.SO_REUSEADDR, 1)
        try:
            probe.bind((host, port))
        except OSError as error:
            raise Stopped(f"{host}:{port} cannot be served: {error.strerror}; another --port would do") from None
