# SPDX-License-Identifier: LicenseRef-Wengeludo
"""Stories: commands one after the other in a folder with the samples, and everything that each says and writes, word for word.

A story of tests/stories has lines `$ command`, below them what a file is to hold (`| line`), and indented what was said: output, messages
after `!`, a status other than 0 after `?`. WENGELUDO_GOLDEN=write  writes what is said now; look at the difference before it is kept.
"""

import csv
import io
import itertools
import json
import os
import re
import shlex
import shutil
import sys
import uuid
from datetime import datetime
from pathlib import Path

import pytest
from conftest import SAMPLES, Ended

from wengeludo.cli import cli
from wengeludo.history import page as history_page
from wengeludo.keep import schema
from wengeludo.write import layout, page, spots

FOLDER = Path(__file__).parent / "stories"
ANEW = os.environ.get("WENGELUDO_GOLDEN") == "write"
DECIMALS = re.compile(r"(\d+\.\d+)")


class Then(datetime):
    """A clock that stands still."""

    @classmethod
    def now(cls, tz=None):
        return cls(2026, 11, 17, 14, 5, 9, 250_000, tz)


class Drawn:
    """What graphviz said once for a text: another text is not known, and another version of graphviz changes nothing."""

    def __init__(self):
        self.path, self.real = FOLDER / "graphviz.json", spots.graphviz
        self.known = json.loads(self.path.read_text()) if self.path.exists() else {}

    def __call__(self, command, source):
        name = uuid.uuid5(uuid.NAMESPACE_OID, " ".join(command) + source).hex
        if ANEW and name not in self.known:
            said = self.real(command, source)
            self.known[name] = json.dumps(_plain(json.loads(said)), separators=(",", ":")) if said.startswith("{") else said
            self.path.write_text(json.dumps(self.known, indent=0, sort_keys=True) + "\n")
        assert name in self.known, f"another text for graphviz: {source}"
        return self.known[name]


def _plain(told):
    """Of what graphviz says, what a layout reads."""
    keep = ("bb", "objects", "edges", "name", "pos", "lp", "width", "height", "_gvid", "tail", "head", "id", "label", "rotate", "xlp", "head_lp", "tail_lp")
    if isinstance(told, dict):
        return {name: _plain(one) for name, one in told.items() if name in keep}
    return [_plain(one) for one in told] if isinstance(told, list) else told


@pytest.fixture
def story(run, monkeypatch, tmp_path):
    """Tells a story again: what is said must be what was said."""
    for path in (*SAMPLES.glob("*.csv"), *SAMPLES.glob("*.xlsx")):
        shutil.copy(path, tmp_path)
    shutil.copytree(SAMPLES / "history", tmp_path / "history")
    monkeypatch.chdir(tmp_path)
    numbers = itertools.count(1)
    monkeypatch.setattr(uuid, "uuid4", lambda: uuid.UUID(int=next(numbers)))
    monkeypatch.setattr("getpass.getuser", lambda: "engineer")
    for module in (schema, page, history_page):
        monkeypatch.setattr(module, "datetime", Then)
    drawn = Drawn()
    for module in (spots, layout):
        monkeypatch.setattr(module, "graphviz", drawn)

    def tell(name, run=run):
        path = FOLDER / f"{name}.txt"
        asked = path.read_text(encoding="utf-8")
        blocks = [block for block in re.split(r"^(?=[$#])", asked, flags=re.M) if block]
        told = "".join(_told(block, run, tmp_path) for block in blocks).replace(tmp_path.name, "folder")
        if ANEW:
            path.write_text(told, encoding="utf-8")
        _same(asked if not ANEW else told, told)

    return tell


def _told(block, run, folder):
    """A block with what is said now."""
    head, *rest = block.split("\n")
    own = [line[2:] for line in rest if line.startswith("| ") or line == "|"]
    asked = "".join(f"{line}\n" for line in (head, *(f"| {line}".rstrip() for line in own)))
    if head.startswith("#"):
        return asked
    said = _said(shlex.split(head[2:]), own, run).replace(str(folder), "FOLDER").replace(str(SAMPLES), "SAMPLES")
    said = re.sub(r"\b[0-9a-f]{16}\b", "CHAIN", said)  # it goes over the folder's name
    return asked + "".join(f"  {line}".rstrip() + "\n" for line in said.splitlines())


def _said(words, own, run):
    """What a command says."""
    name, *rest = words
    if name == "browser":
        return run(*rest).out
    if name == "put":
        Path(rest[0]).parent.mkdir(parents=True, exist_ok=True)
        Path(rest[0]).write_text("".join(f"{line}\n" for line in own), encoding="utf-8")
        return ""
    if name in ("cat", "some") and not Path(rest[0]).exists():
        return "no such file"
    if name == "cat":
        return _shown(Path(rest[0]))
    if name == "some":  # every 40th line of a long file
        return "\n".join(Path(rest[0]).read_text(encoding="utf-8-sig").splitlines()[::40])
    if name == "change":  # a list with other readings
        rows = list(csv.reader(Path(rest[0]).read_text(encoding="utf-8").splitlines()))
        told = dict(word.split("=") for word in rest[2:])
        at = rows[0].index("reading")
        text = "\n".join(",".join(told.get(row[0], cell) if k == at else f'"{cell}"' if "," in cell else cell for k, cell in enumerate(row)) for row in rows)
        Path(rest[1]).write_text(text + "\n", encoding="utf-8")
        return ""
    if name == "workbook":  # its cells as PLACE=VALUE, a number's format after a blank
        return _workbook(Path(rest[0]), own)
    if name == "version1":  # a book as it was before
        from test_upgrade import old_book

        with pytest.MonkeyPatch.context() as patch:
            patch.setattr("version1.datetime", Then)
            return str(old_book(Path(rest[0]), int(rest[1])).lasts())
    if name == "width":
        os.environ["COLUMNS"] = rest[0]  # put back by `run`
        return ""
    if name == "options":
        return "\n".join(_options(cli))
    if name == "ls":
        return "\n".join(sorted(str(path) for path in Path(rest[0]).rglob("*")))
    if name == "colours":  # as on a terminal that has them
        return _coloured(run, rest)
    ended = run(*rest) if not own else _answered(run, own, rest)
    faults = "".join(f"! {line}\n" for line in ended.err.splitlines())
    return ended.out + faults + (f"? {ended.status}" if ended.status else "")


def _options(command, path="wengeludo"):
    """What each command takes, and what it says of that."""
    yield f"{path}: {command.help}".replace("\n", " ")
    for one in command.params:
        words = (one.human_readable_name, one.opts, _type(one.type), one.default() if callable(one.default) else one.default, one.required, one.multiple, one.nargs)
        yield f"  {words} {getattr(one, 'is_flag', '')} {getattr(one, 'show_default', '')} {getattr(one, 'help', '') or ''}"
    for name, inner in sorted(getattr(command, "commands", {}).items()):
        yield from _options(inner, f"{path} {name}")


def _type(kind):
    """A type of an option: its name and what it takes."""
    return " ".join([kind.name, *(f"{name}={getattr(kind, name)}" for name in ("choices", "min", "max") if getattr(kind, name, None) is not None)])


def _workbook(path, cells):
    import openpyxl

    book = openpyxl.Workbook()
    book.active.title = "list"
    for line in cells:
        place, _, told = line.partition("=")
        sheet, place = place.split("!") if "!" in place else ("list", place)
        value, _, form = told.partition(" :: ")
        sheet = book[sheet] if sheet in book.sheetnames else book.create_sheet(sheet)
        sheet[place] = float(value) if re.fullmatch(r"-?[\d.]+", value) else value
        sheet[place].number_format = form or "General"
    book.save(path)
    return ""


def _coloured(run, words):
    """What is said on a terminal with colours, their marks as ^."""
    from rich.console import Console

    from wengeludo.write import terminal

    def console(error=False):
        return Console(file=sys.stderr if error else sys.stdout, width=100, force_terminal=True, color_system="standard", highlight=False, markup=False, emoji=False)

    with pytest.MonkeyPatch.context() as patch:
        patch.setattr(terminal, "console", console)
        patch.setenv("TERM", "xterm")
        patch.delenv("NO_COLOR", raising=False)
        ended = run(*words)
    return (ended.out + ended.err).replace("\x1b", "^") + (f"? {ended.status}" if ended.status else "")


def _answered(run, own, words):
    """A command whose questions are answered."""
    with pytest.MonkeyPatch.context() as patch:
        patch.setattr("sys.stdin", io.StringIO("".join(f"{line}\n" for line in own)))
        return run(*words)


def _shown(path):
    """A file in lines: a workbook cell by cell, a page tag by tag without what its template brings along, others as they are."""
    if path.suffix == ".xlsx":
        return "\n".join(_cells(path))
    if path.suffix in (".bin", ".sheet"):
        return path.read_bytes().hex("\n", 16)
    text = path.read_text(encoding="utf-8-sig")
    if path.suffix in (".html", ".svg"):
        text = _tags(text)
    return text


class Browser:
    """A browser at the desk: `take LIST`, `get ADDRESS`, `de ADDRESS` in German, `part ADDRESS`, `post ADDRESS NAME=VALUE ...`."""

    def __init__(self, folder, people=False):
        from test_serve import BASE, HOST, KEY, csrf
        from wengeludo.serve.app import application
        from wengeludo.serve.door import Door
        from wengeludo.serve.shelf import Shelf

        (folder / "runs").mkdir()
        (folder / "runs" / "one.html").write_text("<title>a run</title>")
        os.utime(folder / "runs" / "one.html", (1_760_000_000, 1_760_000_000))
        self.base, self.shelf = BASE, Shelf.opened(str(folder / "site.book"), folder / "runs")
        if people:
            from wengeludo.serve.people import People

            self.people = People(folder / "people.db")
            self.people.hasher = type(self.people.hasher)(time_cost=1, memory_cost=64, parallelism=1)
            self.people.nobody = self.people.hasher.hash("nobody")
            self.people.add("boss", "a long password", "admin", frozenset({0, 3}))
            self.app = application(self.shelf, Door((HOST,), self.people))
            self.client, self.token = self.app.test_client(), ""
            return
        self.client = application(self.shelf, Door((HOST,), key=KEY)).test_client()
        self.client.get(f"/?key={KEY}", **BASE)
        self.token = csrf(self.client)

    def __call__(self, verb, *words):
        from wengeludo.balance.site import read_site

        if verb == "take":
            return Ended(0, f"{self.shelf.take(read_site(Path(words[0])), words[0], 'engineer')}\n", "")
        if verb == "login":
            self.client = self.app.test_client()
            answer = self.client.post("/login", data={"name": words[0], "password": words[1], "then": words[2]}, **self.base)
            found = re.search(r'name="csrf" value="([^"]+)"', self.client.get("/", **self.base).text)
            self.token = found[1] if found else ""
            return Ended(0, f"{answer.status_code} {answer.headers.get('Location', '')}\n{_steady(_tags(answer.text))}\n", "")
        if verb == "later":  # so many seconds after what was wrong before
            self.people.base.execute("UPDATE failures SET at = at - ?", (int(words[0]),))
            self.people.base.execute("UPDATE sessions SET made = made - ?, seen = seen - ?", (int(words[0]), int(words[0])))
            return Ended(0, "", "")
        heads = {"Accept-Language": "de" if verb == "de" else "en"} | ({"X-Part": "1"} if verb == "part" else {})
        if verb == "post":
            answer = self.client.post(words[0], data={"csrf": self.token, **dict(word.split("=", 1) for word in words[1:])}, headers=heads, **self.base)
        else:
            answer = self.client.get(words[0], headers=heads, **self.base)
        text = _tags(re.sub(r"<svg\b.*?</svg>", "", json.dumps(answer.json, indent=0, ensure_ascii=False) if answer.json else answer.text, flags=re.S))
        return Ended(0, f"{answer.status_code} {answer.headers.get('Location', '')} {answer.headers.get('Content-Disposition', '')}\n{_steady(text)}\n", "")


def _steady(text):
    """A page without what is drawn anew each time: tokens of forms, names of requests, the mark of a version."""
    return re.sub(r'(?<=[?])[0-9a-f]{8}\b|(?<=name=\\"csrf\\" value=\\")[^"]+(?=\\")|(?<=name="csrf" value=")[^"]+|\b[0-9a-f]{32}\b', "...", text)


def _tags(text):
    """A page tag by tag, without styles and scripts."""
    text = re.sub(r"<(style|script)\b[^>]*>.*?</\1>", "", text, flags=re.S)
    return re.sub(r"\n\s*\n+", "\n", re.sub(r">\s*<", ">\n<", text))


def _cells(path):
    import openpyxl

    for sheet in openpyxl.load_workbook(path):
        yield f"{sheet.title} {sheet.dimensions} {sheet.freeze_panes} {sorted((k, round(d.width, 1)) for k, d in sheet.column_dimensions.items())}"
        for row in sheet.iter_rows():
            yield " | ".join(f"{cell.value} {cell.number_format}{_font(cell.font)} {cell.fill.fgColor.rgb}" for cell in row if cell.value is not None)


def _font(font):
    """What a font has that is not the usual."""
    return (" bold" if font.bold else "") + ("" if font.size in (None, 11) else f" {font.size:g}")


def _same(one, other):
    """The same texts; numbers with decimals may differ by one in the last, as another processor adds them up."""
    if one != other:
        assert [DECIMALS.sub("#", line) for line in one.splitlines()] == [DECIMALS.sub("#", line) for line in other.splitlines()]
        for line, now in zip(one.splitlines(), other.splitlines()):
            for a, b in zip(DECIMALS.findall(line), DECIMALS.findall(now)):
                step = 10.0 ** -len(b.partition(".")[2])
                assert len(a.partition(".")[2]) == len(b.partition(".")[2]) and abs(float(a) - float(b)) < 1.5 * step, (line, now)


def test_books(story):
    story("books")


def test_faults(story):
    story("faults")


def test_histories(story):
    story("histories")


def test_lists(story):
    story("lists")


def test_pages(story):
    story("pages")


def test_serve(story, tmp_path):
    pytest.importorskip("flask", reason="the desk is not served, as there is no Flask (apt-get install python3-flask)")
    story("serve", Browser(tmp_path))


def test_people(story, tmp_path):
    pytest.importorskip("flask", reason="the desk is not served, as there is no Flask (apt-get install python3-flask)")
    pytest.importorskip("argon2", reason="nobody comes in, as there is no argon2 (apt-get install python3-argon2)")
    story("people", Browser(tmp_path, people=True))


def test_server(story, server, run):
    address = server.fresh()

    def at_server(*words):
        ended = run(*(word.replace("SERVER", address) for word in words))
        return Ended(ended.status, *(text.replace(address, "SERVER").replace(address.partition("://")[2], "SERVER") for text in (ended.out, ended.err)))

    story("server", at_server)


def test_suspects(story):
    story("suspects")


def test_told(story):
    story("told")


def test_workbooks(story):
    story("workbooks")


def test_every_story_is_told():
    assert sorted(path.stem for path in FOLDER.glob("*.txt")) == sorted(name[5:] for name in globals() if name.startswith("test_") and name != "test_every_story_is_told")
