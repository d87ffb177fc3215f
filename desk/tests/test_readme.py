# SPDX-License-Identifier: LicenseRef-Wengeludo
"""Every command in README.md is run, one after the other, and prints what stands below it."""

import re
import shlex
import shutil

import pytest
from conftest import SAMPLES

README = SAMPLES.parent / "README.md"
STATUS = {"faulty/steam_site.csv": 1, "steam_site_off.csv": 3, "overfull_site.csv": 1, "history/steam_site.csv": 3}


def told():
    """(words, lines below) of each command."""
    found = []
    for block in re.findall(r"```console\n(.*?)```", README.read_text(encoding="utf-8"), re.DOTALL):
        for part in re.split(r"^\$ ", block, flags=re.MULTILINE)[1:]:
            command, *lines = part.splitlines()
            found.append((shlex.split(command)[1:], [line for line in lines if line != "…"]))
    return found


def test_commands(run, tmp_path, monkeypatch):
    shutil.copytree(SAMPLES, tmp_path, dirs_exist_ok=True)
    (tmp_path / "hours").mkdir()
    shutil.copy(SAMPLES / "listing.csv", tmp_path / "hours" / "0001.csv")
    monkeypatch.chdir(tmp_path)
    commands = told()
    assert len(commands) > 12
    for words, lines in commands:
        ended = run(*words)
        wanted = STATUS.get(words[1], 0) if words[0] in ("sheet", "why", "history") else 0
        assert ended.status == wanted, (words, ended.err)
        printed = [line.rstrip() for line in (ended.out + ended.err).splitlines()]
        for line in lines:
            assert any(line.rstrip() in shown for shown in printed), (words, line)


@pytest.mark.parametrize("picture", re.findall(r"\]\((\S+\.svg)\)", README.read_text(encoding="utf-8")))
def test_pictures_are_there(picture):
    assert (README.parent / picture).read_text(encoding="utf-8").startswith("<svg")
