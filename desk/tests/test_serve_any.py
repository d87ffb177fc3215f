# SPDX-License-Identifier: LicenseRef-Wengeludo
"""Addresses, forms and uploads of any shape: a page or a told fault, never a failure of the server."""

import io
import os
from urllib.parse import quote

import pytest

pytest.importorskip("flask", reason="the desk is not served, as there is no Flask (apt-get install python3-flask)")

from hypothesis import HealthCheck, given, settings
from hypothesis import strategies as st
from test_serve import BASE, HOST, KEY, csrf, take
from wengeludo.serve.app import application
from wengeludo.serve.door import Door
from wengeludo.serve.shelf import Shelf

EXAMPLES = int(os.environ.get("WENGELUDO_EXAMPLES", "100"))
ANY = settings(max_examples=4 * EXAMPLES, deadline=None, suppress_health_check=list(HealthCheck))
NAMES = st.sampled_from(["r", "a", "l", "h", "x"]).flatmap(lambda field: st.integers(0, 99).map(lambda n: f"{field}{n}")) | st.sampled_from(["stream", "try", "q", "office", "before", "s", "kept"])
TEXTS = st.text(max_size=30) | st.floats().map(str) | st.sampled_from(["", "0", "-1", "1e400", "8.479", "±5", "2%", "w40", "nan", "१२", "1" * 70, "3-1", "2026-01-01"])
PATHS = st.sampled_from(["/", "/list/1", "/list/2", "/sheet/3-1", "/sheet/3-f1", "/book", "/compare", "/login", "/words", "/list/1.csv", "/list/1.xlsx", "/health", "/people", "/runs"])


@pytest.fixture(scope="module")
def desk(tmp_path_factory):
    client = application(Shelf.opened(str(tmp_path_factory.mktemp("any") / "site.book")), Door((HOST,), key=KEY)).test_client()
    client.get(f"/?key={KEY}", **BASE)
    take(client)
    take(client, "overfull_site.csv")
    return client


@ANY
@given(PATHS | st.text(max_size=40).map(lambda text: "/" + quote(text.encode("utf-8", "replace"))), st.dictionaries(NAMES, TEXTS, max_size=6))
def test_any_address_is_a_page_or_a_told_fault(desk, path, words):
    answer = desk.get(path, query_string={name: text.encode("utf-8", "replace") for name, text in words.items()}, **BASE)
    assert answer.status_code < 500 and answer.data, path


@ANY
@given(st.dictionaries(NAMES | st.sampled_from(["request", "base", "office", "note"]), TEXTS, max_size=8))
def test_any_form_is_kept_or_told(desk, form):
    base = {"csrf": csrf(desk), "request": "a" * 32, "base": "list/1", "office": "3"}
    assert desk.post("/keep", data={**base, **form}, **BASE).status_code < 500


@settings(ANY, max_examples=EXAMPLES)
@given(st.text(max_size=20), st.binary(max_size=300) | st.text(max_size=300).map(lambda text: b"stream,from,to,reading,accuracy\n" + text.encode("utf-8", "replace")))
def test_any_file_is_taken_or_told(desk, name, data):
    for suffix in (".csv", ".xlsx"):
        form = {"csrf": csrf(desk), "list": (io.BytesIO(data), f"{name}{suffix}")}
        assert desk.post("/lists", data=form, content_type="multipart/form-data", **BASE).status_code in (303, 422)
