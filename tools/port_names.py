#!/usr/bin/env python3
# SPDX-License-Identifier: LicenseRef-Wengeludo
"""Brings the repository's own definitions and lemmas to the kit's spelling: types in upper camel case, all else in snake case.

    python3 tools/port_names.py [--list]     at the top of the repository, once, after the kit's own port.py

A dash stays beside a type's name, as in `Le-plus`. Names that a file takes from the kit, that the kit makes (a function's places, steps
and goals) or that the code has stay as they are. --list prints old and new names, and changes nothing. Two names that would fall together
are told, and nothing is written; OTHER says what such a name becomes.
"""
import collections
import pathlib
import re
import sys

ROOT = pathlib.Path(__file__).resolve().parent.parent
CRATES = ROOT / "crates"
TOKEN = re.compile(r"[^\s(){}\[\],;.:@\"]+")
MARKS = r"(?:(?:pattern|unfoldable|abbrev|pub|axiom) )*"
SIGNED = re.compile(r"^(\s*)(" + MARKS + r")([^\s(){}\[\],;.:@\"=|]+)(?: \{[^}]*\})? : ")
TYPED = re.compile(r"^(\s*)(" + MARKS + r")(record|data|ruleset) ([^\s(){}\[\],;.:@\"=|]+)")
LOCAL = re.compile(r"(?:\blet ([^\s(){}\[\],;.:@\"=|]+) (?:=|:))|(?:\(([^(){}\[\],;.:@\"=|]+) : )|(?:λ ([^(){}\[\],;.:@\"=|]+)\.)|(?:\{([^(){}\[\],;.:@\"=|]+) : )")
USE = re.compile(r"(?:ghost )?use ([^\s{;]+?)(?:\.\{([^}]*)\})?(?: as (\S+?))?;?\s*$", re.M)
# Names that would fall together with another: a lemma is its function's with _lem.
OTHER = {name: re.sub("-", "_", name) + "_lem" for name in """
    charges-shown bit-or bit-xor class-in on-loop no-sheet line-size refusal-size total_size put-be site-kind longest-file end-record
    kind-record stream-record to-buy some-sheet all-fit verdict-fits same_bytes read-before ends-in starts-in far-end labels-of bit-off
    reading-number weight-number exact-to whole_part""".split()}
OTHER |= {"in-range": "within_range", "class-of": "class_at_place"}


def files(*endings):
    for p in sorted(CRATES.rglob("*")):
        if p.suffix in endings and p.is_file() and "out" not in p.parts:
            yield p


def own():
    return {p.name for p in CRATES.iterdir() if (p / "src").is_dir()}


def term(name):
    name = name.replace("·", "-")
    parts = [p for p in name.split("-")]
    if "" in parts:
        return name
    if not any(re.search(r"[A-Za-z]", p) for p in parts):
        return name
    out = parts[0] if re.match(r"[A-Z][a-z]", parts[0]) else lower(parts[0])
    for before, part in zip(parts, parts[1:]):
        kept = re.match(r"[A-Z][a-z]", part) or re.match(r"[A-Z][a-z]", before)
        out += ("-" if kept else "_") + (part if re.match(r"[A-Z][a-z]", part) else lower(part))
    return out


def lower(part):
    return re.sub(r"([a-z0-9'])([A-Z])", r"\1_\2", part).lower() if re.search(r"[a-z]", part) else part


def camel(name):
    return "".join(w[:1].upper() + w[1:] for w in re.split(r"[-_]", name))


def uncommented(text, mark):
    return "\n".join(line.split(mark, 1)[0] if line.lstrip().startswith(mark) else re.sub(r"\s" + mark + r"\s.*$", "", line) for line in text.split("\n"))


def signature(lines, i):
    """The text of a signature that begins on line i, its clauses and its record's fields left out."""
    indent = len(lines[i]) - len(lines[i].lstrip())
    out = [lines[i]]
    for line in lines[i + 1:]:
        if not line.strip() or len(line) - len(line.lstrip()) <= indent:
            break
        out.append(line)
    return " ".join(out)


def declared():
    """Own names: of types, and of all else; and the fields."""
    types, terms = collections.Counter(), collections.Counter()
    for p in files(".antt"):
        lines = uncommented(p.read_text(), "--").split("\n")
        for i, line in enumerate(lines):
            m = TYPED.match(line)
            if m:
                (terms if m[3] == "ruleset" else types)[m[4]] += 1
                continue
            m = SIGNED.match(line)
            if m and m[3] not in ("where", "use", "module", "→", "λ", "let", "in"):
                kind = re.search(r"(?:→|:) *Type(?: \S+)? *$", signature(lines, i).strip())
                (types if kind else terms)[m[3]] += 1
    return types, terms


def mapping():
    types, terms = declared()
    new = {}
    for name in types:
        if name in terms and types[name] <= terms[name]:
            continue
        new[name] = camel(name)
    for name in terms:
        if name not in new:
            new[name] = term(name)
    new.update(OTHER)
    return {a: b for a, b in new.items() if a != b}


def imported(text, mine):
    """Names that a file takes from the kit."""
    out = set()
    for m in USE.finditer(text):
        path = m[1].split(".")
        if path[0] == "Rattle" and len(path) > 1 and path[1] in mine:
            continue
        for word in re.split(r",\s*", m[2] or ""):
            out.update(w for w in word.split(" as ") if w)
        if m[3]:
            out.add(m[3])
    return out


def turned(text, new, kit, walk, local):
    """The text with its names turned, and for each new name the old ones that it stands for."""
    out, at, met = [], 0, collections.defaultdict(set)
    for m in TOKEN.finditer(text):
        name, field = m[0], m.start() > 0 and text[m.start() - 1] == "."
        begin = max(text.rfind(" ", 0, m.start()), text.rfind("(", 0, m.start()), text.rfind("\n", 0, m.start())) + 1
        head = text[begin:m.start()]
        made = walk and field and re.match(r"(tie|goal)\.$", head)
        to = name
        if not made and name not in kit:
            if name in new:
                to = new[name]
            elif not field and name in local:
                to = term(name)
        met[(field, to)].add(name)
        out.append(text[at:m.start()] + to)
        at = m.end()
    return "".join(out) + text[at:], met


def locals_of(text):
    out = set()
    for m in LOCAL.finditer(text):
        for g in m.groups():
            out.update(w for w in (g or "").split() if ("-" in w[1:-1] or re.search(r"[a-z][A-Z]", w)) and re.match(r"[A-Za-z]", w))
    return out


def antt(p, new, mine):
    text = p.read_text()
    kit = imported(text, mine)
    lines, out, met = text.split("\n"), [], collections.defaultdict(set)
    local = locals_of(text) - set(new)
    walk = p.name == "Proof.antt"
    for line in lines:
        code, comment = line, ""
        if line.lstrip().startswith("--"):
            code, comment = "", line
        got, seen = turned(code, new, kit, walk, local)
        for k, v in seen.items():
            met[k] |= v
        out.append(got + commented(comment, new))
    return "\n".join(out), met


def commented(text, new):
    return re.sub(r"[A-Za-z]\w*[a-z]\w*[A-Z]\w*", lambda m: new.get(m[0], m[0]) if not m[0][0].isupper() else m[0], text) if text else text


def clauses(text):
    """The spans of a source file that are antt's: clauses, ghost items, and the imports of these."""
    for m in re.finditer(r"\b(?:requires|ensures|invariant|decreases)\*?(?: \w+)? \{|ghost use [^;]*;|\bghost [^{;]*\{", text):
        line = text.rfind("\n", 0, m.start()) + 1
        if "//" in text[line:m.start()]:
            continue
        if m[0].endswith(";"):
            yield m.start(), m.end()
            continue
        deep, k = 1, m.end()
        while deep and k < len(text):
            deep += (text[k] == "{") - (text[k] == "}")
            k += 1
        yield m.end(), k


PARAMS = re.compile(r"\bfn \w+(?:<[^>]*>)?\(([^)]*)\)")


def hidden(p, text, new):
    """Words of a function's clauses that one of its parameters would hide."""
    heads = [(m.start(), set(re.findall(r"(\w+):", m[1]))) for m in PARAMS.finditer(text)]
    for a, b in clauses(text):
        names = [names for at, names in heads if at < a]
        for name in set(TOKEN.findall(text[a:b])) if names and "ghost use" not in text[a:b] else ():
            if new.get(name) in names[-1]:
                yield f"{p.relative_to(ROOT)}: {name} would be the parameter {new[name]}"


def source(p, new, mine):
    text = p.read_text()
    kit = imported(text, mine)
    out, at, met, words = [], 0, collections.defaultdict(set), set()
    for a, b in clauses(text):
        out.append(commented_lines(text[at:a], new))
        got, seen = turned(text[a:b], new, kit, False, set())
        for k, v in seen.items():
            met[k] |= v
        out.append(got)
        at = b
    return "".join(out) + commented_lines(text[at:], new), met


def commented_lines(text, new):
    return "\n".join(commented(line, new) if line.lstrip().startswith("//") else line for line in text.split("\n"))


def main():
    mine, new = own(), mapping()
    if "--list" in sys.argv:
        for a, b in sorted(new.items()):
            print(a, b)
        return 0
    wrong, texts = [], {}
    for p in files(".antt", ".rt"):
        got, met = (antt if p.suffix == ".antt" else source)(p, new, mine)
        for (field, to), olds in sorted(met.items()):
            if len(olds) > 1:
                wrong.append(f"{p.relative_to(ROOT)}: {' and '.join(sorted(olds))} would both be {'.' if field else ''}{to}")
        texts[p] = got
        wrong += hidden(p, p.read_text(), new) if p.suffix == ".rt" else []
    if wrong:
        print("\n".join(wrong))
        return 1
    for p, text in texts.items():
        if p.read_text() != text:
            p.write_text(text)
    print(f"{len(new)} names")
    return 0


if __name__ == "__main__":
    raise SystemExit(main())
