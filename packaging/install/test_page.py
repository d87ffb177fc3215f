# SPDX-License-Identifier: LicenseRef-Wengeludo
"""Whether the manual page, as man prints it, says what the header says: every comment word for word, every constant with its number.

    python3 packaging/install/test_page.py PAGE HEADER   PAGE: the page as text (man with a great width)
"""

import re
import sys

OTHERWISE = ("What the calls return", "What a number says")  # the page has words of its own
SECTIONS = ("NAME", "SYNOPSIS", "DESCRIPTION", "RETURN VALUE", "CONSTANTS", "THREADS", "SEE ALSO")


def squeezed(text):
    """A text without blanks, and without the marks that roff changes."""
    return re.sub(r"[\s`•·]", "", text).replace("−", "-").replace("‐", "-").replace("’", "'").replace("‘", "'")


def comments(header):
    """The paragraphs of the header's comments, without those within lists of numbers."""
    bare = re.sub(r"/\* refusals: (enum|texts).*?/\* refusals: end of \1 \*/", "", header, flags=re.DOTALL)
    for comment in re.findall(r"^/\*(.*?)\*/", bare, re.DOTALL | re.MULTILINE):
        text = "\n".join(re.sub(r"^ \* ?", "", line) for line in comment.split("\n"))
        for paragraph in re.split(r"\n\s*\n|\n(?=(?:Reads|Returns|Writes|What|No|A|The|With)\b)|\n  - |\n(?=\s*\d+:  ?)", text):
            yield paragraph


def main(page, header):
    with open(page, encoding="utf-8") as file:
        lines = file.read().splitlines()
    shown = squeezed("\n".join(lines))
    with open(header, encoding="utf-8") as file:
        text = file.read()
    told = [paragraph for paragraph in comments(text) if len(paragraph.split()) > 3 and not paragraph.strip().startswith(OTHERWISE)]
    missing = [paragraph for paragraph in told if squeezed(paragraph) not in shown]
    missing += [name for name, value in re.findall(r"#define (WENGELUDO_\w+) (\S.*)", text) if squeezed(f"#define {name} {value}") not in shown]
    missing += [call for call in re.findall(r"^(?:uint8_t|uint32_t) wengeludo_\w+\([^;]*\);", text, re.MULTILINE) if squeezed(call) not in shown]
    numbers = re.findall(r"(WENGELUDO_[A-Z_]+) = (\d+),?\s*/\*(.*?)\*/", re.search(r"refusals: enum.*?end of enum", text, re.DOTALL)[0], re.DOTALL)
    missing += [name for name, number, said in numbers if squeezed(f"{name} ({number}) " + re.sub(r"\n\s*", " ", said)) not in shown]
    twice = [f"{name} = {number}" for name, number, _ in numbers if squeezed(f"{name} = {number}") in shown]
    source = squeezed("\n".join(comments(text)))
    twice += [paragraph for paragraph in told if len(paragraph.split()) > 8 and shown.count(squeezed(paragraph)) > max(1, source.count(squeezed(paragraph)))]
    missing += [f"{one} once, in its place" for one in twice]
    missing += [f"the section {name}" for name in SECTIONS if lines.count(name) != 1]
    missing += [f"a line without the mark of a comment: {line}" for line in lines if re.match(r"\s*/?\*(\s|$)", line)]
    for paragraph in missing:
        print(f"install/test: not in the manual page: {' '.join(paragraph.split())[:200]}")
    for sign in ("~", "\\e", "\\-", "\\(", "None"):
        if sign in shown and sign not in squeezed(text):
            missing.append(sign)
            print(f"install/test: {sign} is in the manual page, and not in the header")
    sys.exit(1 if missing or not told else 0)


if __name__ == "__main__":
    main(*sys.argv[1:])
