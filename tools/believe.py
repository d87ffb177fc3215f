# SPDX-License-Identifier: LicenseRef-Wengeludo
"""What a reader of the promises must believe: files of definitions, and the one document that they make.

    ./dev believe            fails where the list of files is not closed, where a file has a definition that no promise cites (but for MIXED),
                             where a name has two meanings (but for TWICE), where the archive's exports do not have the very words of the
                             calls, or where docs/BELIEVE.md is not what is made of the files
    ./dev believe --write    makes docs/BELIEVE.md anew
    ./dev believe --text     prints it
    ./dev believe --names    each list's files, with their lines and their names

It begins at the contracts of the exported calls and of the calls that the programs print by, and at the theorems of the record `Promises`,
reads the names in each, finds the definition of each name in specs/ or in a declared struct or enum, and goes on from there. A name of
the kit ends the way. Names that need not be read are those of LED_ON: a theorem begins with each of them, and its sentences leave
nothing open.
"""

import re
import sys
from pathlib import Path

ROOT = Path(__file__).resolve().parent.parent
CRATES = ROOT / "crates"
TEXT = ROOT / "docs" / "BELIEVE.md"
OUTER = "wengeludo"  # the calls
ARCHIVE = "wengeludo_c"  # exports them, by the same names and clauses

# What a call ensures, and how files and sheets are read -> the theorem that says what follows, all of it.
LED_ON = {
    ("sheet_def", "Says", "SheetSays"): "what the sheet call ensures: `Demands.some` (every call has an answer), `Demands.sentences`",
    (OUTER, "Calls", "SheetLent"): "what the exported sheet call ensures: `SheetCalls`",
    ("listing_call", "Says", "ListSays"): "what the call that lists a plant ensures: `Printed`",
    ("sheet_history", "Before", "PlainSays"): "what the sheet call promised before there were offices: `History.before`, `as_today`, `plain`",
    ("visit_def", "Visits", "is_listed"): "which streams a list of visits has: `MetersWorthAVisit.which`",
    ("plant_def", "Files", "read_plant"): "how a plant file is read: `Demands.round` (which files, and as what), `RefusedFiles` (the others)",
    ("sheet_def", "Kept", "read_sheet"): "how a sheet is read: `Demands.reopening`",
    ("transmitter_def", "Says", "read_transmitter"): "how a transmitter file is read: `SentFiles`",
    ("sheet_history", "Before", "read_before"): "which sheets were read before there were offices: `History.read_before_lem`",
}

# What is read for what, each list going on from those above it: its title, the functions whose contracts it begins at, and the theorems.
# A theorem that begins a list of its own is left to that list, though a record names it before.
SUBJECTS = (
    ("sheets", {OUTER: {"wengeludo_balance_plant"}}, ("sheet_def/Demands/Demands", "promises/SheetCalls/SheetCalls")),
    ("groups in one pass", {}, ("flow_def/Groups/OnePass",)),
    ("a sheet beside a solver in real numbers", {}, ("sheet_def/DeskTool/DeskTool",)),
    ("plant files and kept sheets, read and written",
     {OUTER: {"wengeludo_write_plant", "wengeludo_read_sheet", "wengeludo_read_plant"}, "plant_read": {"read_plant"},
      "plant_write": {"write_plant"}, "sheet_read": {"read_sheet"}},
     ("plant_def/Says/LongestFile", "plant_def/Says/FileRefusals", "plant_def/Refusals/RefusedFiles", "plant_lent/Trip/PartsTrip")),
    ("the offices' sheet numbers", {}, ("sheet_history/History/History",)),
    ("the listing and the programs", {"listing_call": {"list_plant"}, "programs": {"plant_file"}},
     ("listing_lines/Room/OneText", "listing_call/Printed/Printed")),
    ("the translator", {OUTER: {"wengeludo_plant_from_transmitter"}},
     ("transmitter_def/Says/Translated", "transmitter_def/Sendings/SentFiles", "transmitter_def/Answers/Numbered",
      "transmitter_def/Rounding/Rounding")),
    ("the two moves", {OUTER: {"wengeludo_to_ranged", "wengeludo_from_ranged"}}, ("ranged_def/Trip/Moving", "ranged_same_sheet/Same/MovedSheets")),
    ("meters to buy", {OUTER: {"wengeludo_meters_to_buy"}}, ("purchase_def/Says/MetersToBuy",)),
    ("layouts of meters", {OUTER: {"wengeludo_layouts_of"}, "survey_answers": {"list_layouts"}}, ("survey_def/Says/OneSurvey",)),
    ("meters worth a visit", {OUTER: {"wengeludo_visits"}, "visit_text": {"list_visits"}}, ("visit_def/Says/MetersWorthAVisit",)),
    ("steam charges", {OUTER: {"wengeludo_charges"}}, ("charge_def/Says/SteamCharges",)),
    ("sheets drawn up elsewhere", {OUTER: {"wengeludo_check_sheet", "wengeludo_place_numbers"}},
     ("foreign_def/Says/ForeignSheets", "foreign_def/Numbers/OwnNumbers")),
    ("flows found elsewhere", {OUTER: {"wengeludo_check_flow"}}, ("certify_sheets/Promise/FlowsFoundElsewhere",)),
    ("bounds, and the record of all promises", {OUTER: None}, ("promises/Engine/Engine",)),
)

# The files in the order in which they are read: a part, what it is about, and its files; `src` is the crate's structs and enums.
PARTS = (
    ("Numbers and bytes", "Tests, bytes, lists and what a caller lends: the few words that all later definitions use.",
     ("num_bytes/Choice", "num_bytes/Bytes", "num_bytes/Inner", "num_bytes/Arrays", "num_bytes/Sums", "num_bytes/Lent", "num_lent/Lending")),
    ("The plant and its flows", "A plant has units, numbered from 1, and the outside, number 0; a stream runs from one of these places to another. A "
     "flow gives each stream a signed amount, and balances if at every unit as much comes in as goes out. The cheapest balanced flow in range "
     "is the one that counts.",
     ("plant_def/src", "plant_def/Refused", "plant_def/Limits", "plant_def/Plants", "flow_def/Flows", "flow_def/Overfull", "flow_def/Least")),
    ("Plant files", "A file is one site record, the records of the streams, and an end record. Exactly the bytes of plants without fault are read, "
     "each as its plant; every other file is refused with one number.",
     ("plant_def/Results", "plant_def/Files", "plant_def/Refusals", "plant_def/Says", "plant_def/Views", "num_lent/Marks", "plant_parts/Parts", "plant_lent/Lent", "plant_lent/Trip",
      "plant_def/Converts")),
    ("Four classes of stream, degrees and the test", "A stream is adjusted, as read, given or withheld: by chains of unmetered streams, and by "
     "flows that agree on the meters. The cost is tested against a critical value by the degrees.",
     ("flow_def/src", "flow_def/Chains", "flow_def/Groups", "flow_def/Shown", "flow_def/Withheld", "flow_def/Metering", "flow_def/Test")),
    ("Sheets", "A sheet is a record for each stream and a total. The sentences say what every call leaves behind.",
     ("sheet_def/src", "sheet_def/Totals", "sheet_def/Sheets", "sheet_def/Counters", "sheet_def/Kept", "sheet_def/Views", "sheet_parts/Kept",
      "sheet_def/Sentences", "sheet_def/DeskTool", "sheet_def/Demands", "sheet_history/History")),
    ("Listings and the programs", "What the programs read, and what they print.",
     ("num_text/Numerals", "listing_lines/Listing", "listing_lines/Room", "listing_call/Printed", "programs/Fed")),
    ("Transmitter files", "Values and deviations in floating point become readings and weights, and a plant file is written of them.",
     ("transmitter_def/Limits", "transmitter_def/Signals", "transmitter_def/Answers", "transmitter_def/Rounding",
      "transmitter_def/Sendings", "transmitter_def/Says")),
    ("Ranges put in and taken out", "A plant without ranges in the ranged form, and home again; its sheet stays the same.",
     ("ranged_def/Moves", "ranged_def/Trip", "ranged_same_sheet/Same")),
    ("Meters to buy", "The cheapest set of further meters with which nothing is withheld.",
     ("purchase_def/Results", "purchase_def/Purchases", "purchase_def/Says", "purchase_call/Lent")),
    ("Layouts of meters", "How many sets of k streams, metered, leave nothing withheld.",
     ("survey_def/Results", "survey_def/Layouts", "survey_def/Says", "survey_answers/Lent", "survey_answers/Text", "survey_answers/Says")),
    ("Meters worth a visit", "For each adjusted stream the least cost without its meter, in rising order.",
     ("visit_def/Results", "visit_def/Visits", "visit_def/Says", "visit_call/Lent", "visit_text/Text", "visit_text/Says")),
    ("Steam charges", "What each stream to the outside is charged: shares rounded down, and what is missing to the rounded bill handed out.",
     ("charge_def/Results", "charge_def/Charges", "charge_def/Says", "charge_call/Lent")),
    ("Sheets drawn up elsewhere", "When a sheet passes, with one number for each place; and numbers of our own.",
     ("foreign_def/Passing", "foreign_def/Says", "foreign_def/Numbers", "foreign_numbers/Lent")),
    ("Flows found elsewhere", "The same of a flow, over a plant of wide numbers.",
     ("certify_def/Number", "certify_def/Says", "certify_sheets/Promise")),
    ("The exported calls, and all promises", "What is linked, by the names of the header, and the record that has everything above.",
     ("version/Version", f"{OUTER}/Calls", "promises/SheetCalls", "promises/Once", "promises/Bounds", "promises/Promises", "promises/Engine")),
)

# Files of the list that also have definitions which no promise cites: these are not shown. The set can only shrink.
MIXED = {
    "num_bytes/Bytes", "num_bytes/Inner", "num_bytes/Sums", "num_lent/Lending", "plant_def/Limits", "plant_def/Files", "plant_parts/Parts",
    "flow_def/Shown", "sheet_def/Totals", "sheet_def/Sheets", "sheet_def/Kept", "visit_def/Visits", "visit_def/Says", "foreign_def/Numbers",
    "listing_lines/Listing", "listing_lines/Room", "listing_call/Printed", "transmitter_def/Limits", "transmitter_def/Answers",
    "purchase_def/Says", "survey_answers/Says", "visit_text/Says", "charge_def/Says",
    "plant_def/Refused", "plant_def/Results", "plant_def/Views", "sheet_def/Views",  # what inner functions hand over stands beside
}

# Names with two meanings: a struct of the code and the definition of what it holds; then those that are left.
TWICE = {
    "Plant", "SheetRead", "Amiss", "HandsOver", "Numbered", "ReadSays", "Refusal", "TextSays", "Vouched", "bare", "comes_first", "least_text", "lines_from",
    "numbers_of", "read_of", "recorded", "weights_to",
}

FUNCTION = re.compile(r"^pub (?:extern \"C\" )?fn (\w+)(.*?)(?:^\{| \{$)", re.M | re.S)
CLAUSE = re.compile(r"^    (?:ensures|requires)(?: \w+)? \{(.*?)\}$", re.M | re.S)
NAME = re.compile(r"[^\s(){}\[\],;\"]+")
KEYWORDS = {"abbrev", "pub", "unfoldable", "record", "data", "where", "let", "in", "elim", "use", "module", "Type", "λ", "→", "×", "=", ":", "|", "↦"}
HEAD = ("abbrev", "pub", "unfoldable", "record", "data")


class Definition:
    def __init__(self, crate, file, name):
        self.crate, self.file, self.name, self.lines, self.said, self.shown = crate, file, name, [], [], []


class Specs:
    """A file of specs/: its definitions by name, where constructors count as their type, and what it brings in."""

    def __init__(self, crate, file):
        self.crate, self.file = crate, file
        self.names, self.brought, self.modules, self.title = {}, {}, {}, []
        self.current, self.said = None, []
        for line in (CRATES / crate / "specs" / f"{file}.antt").read_text().split("\n"):
            self.take(line)

    def take(self, line):
        if not line.strip():
            if not self.title and self.said:
                self.title, self.said = self.said, []
            return
        if line.startswith("--"):
            self.said.append(line[3:])
        elif line.startswith("use "):
            self.title, self.said = self.title or self.said, []
            self.bring(line)
        elif line.strip().startswith("--"):
            self.current.shown.append(line)
        elif line[0].isspace() or line[0] == "}":
            self.current.lines.append(line)
            self.current.shown.append(line)
            constructor = re.match(r"  ([^\s:]+) :", line)
            if constructor and self.current.lines[0].startswith("pub data"):
                self.names[constructor.group(1)] = self.current
        elif not line.startswith("pub mod "):
            self.begin(line)

    def begin(self, line):
        name = [word for word in line.split() if word not in HEAD][0]
        if name not in self.names:
            self.names[name] = Definition(self.crate, self.file, name)
            self.names[name].said, self.said = self.said, []
        self.current = self.names[name]
        self.current.lines.append(line)
        self.current.shown.append(line)

    def bring(self, line):
        found = re.match(r"use (\S+?)\.\{(.*)\}$", line)
        if found:
            for name in found.group(2).split(","):
                self.brought[name.strip()] = found.group(1)
            return
        found = re.match(r"use (\S+) as (\S+)$", line)
        if found:
            self.modules[found.group(2)] = found.group(1)

    def definitions(self):
        return list(dict.fromkeys(self.names.values()))


class House:
    def __init__(self):
        self.files = {}
        self.declared = {}
        for path in CRATES.glob("*/src/**/*.rt"):
            text = path.read_text()
            crate = path.relative_to(CRATES).parts[0]
            for found in re.finditer(r"((?://[^\n]*\n)*)(?:#\[[^\n]*\n)*^(pub (struct|enum) (\w+)(.*?)^}|pub struct (\w+)\([^)]*\);)", text, flags=re.M | re.S):
                name = found.group(4) or found.group(6)
                definition = Definition(crate, "src", name)
                definition.shown = found.group(2).split("\n")
                definition.said = [line[3:] for line in found.group(1).split("\n") if line]
                definition.lines = [line for line in definition.shown if line.strip() and not line.strip().startswith("//")]
                self.declared[crate, name] = definition

    def specs(self, crate, file):
        if (crate, file) not in self.files:
            self.files[crate, file] = Specs(crate, file)
        return self.files[crate, file]

    def at(self, module, name):
        """The definition of a name of a module of this repository; None for the kit's."""
        if re.match(rf"Rattle\.{OUTER}\.proofs\.\w+\.Statement$", module):  # made by the compiler from a contract, at which the walk begins
            return None
        found = re.match(r"Rattle\.(\w+)\.specs\.(.+)$", module)
        if not found:
            if (crate := re.match(r"Rattle\.(\w+)", module)) and (CRATES / crate[1]).exists():
                raise ValueError(f"{module}.{name}: not of specs/")
            return None
        crate, rest = found.groups()
        if not (CRATES / crate).exists():  # a library of the kit
            return None
        if rest.startswith("declared"):  # declared.TYPE or declared.module.TYPE, and what stands in it
            return next(self.declared[crate, part] for part in rest.split(".")[1:] if (crate, part) in self.declared)
        return self.specs(crate, rest).names[name]

    def cited(self, specs, text):
        """The definitions that a text in this file names."""
        text = re.sub(r'"[^"]*"', "", text)
        for word in NAME.findall(text):
            if word.startswith(".") or word in KEYWORDS:
                continue
            alias, _, rest = word.partition(".")
            if word in specs.names:
                yield specs.names[word]
            elif word in specs.brought:
                yield self.at(specs.brought[word], word)
            elif rest and alias in specs.modules:
                yield self.at(specs.modules[alias], rest.split(".")[0])

    def walk(self, roots, later=()):
        """What is reached from the roots; those that begin a later list are left to it."""
        reached, due = {}, list(roots)
        while due:
            definition = due.pop()
            if definition is None:
                continue
            key = definition.crate, definition.file, definition.name
            if key in reached or key in later:
                continue
            reached[key] = definition
            if key not in LED_ON and definition.file != "src":
                due += self.cited(self.specs(definition.crate, definition.file), "\n".join(definition.lines))
        return reached

    def contracts(self, crate, only=None):
        """The definitions that the contracts of a crate's functions name: of all that are exported, or of those named."""
        for path in sorted((CRATES / crate / "src").glob("**/*.rt")):
            text = path.read_text()
            brought = {}
            for found in re.finditer(r"^ghost use (\S+?)\.\{(.*?)\};$", text, flags=re.M):
                for name in found.group(2).split(","):
                    brought[name.strip()] = found.group(1)
            for found in FUNCTION.finditer(text):
                if only is not None and found.group(1) not in only:
                    continue
                for clause in CLAUSE.findall(found.group(2)):
                    for word in NAME.findall(clause):
                        if word in brought:
                            yield self.at(brought[word], word)


def lists(house):
    """Of each subject the definitions that it adds to those above it, in the order of the walk."""
    seen, found = set(), {}
    later = {tuple(theorem.split("/")) for _, _, theorems in SUBJECTS for theorem in theorems}
    for title, functions, theorems in SUBJECTS:
        later -= {tuple(theorem.split("/")) for theorem in theorems}
        roots = [definition for crate, only in functions.items() for definition in house.contracts(crate, only)]
        roots += [house.specs(*theorem.split("/")[:2]).names[theorem.split("/")[2]] for theorem in theorems]
        new = [(key, definition) for key, definition in house.walk(roots, later).items() if key not in seen and key not in LED_ON]
        seen |= {key for key, _ in new}
        found[title] = [definition for _, definition in new]
    return found


def lines_of(definitions):
    return sum(len(definition.lines) for definition in definitions)


def unnamed():
    """The exported functions that the last record does not name, and the names in it that are none."""
    exported = set(re.findall(r"^pub fn (\w+)", (CRATES / OUTER / "src" / "lib.rt").read_text(), flags=re.M))
    engine = (CRATES / "promises" / "specs" / "Engine.antt").read_text()
    named = {alias: name for name, alias in re.findall(rf"^use Rattle\.{OUTER}\.proofs\.(\w+)\.Statement as (\S+)$", engine, flags=re.M)}
    fields = set(re.findall(r"^  pub \S+ : \(M : Type 1\) → (\S+)\.statement M$", engine, flags=re.M))
    kept = {named[alias] for alias in fields if alias in named}
    return [f"the record Engine does not name {name}, or names no function by it" for name in sorted(exported ^ kept)]


def plain(text):
    """A text on one line, however its parameters are laid out."""
    return re.sub(r",? ?\)", ")", re.sub(r"\( ", "(", " ".join(text.split())))


def calls(crate):
    """Each public function of a crate with its parameters, its result and its clauses, and what its body says."""
    text = (CRATES / crate / "src" / "lib.rt").read_text()
    return {found[1]: (plain(found[2]), plain(text[found.end():].split("\n}\n")[0])) for found in FUNCTION.finditer(text)}


def exports():
    """What of the archive's exports is not the library's call of that name, with its very words."""
    if not (CRATES / ARCHIVE).exists():
        return
    ours, exported = calls(OUTER), calls(ARCHIVE)
    for name in sorted(ours.keys() | exported.keys()):
        if name not in ours or name not in exported:
            yield f"{name} is not in both {OUTER} and {ARCHIVE}"
        elif ours[name][0] != exported[name][0]:
            yield f"{ARCHIVE}: {name} has other words than in {OUTER}"
        elif not re.fullmatch(rf"{{? ?{OUTER}::{name}\([\w, ]*\)", exported[name][1]):
            yield f"{ARCHIVE}: {name} does not only call {OUTER}::{name}"
    text = (CRATES / ARCHIVE / "src" / "lib.rt").read_text()
    if len(re.findall(r'^#\[unsafe\(no_mangle\)\]\npub extern "C" fn ', text, flags=re.M)) != len(exported):
        yield f"{ARCHIVE} has a public function that it does not export"


def amiss(house, believed):
    """What is wrong with the list of files: not closed, not believed whole, or a name with two meanings."""
    listed = [file for _, _, files in PARTS for file in files]
    by_file, by_name = {}, {}
    for definition in believed:
        by_file.setdefault(f"{definition.crate}/{definition.file}", set()).add(definition.name)
        by_name.setdefault(definition.name, []).append(f"{definition.crate}/{definition.file}")
    for file in sorted(set(by_file) - set(listed)):
        yield f"{file} is in no part, and has {', '.join(sorted(by_file[file]))}"
    for file in sorted(set(listed) - set(by_file)):
        yield f"{file} is in a part, and no promise cites it"
    for file in listed:
        crate, name = file.split("/")
        if name != "src" and file in by_file:
            led = {key[2] for key in LED_ON if key[:2] == (crate, name)}
            others = {definition.name for definition in house.specs(crate, name).definitions()} - by_file[file] - led
            if others and file not in MIXED:
                yield f"{file} is not believed whole: no promise cites {', '.join(sorted(others))}"
            if not others and file in MIXED:
                yield f"{file} is believed whole: take it out of MIXED"
    for name, files in sorted(by_name.items()):
        if (len(files) > 1) != (name in TWICE):
            yield f"{name} has {len(files)} meanings: {', '.join(files)}"


def document(house, found):
    believed = [definition for definitions in found.values() for definition in definitions]
    total, flow = lines_of(believed), lines_of(found["flows found elsewhere"])
    text = ["# What a reader must believe", "", "<!-- believe: definitions, from crates/*/specs -->",
            "Made by `./dev believe --write` from the files that it shows. Every definition that the promises unfold to is here, each "
            "below the sentence that is above it in its file. What is not here need not be believed: it is proved.", "",
            f"Lines without imports, blank lines and comments: **{lines_of(found['sheets']):,}** for the sheets, **{total - flow:,}** in all without "
            f"the check of a flow, {total:,} with it. Each list goes on from those above it:", "", "| for | lines | definitions |", "|---|---|---|"]
    text += [f"| {title} | {lines_of(definitions)} | {len(definitions)} |" for title, definitions in found.items()]
    text += ["", "Some names need not be read, because a theorem says all that follows from them:", "",
             "| name | what it is, and the theorem |", "|---|---|"]
    text += [f"| `{name}` (`{crate}/specs/{file}`) | {why} |" for (crate, file, name), why in LED_ON.items()]
    text += ["", "How to read antt, the language of the prover: docs/PROMISES.md, \"How to read the definitions\".", ""]
    reached = {(definition.crate, definition.file, definition.name) for definition in believed}
    for title, about, files in PARTS:
        text += [f"## {title}", "", about, ""]
        for file in files:
            text += shown(house, *file.split("/"), reached)
    return "\n".join(text + ["<!-- believe: end of definitions -->"]) + "\n"


def shown(house, crate, file, reached):
    if file == "src":
        definitions = [definition for (owner, name), definition in house.declared.items() if owner == crate and (crate, "src", name) in reached]
        text, language = [f"### `{crate}/src`", "", "The structs and enums of the code that the definitions speak of.", ""], "rattle"
    else:
        specs = house.specs(crate, file)
        definitions, language = [each for each in specs.definitions() if (crate, file, each.name) in reached], "agda"
        text = [f"### `{crate}/specs/{file}`", "", " ".join(specs.title), ""]
    for definition in definitions:
        text += ([" ".join(definition.said), ""] if definition.said else []) + [f"```{language}", *definition.shown, "```", ""]
    return text


def main(arguments):
    if any(word not in ("--write", "--text", "--names") for word in arguments):
        sys.exit(__doc__.strip())
    house = House()
    found = lists(house)
    believed = [definition for definitions in found.values() for definition in definitions]
    if "--names" in arguments:
        for title, definitions in found.items():
            print(f"{title}: {lines_of(definitions)} lines")
            files = {}
            for definition in definitions:
                files.setdefault(f"{definition.crate}/{definition.file}", []).append(definition)
            for file, there in files.items():
                print(f"  {file} {lines_of(there)}: {', '.join(sorted(definition.name for definition in there))}")
    wrong = list(amiss(house, believed)) + unnamed() + list(exports())
    text = document(house, found) if not wrong else ""
    if "--text" in arguments:
        print(text, end="")
    elif "--write" in arguments and not wrong:
        TEXT.write_text(text, encoding="utf-8")
        print("believe: docs/BELIEVE.md made anew")
    elif not wrong and (not TEXT.exists() or TEXT.read_text(encoding="utf-8") != text):
        wrong.append("docs/BELIEVE.md is not what it is made from; run ./dev believe --write")
    for line in wrong:
        print(f"believe: {line}", file=sys.stderr)
    if not arguments:
        print(f"believe: {lines_of(believed)} lines, {len(believed)} definitions, {lines_of(found['sheets'])} lines for the sheets")
    sys.exit(1 if wrong else 0)


if __name__ == "__main__":
    main(sys.argv[1:])
