"""What comments of the crates say of rules and refusals, for tools/rules and checks/rules.

`-- rule: SENTENCE` above a definition of specs/ states a rule that this definition carries. Where no definition does,
`// rule: SENTENCE` in src/ is above the type, the function whose contract promises it, or the test that shows it. Above
a head comment or `///`, with lines that go on after three spaces, and parts whose names are parted by `;`:

    -- rule: An arrival goes out-of-band if a callback is there,
    --   else in-band.
    --   also: Lines.{posted, logged}; Counts.count_at
    --   clauses: Pipeline::arrive; Pipeline::next: plays
    --   rows: spurious_events; lines_2

The definition, function or test that follows is named by the rule without being listed. A wrong body names its rule by
a line of its .edit: `rule: Lines.arrived`, and if this place has several rules `rule: Lines.arrived: An arrival`, as
many words as tell them apart. `-- refusals: CALLS`, with a part `order:`, says in order for what calls are refused."""
import glob
import os
import re

TOP = os.path.dirname(os.path.dirname(os.path.abspath(__file__)))
BEGINS = re.compile(r"^ *(?:--|//) (rule|refusals): (.*)$")
GOES_ON = re.compile(r"^ *(?:--|//)   (?:(also|clauses|rows|order): )?(\S.*)$")
REMARK = re.compile(r"^ *(?:--|//|#\[)")
FUNCTION = re.compile(r"^\s*(pub(?:\([^)]*\))?\s+)?(?:const |unsafe |extern \"C\" )*fn (\w+)")
IMPL = re.compile(r"^impl(?:<.*?>)?\s+(?:(?P<trait>[\w:]+)(?:<.*>)? for )?&?(?P<type>[\w:]+)")
TRAIT = re.compile(r"^(?:pub )?trait (\w+)")
TYPE = re.compile(r"^\s*pub (?:struct|enum|trait|type) (\w+)", re.MULTILINE)
HEAD = re.compile(r"^ *(?:(?:pub|abbrev|record|data|opaque|unfoldable|local) )+(?:pub )?([\w\-'?]+)", re.MULTILINE)
STEM = re.compile(r"^(\w+(?:::|\.))\{([\w\-'?, ]+)\}$")


def read(path):
    with open(path, encoding="utf-8") as file:
        return file.read()


def files_of(top, pattern):
    """The files of the crates that a pattern names, without what is built."""
    found = glob.glob(os.path.join(top, "crates", pattern), recursive=True)
    return sorted(name for name in found if "/out/" not in name)


def crate_of(path):
    """The crate that a file is of."""
    return path.split("/crates/")[1].split("/")[0]


def owner_of(line, owner):
    """The type whose functions follow a line that isn't indented, and whether they are those of a trait."""
    block, trait = IMPL.match(line), TRAIT.match(line)
    if block:
        return block["type"].split("::")[-1], bool(block["trait"])
    if trait:
        return trait.group(1), True
    return (None, False) if line.startswith("}") or FUNCTION.match(line) else owner


def spelt_out(names):
    """The names of a part, each by itself where several have one stem."""
    found = []
    for name in filter(None, (name.strip() for name in names.split(";"))):
        stem = STEM.match(name)
        found += [stem[1] + one for one in stem[2].split(", ")] if stem else [name]
    return found


class Note:
    """What one comment says, and where: its place is the name of what follows it."""

    def __init__(self, kind, path, line, text):
        self.kind, self.path, self.line, self.text = kind, path, line, text
        self.crate, self.place, self.what, self.bodies = crate_of(path), "", "", []
        self.parts = {"also": "", "clauses": "", "rows": "", "order": ""}

    def definitions(self):
        own = [self.place] if self.what in ("definition", "type") else []
        return own + spelt_out(self.parts["also"])

    def clauses(self):
        own = [self.place] if self.what == "function" and not self.parts["clauses"] else []
        return own + spelt_out(self.parts["clauses"])

    def rows(self):
        return ([self.place] if self.what == "test" else []) + spelt_out(self.parts["rows"])


def noted(path, lines, change):
    """The notes of a file, each with the number of the line after it."""
    now, part = None, None
    for number, line in enumerate([*lines, ""]):
        line = change(line) if REMARK.match(line) else line
        begins, more = BEGINS.match(line), GOES_ON.match(line) if now else None
        if now and not more:
            yield now, number
            now = None
        if begins:
            now, part = Note(begins[1], path, number + 1, begins[2]), None
        elif more:
            part = more[1] or part
            if part:
                now.parts[part] = f"{now.parts[part]} {more[2]}".strip()
            else:
                now.text += " " + more[2]


def owners(lines):
    """For each line of a source the type whose functions are there."""
    owner = (None, False)
    for line in lines:
        if line and not line.startswith(" "):
            owner = owner_of(line, owner)
        yield owner[0]


def follows(path, lines, number, owned):
    """What follows a note, and its name; nothing where neither a definition, a type nor a function does."""
    is_test = False
    while number < len(lines) and REMARK.match(lines[number]):
        is_test |= "#[test]" in lines[number]
        number += 1
    line = lines[number] if number < len(lines) else ""
    if path.endswith(".antt"):
        head = HEAD.match(line)
        return ("definition", f"{os.path.basename(path)[:-5]}.{head[1]}") if head else None
    kind, function = TYPE.match(line), FUNCTION.match(line)
    if function:
        name = f"{owned[number]}::{function[2]}" if owned[number] else function[2]
        return "test" if is_test else "function", name
    return ("type", kind[1]) if kind else None


def notes(top, change=lambda line: line):
    """All notes of the crates in order, or what they would be with each of their lines changed."""
    found = []
    for path in files_of(top, "*/specs/**/*.antt") + files_of(top, "*/src/**/*.rt"):
        lines = read(path).split("\n")
        if not any(BEGINS.match(line) for line in lines):
            continue
        owned = list(owners(lines))
        for note, number in noted(path, lines, change):
            note.what, note.place = follows(path, lines, number, owned) or ("", "")
            found.append(note)
    return sorted(found, key=lambda note: (note.crate, note.path, note.line))


def bodies(top):
    """Each wrong body: its crate, its name, and the rules that it names."""
    for path in files_of(top, "*/planted/*.edit") + files_of(top, "*/must-fail/*.edit"):
        said = re.findall(r"^rule: (.*)$", read(path), re.MULTILINE)
        yield crate_of(path), os.path.basename(path)[:-5], said


def meant(rules, said):
    """The rules that a wrong body's line may mean."""
    place, _, words = said.partition(": ")
    return [rule for rule in rules if rule.place == place and rule.text.startswith(words)]


def tie(rules, edits):
    """Gives each rule its wrong bodies; returns what is wrong with a line of theirs."""
    faults, by_place = [], {}
    for rule in rules:
        by_place.setdefault(rule.place, []).append(rule)
    for crate, name, said in edits:
        for line in said:
            found = meant(by_place.get(line.partition(": ")[0], []), line)
            if len(found) == 1:
                found[0].bodies.append((crate, name))
            else:
                faults.append(f"{crate}/{name}.edit: {'no rule' if not found else 'more than one rule'} is {line}")
    return faults
