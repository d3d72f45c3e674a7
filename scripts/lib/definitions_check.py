"""What `scripts/definitions --check` looks at: names, order, links and counts of the page, and small texts whose names and whose
faults were worked out by hand."""
import re
from html.parser import HTMLParser
from urllib.parse import unquote

import standards
from definitions import lines_of, lines_of_types, parts_of, promises_of
from definitions_page import Page, file_name, identifier
from names import DEFINITION, UNKNOWN, Meaning, Place, meanings_of
from notation import Imports, file_of, tokens_of
from operator_script import Refused

VOID = {"meta", "br"}
PAGE = "docs/CONTRACTS.md"


class Links(HTMLParser):
    """The ids and links of a page, and what is wrong with its tags."""

    def __init__(self, text):
        super().__init__()
        self.open, self.ids, self.targets, self.faults = [], [], [], []
        self.feed(text)
        self.close()
        self.faults += [f"<{tag}> is not closed" for tag in self.open]

    def handle_starttag(self, tag, attributes):
        if tag not in VOID:
            self.open.append(tag)
        values = dict(attributes)
        if "id" in values:
            self.ids.append(values["id"])
        if "href" in values:
            self.targets.append(values["href"])
        self.faults += [f"<{tag}> has {name}, which is read over the network" for name in values if name == "src"]

    def handle_endtag(self, tag):
        if not self.open or self.open.pop() != tag:
            self.faults.append(f"line {self.getpos()[0]}: </{tag}> closes another tag")


def unknown_names(sources, parts):
    """Each name that stands for nothing, with where it stands."""
    for part in parts:
        for clause in part.promise.clauses:
            yield from (f"{part.promise.title()}: {clause.name}: no {meaning.name}" for meaning in clause.meanings if is_unknown(meaning))
        for found in part.new():
            yield from (f"{found.module}: {found.name}: no {meaning.name}" for meaning in sources.read(found)[2] if is_unknown(meaning))


def is_unknown(meaning):
    return meaning is not None and meaning.kind == UNKNOWN


def broken_links(page):
    """What is wrong with the page's tags, an id that it has twice, a link without a target or to another page."""
    yield from page.faults
    yield from (f"two places have the id {each}" for each in sorted({each for each in page.ids if page.ids.count(each) > 1}))
    known = {f"#{each}" for each in page.ids}
    yield from (f"nothing has the id {target}" for target in page.targets if unquote(target) not in known)


def missing(parts, page):
    """Each definition and type that a promise rests on and that stands nowhere on the page."""
    ids = set(page.ids)
    for part in parts:
        yield from (f"{part.promise.title()}: {found.module}: {found.name} is not on the page" for found in part.rests_on
                    if identifier(found) not in ids)


def order(sources, parts):
    """What does not stand where the page says: files after those that name something in them, definitions of a file after what
    they name, and nothing that only a later part has."""
    before = set()
    for part in parts:
        files = {module: at for at, (module, _) in enumerate(part.files)}
        places = {meaning: (files[meaning.module], at) for at, meaning in enumerate(part.new())}
        for meaning in places:
            for found in sources.cited(meaning):
                if found.kind == DEFINITION and found not in before and found not in places:
                    yield f"{meaning.module}: {meaning.name} names {found.name} of a later part"
                elif found in places and is_misplaced(places[meaning], places[found]):
                    yield f"{meaning.module}: {meaning.name} stands on the wrong side of {found.module}: {found.name}"
        before |= set(places)


def is_misplaced(naming, named):
    """By the numbers of their files and of the definitions."""
    return named[1] > naming[1] if named[0] == naming[0] else named[0] < naming[0]


# ---- docs/CONTRACTS.md

def number(text):
    return int(text.replace(",", ""))


def section_of(text, heading):
    """What stands below a heading, or nothing where there is none."""
    return (text.split(f"\n## {heading}\n") + [""])[1].split("\n## ")[0]


def rows_of(text):
    """The cells of each row of the tables whose first cell has code."""
    return [[cell.strip() for cell in line.strip("|").split("|")] for line in text.splitlines() if line.startswith("| `")]


def counts(sources, parts, text):
    """Where the table of what promises rest on has other numbers than the definitions, and each promise of the page that it lacks.
    A row begins with arguments of `scripts/definitions`."""
    lacking = {part.promise.title() for part in parts}
    for cells in (cells for cells in rows_of(text) if re.fullmatch(r"`\w+ [\w:]+`", cells[0])):
        named = [tuple(cells[0].strip("`").split())]
        refused = list(refusal(sources, named))
        if refused:
            yield refused[0]
            continue
        part = parts_of(sources, promises_of(sources, named))[0]
        lacking.discard(part.promise.title())
        written, right = [number(cell) for cell in cells[1:]], row_of(sources, part, parts[0])
        if written != right:
            yield f"{PAGE}: {cells[0]}: {written}, and not {right}"
    yield from (f"{PAGE} has no row of {title}" for title in sorted(lacking))


def row_of(sources, part, first):
    """The numbers of a promise: definitions, lines, lines on which the first promise does not rest, files, lines of types."""
    definitions = set(part.definitions())
    return [len(definitions), lines_of(sources, definitions), lines_of(sources, definitions - set(first.definitions())),
            len({found.module for found in definitions}), lines_of_types(sources, part.types())]


def lines_by_file(sources, part):
    counted = {}
    for meaning in part.definitions():
        path = file_name(meaning.module)
        counted[path] = counted.get(path, 0) + lines_of(sources, [meaning])
    return counted


def paths_of(names):
    """Paths of which one without a folder is of the folder before it."""
    folder = None
    for name in names:
        path = name if "/" in name else f"{folder}/{name}"
        folder = path.rsplit("/", 1)[0]
        yield path


def reading_table(sources, parts, text):
    """Where the table of what to read has other files or other numbers of lines than the first promise rests on, and the files that
    are named with a number in brackets than the second."""
    written = {}
    for cells in (cells for cells in rows_of(text) if ".antt" in cells[0]):
        written.update(zip(paths_of(re.findall(r"`([^`]+)`", cells[0])), map(number, cells[1].split(", "))))
    yield from differences(written, lines_by_file(sources, parts[0]))
    named = re.findall(r"`([\w/]+\.antt)` \((\d+)\)", text)
    written = dict(zip(paths_of(name for name, _ in named), (int(lines) for _, lines in named)))
    counted = lines_by_file(sources, parts[1])
    yield from differences(written, {path: counted.get(path) for path in written})


def differences(written, counted):
    for path in sorted(written.keys() | counted.keys()):
        if written.get(path) != counted.get(path):
            yield f"{PAGE}: {path}: {written.get(path, 'no')} lines, and not {counted.get(path, 'any')}"


def laws(parts, readme):
    """The laws that README's table of promises names and that the page has not."""
    named = re.findall(r"`((?:access_)?promises::\w+|World::run)`", section_of(readme, "The promises"))
    titles = {part.promise.title() for part in parts}
    return [f"README names {law}" for law in dict.fromkeys(named) if law not in titles]


# ---- texts of which it was worked out by hand what they mean

EXAMPLES = [
    # a text, and its names that others define
    ("f : A → B\nf half = half 1", ["A", "B"]),
    ("f : A\nf = λ half. half 1", ["A"]),
    ("f : A\nf = g (λ half. half 1) half", ["A", "g", "half"]),
    ("f : A\nf = g (λ (half : B). half) half", ["A", "g", "B", "half"]),
    ("f : (half : A) → B half", ["A", "B"]),
    ("f : A\nf a = a.half", ["A"]),
    ("f : A\nf (C half) = half\nf a = half", ["A", "C", "half"]),
    ("f : A\nf a = record a { half = half }", ["A", "half"]),
    ("f : A\nf a = let half = g a in half", ["A", "g"]),
    ("f : A\nf a = do\n  half ← g a\n  half", ["A", ">>=", "g"]),
    ("f : A\nf a = m.half", ["A", "half of m"]),
    ("f : A\nf m = m.half", ["A"]),
    ("f : A\nf m.C = f m.D", ["A", "C of m", "D of m"]),
    ("f : A\nf w = w.m.half", ["A"]),
    ("f : A\nf P = P half", ["A", "half"]),
    ("f : A\nf _ = ⊥ -- half\n-- g", ["A"]),
]
RECORD = ("pub record R (half : A) : Type 0 where\n  pub g : B\n  -- half\n  pub is : g ≡ half", ["A", "B", "≡"])
DATA = ("pub data D : Type 0 where\n  C : A → D", ["A"])
IMPORTED = ["A", "B", "C", "g", "half", ">>=", "≡"]


def read_alone(text, imported):
    """What each token of a definition means where these names are imported, and the module m."""
    head = text if text.startswith("pub ") else f"abbrev pub {text}"
    definition = next(iter(file_of(head).definitions.values()))
    imports = Imports({name: ("imported", name) for name in imported}, {"m": "m"})
    place = Place(imports, {definition.name: ("own", definition.name)}, lambda module, name: Meaning(DEFINITION, module, name))
    return meanings_of(definition, tokens_of(definition.source), place)


def named_in(text):
    """The names of a definition that others define, in order."""
    found = [meaning for meaning in read_alone(text, IMPORTED) if meaning and meaning.module not in ("", "own")]
    return [meaning.name if meaning.module == "imported" else f"{meaning.name} of {meaning.module}" for meaning in found]


def examples():
    for text, expected in [*EXAMPLES, RECORD, DATA]:
        if named_in(text) != expected:
            yield f"{text!r} names {named_in(text)}, and not {expected}"
        elif [meaning for meaning in read_alone(text, IMPORTED) if is_unknown(meaning)]:
            yield f"{text!r} has a name that is not found"
    if [meaning.name for meaning in read_alone("f : A\nf = nowhere half", IMPORTED) if is_unknown(meaning)] != ["nowhere"]:
        yield "a name that nothing defines passes"


FILE = """-- The file.
use Rattle.std.specs.Prelude.{ℕ}

-- About both.

-- one
abbrev pub f : ℕ
f = 1

module _ {A : Type 0} where
  -- two
  -- lines
  abbrev pub g : A → ℕ
  -- inside
  g a = 1

  abbrev pub h : ℕ

  h = 2

-- three
infixl 10 ◌+◌
abbrev pub ◌+◌ : ℕ
"""


def reading():
    file = file_of(FILE)
    read = [(each.name, each.comment, each.remark, each.lines(), bool(each.parameters)) for each in file.definitions.values()]
    expected = [("f", "one", "About both.", 2, False), ("g", "two lines", "About both.", 3, True), ("h", "", "About both.", 2, True),
                ("+", "three", "About both.", 2, False)]
    if (file.header, read) != ("The file.", expected):
        yield f"a file is read as {file.header!r}, {read}"


def sections():
    """What words name of RFCs, after words that named RFC 1."""
    for text, expected in [
            ("an IA_NA (section 21.4) with", [(1, "section 21.4")]),
            ("by figure 2 (RFC 2131, section 2, figure 2; RFC 5107)", [(2131, "section 2, figure 2"), (5107, "")]),
            ("(RFC 8415, sections 16.2 and 16.4 to 16.9): none", [(8415, "sections 16.2 and 16.4 to 16.9")]),
            ("(RFC 2132, section 9.3), and then (section 9.1)", [(2132, "section 9.3"), (2132, "section 9.1")]),
            ("RFC 2131, 4 of them, section 3", [(2131, "")])]:
        if standards.named(text, 1)[0] != expected:
            yield f"{text!r} names {standards.named(text, 1)[0]}, and not {expected}"


def broken_pages():
    for text, fault in [('<p id="a"><a href="#a">', 2), ('<p id="a"></p><p id="a"></p>', 1), ('<a href="#b"></a>', 1), ("<p></a>", 1),
                        ('<a href="other.html"></a>', 1), ('<p id="a"><a href="#a"></a></p>', 0)]:
        found = list(broken_links(Links(text)))
        if len(found) != fault:
            yield f"{text} has {found}"


def checks(sources, named):
    """What is looked at, and what is wrong with it."""
    parts = parts_of(sources, promises_of(sources, named))
    page = Links(Page(sources, parts).html())
    contracts = section_of((sources.root / PAGE).read_text(encoding="utf-8"), "What has to be believed")
    yield "each name stands for something", unknown_names(sources, parts)
    yield "each link has a target", broken_links(page)
    yield "all that is rested on is on the page", missing(parts, page)
    yield "the order is the one that the page says", order(sources, parts)
    yield "the counts of docs/CONTRACTS.md", counts(sources, parts, contracts)
    yield "its table of what to read", reading_table(sources, parts, contracts)
    yield "the laws of README", laws(parts, (sources.root / "README.md").read_text(encoding="utf-8"))


def check(sources, named):
    """Prints what is wrong, and how much is right."""
    passed = failed = 0
    for what, faults in [("what small texts name", examples()), ("how a file is read", reading()),
                         ("which sections words name", sections()),
                         ("what is wrong with broken pages", broken_pages()), ("the page", refusal(sources, named))]:
        passed, failed = counted(what, list(faults), passed, failed)
    if not failed:
        for what, faults in checks(sources, named):
            passed, failed = counted(what, list(faults), passed, failed)
    print(f"{passed} passed, {failed} failed")
    return failed != 0


def refusal(sources, named):
    """Why the page can't be made, if it can't."""
    try:
        promises_of(sources, named)
    except Refused as refused:
        yield refused.words


def counted(what, faults, passed, failed):
    print(*(f"{what}: {fault}" for fault in faults), sep="\n", end="\n" if faults else "")
    return (passed, failed + 1) if faults else (passed + 1, failed)
