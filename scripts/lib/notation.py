"""The notation of definitions, as text: the words of a line, the imports of a file, and its definitions with their comments.

A definition begins with `abbrev`, `unfoldable`, `pub`, `record` or `data`, or with its name and a colon, at the left margin or
within a `module _ .. where`. What stands below it, up to the next one, is its own, but for comments and empty lines at its end."""
import re
from dataclasses import dataclass, field

WORD, NUMBER, STRING, COMMENT, SPACE, SIGN = "word", "number", "string", "comment", "space", "sign"
KEYWORDS = {"abbrev", "unfoldable", "opaque", "pub", "record", "data", "where", "module", "infixl", "infixr", "infix",
            "let", "in", "do", "if", "then", "else", "Type", "λ"}
TOKEN = re.compile(r"""(?P<comment>--[^\n]*|//[^\n]*)|(?P<string>"(?:[^"\\]|\\.)*")|(?P<space>\s+)
    |(?P<number>\d\w*)|(?P<word>λ|[^\W\d]\w*)|(?P<sign>\[\]|[][(){},;.:]|[^\s\w\][(){},;.:"]+ℤ?)""", re.X)
BEGINNING = re.compile(r"(?:(?:abbrev|unfoldable|opaque|pub)\s+)*(?:(?:record|data)\s+(?P<type>\S+)|(?P<name>[^\s:(]+)\s*:(?=\s))")
USE = re.compile(r"^\s*(?:pub )?(?:ghost )?use Rattle\.(?P<module>[\w.]+?)(?:\.\{(?P<names>[^}]*)\}| as (?P<alias>\w+))", re.M)


@dataclass
class Token:
    kind: str
    text: str


@dataclass
class Imports:
    """The module of each imported name, with its name there, and the modules that have a name here."""
    names: dict = field(default_factory=dict)
    modules: dict = field(default_factory=dict)


@dataclass
class Definition:
    """A definition: the comment right above it, the last comment before it that stands by itself, and its text."""
    name: str
    kind: str
    comment: str
    remark: str
    source: str
    parameters: str
    constructors: list

    def lines(self):
        return len([line for line in self.source.splitlines() if line.strip()])


@dataclass
class File:
    header: str
    imports: Imports
    definitions: dict

    def owner_of(self, name):
        """The definition of this name, or the type that has it as a constructor."""
        if name in self.definitions:
            return name
        return next((found.name for found in self.definitions.values() if name in found.constructors), None)


def tokens_of(text):
    return [Token(match.lastgroup, match.group()) for match in TOKEN.finditer(text)]


def plain(name):
    """The name of an operator without the places of its operands."""
    return name.replace("◌", "")


def imports_of(text):
    found = Imports()
    for use in USE.finditer(text):
        if use["alias"]:
            found.modules[use["alias"]] = use["module"]
            continue
        for name in (name.strip() for name in use["names"].split(",") if name.strip()):
            there, _, here = name.partition(" as ")
            found.names[plain(here or there)] = use["module"], plain(there)
    return found


def words_of(comment_lines):
    """The text of some lines of comment."""
    return " ".join(re.sub(r"^[\s/-]+", "", line).strip() for line in comment_lines).strip()


def constructors_of(source):
    """What stands before a colon at the first depth below `data`."""
    return re.findall(r"^ {2}(?:pub )?([^\s:()-]\S*) :", source, re.M) if re.match(r"(pub )?data ", source) else []


def begins(line, margin):
    """The beginning of a definition at this margin, if the line has one."""
    if line[margin:margin + 1] in ("", " ") or line.startswith(("module ", "infix", "--")) or USE.match(line):
        return None
    return BEGINNING.match(line, margin)


class Reader:
    """Reads a file's definitions, line by line."""

    def __init__(self, text):
        self.definitions, self.margin, self.parameters = {}, 0, ""
        self.body, self.above, self.remark, self.name = [], [], "", None
        self.header = None
        for line in text.splitlines():
            self.take(line)
        self.close()

    def take(self, line):
        if line and not line.startswith(" "):
            self.margin = 0
        begun = begins(line, self.margin)
        if begun:
            self.open(line, plain(begun["type"] or begun["name"]))
        elif line.startswith("module "):
            self.close()
            self.margin, self.parameters = 2, line
            self.remarks()
        elif line.startswith("infix"):
            self.close()
            self.above.append(line)
        elif USE.match(line):
            self.close()
            self.header = self.header if self.header is not None else words_of(self.above)
            self.above = []
        else:
            self.keep(line)

    def keep(self, line):
        """A line of the definition that is open, or of a comment, which may be the next one's."""
        comment = line.startswith(" " * self.margin + "--")
        if comment or not line.strip():
            self.above.append(line)
        else:
            self.body += self.above + [line]
            self.above = []

    def open(self, line, name):
        """What ended before it: a comment right above is its own, and each one before that is a remark."""
        self.close()
        own = []
        while self.above and self.above[-1].strip():
            own.insert(0, self.above.pop())
        self.remarks()
        self.fixity = [each for each in own if each.startswith("infix")]
        self.comment = words_of(each for each in own if not each.startswith("infix"))
        self.name, self.body = name, self.fixity + [line]
        self.inner = self.parameters if self.margin else ""

    def remarks(self):
        """The last comment that stands by itself, without the line of dashes before it."""
        blocks = re.split(r"\n\s*\n", "\n".join(self.above))
        found = [words_of(block.splitlines()) for block in blocks if block.strip()]
        self.remark = found[-1] if found else self.remark
        self.above = []

    def close(self):
        if self.name is not None:
            margin = 2 if self.inner else 0
            source = "\n".join(line[margin:].rstrip() for line in self.body if line.strip())
            words = source.split("\n")[len(self.fixity)].split()
            kind = next((word for word in words if word in ("record", "data")), words[0])
            self.definitions[self.name] = Definition(self.name, kind, self.comment, self.remark, source, self.inner,
                                                     constructors_of(source))
        self.name, self.body = None, []


def file_of(text):
    reader = Reader(text)
    return File(reader.header or "", imports_of(text), reader.definitions)
