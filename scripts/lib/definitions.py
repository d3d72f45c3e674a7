"""What a promise of the code rests on: the definitions that its clauses name, those that these name, and so on, as the
sources have them."""
import re
from dataclasses import dataclass

from names import DEFINITION, LIBRARY, TYPE, UNKNOWN, Meaning, Place, meanings_of, meanings_of_clause
from notation import file_of, imports_of, tokens_of, words_of
from operator_script import Refused

CLAUSE = re.compile(r"(?P<comment>(?:[ \t]*//[^\n]*\n)*)[ \t]*(?P<kind>requires|ensures)(?: (?P<name>\w+))? \{")
DECLARED = re.compile(r"^(?P<module>\w+)\.specs\.declared\.(?P<path>[\w.]+)$")


@dataclass
class Clause:
    kind: str
    name: str
    comment: str
    tokens: list
    meanings: list


@dataclass
class Promise:
    """A function with the clauses that have to be believed."""
    crate: str
    name: str
    path: str
    comment: str
    clauses: list
    # what the code shows of the function's own type, as tokens and what they mean
    shown: tuple

    def title(self):
        return self.name if "::" in self.name else f"{self.crate}::{self.name}"


class Sources:
    """The definitions, types and functions of all crates. What is read of them is kept."""

    def __init__(self, root):
        self.root = root
        self.crates = {path.name for path in (root / "crates").iterdir() if path.is_dir()}
        self.files, self.read_tokens, self.types = {}, {}, {}

    def file(self, module):
        """The definitions of a module, or None where it is no file of these crates."""
        if module not in self.files:
            path = self.path_of(module)
            self.files[module] = file_of(path.read_text(encoding="utf-8")) if path and path.is_file() else None
        return self.files[module]

    def path_of(self, module):
        crate, *inside = module.split(".")
        return self.root / "crates" / crate / ("/".join(inside) + ".antt") if crate in self.crates else None

    def resolve(self, module, name):
        """What a name of a module means."""
        if module.split(".")[0] not in self.crates:
            return Meaning(LIBRARY, module, name)
        if ".declared." in module:
            return self.declared(module, name)
        found = self.file(module)
        owner = found.owner_of(name) if found else None
        if owner:
            return Meaning(DEFINITION, module, owner)
        if found and name in found.imports.names:
            return self.resolve(*found.imports.names[name])
        return Meaning(UNKNOWN, module, name)

    def declared(self, module, name):
        """A type of the code, by its own name or by one of its variants, or a constant."""
        path = DECLARED.match(module)["path"].split(".")
        if path[-1] in ("TheVariants", "TheInside"):
            path, name = path[:-1], path[-2]
        elif path[-1] == "TheConstants":
            path = path[:-1] + [name]
        elif path[-1] != name:
            path.append(name)
        found = f"{module.split('.')[0]}.{'.'.join(path)}"
        return Meaning(TYPE if self.declaration(found) else UNKNOWN, found, name)

    def declaration(self, where):
        """The path of the file that declares a type or a constant, with its comment and text, or None."""
        if where not in self.types:
            crate, *inside, name = where.split(".")
            source = self.root / "crates" / crate / "src"
            paths = [source / ("/".join(inside[:count]) + ".rt") for count in range(len(inside), 0, -1)]
            paths += [source / "lib.rt", *sorted(source.glob("**/*.rt"))]
            self.types[where] = next(filter(None, (declared_in(self.root, path, name) for path in paths)), None)
        return self.types[where]

    def read(self, meaning):
        """A definition with its tokens and what they mean."""
        key = (meaning.module, meaning.name)
        if key not in self.read_tokens:
            found = self.file(meaning.module)
            definition = found.definitions[meaning.name]
            tokens = tokens_of(definition.source)
            own = {name: (meaning.module, each.name) for each in found.definitions.values() for name in (each.name, *each.constructors)}
            self.read_tokens[key] = definition, tokens, meanings_of(definition, tokens, Place(found.imports, own, self.resolve))
        return self.read_tokens[key]

    def cited(self, meaning):
        """What a definition names, in order, each once and without itself."""
        return list(dict.fromkeys(found for found in self.read(meaning)[2] if found and found.is_found() and found != meaning))

    def closure(self, roots):
        """All that these names rest on, themselves included."""
        found, todo = set(), list(roots)
        while todo:
            meaning = todo.pop()
            if meaning in found:
                continue
            found.add(meaning)
            if meaning.kind == DEFINITION:
                todo += self.cited(meaning)
        return found

    def promise(self, crate, function):
        """A function of a crate by its name, or by its type and its name."""
        if crate not in self.crates:
            raise Refused(2, f"there is no crate {crate}")
        owner, _, name = function.rpartition("::")
        found = [each for path in sorted((self.root / "crates" / crate / "src").glob("**/*.rt"))
                 for each in functions_in(path.read_text(encoding="utf-8"), name, owner, crate, path, self)]
        if len(found) != 1:
            names = ": " + ", ".join(each.name for each in found) if found else ""
            raise Refused(2, f"{crate} has {'several functions' if found else 'no function'} {function} with clauses{names}")
        return found[0]


def declared_in(root, path, name):
    """The declaration of a type or a constant in a file, with the comment above it."""
    if not path.is_file():
        return None
    declared = re.search(rf"^(?:pub(?:\(crate\))? )?(?:(?:struct|enum) {name}\b[^;{{]*(?:;|\{{.*?^\}})|const {name}:[^;]*;)",
                         path.read_text(encoding="utf-8"), re.M | re.S)
    if not declared:
        return None
    return str(path.relative_to(root)), comment_above(declared.string, declared.start()), declared.group()


def comment_above(text, at):
    """The comment that ends right before this place, past attributes."""
    lines, comment = text[:at].split("\n")[:-1], []
    while lines and re.match(r"\s*(///|#\[|#!\[)", lines[-1]):
        line = lines.pop()
        if "///" in line:
            comment.insert(0, line)
    return words_of(comment)


def block_from(text, at):
    """Where the bracket { right before this place is closed."""
    depth = 1
    while depth:
        depth += {"{": 1, "}": -1}.get(text[at], 0)
        at += 1
    return at


def functions_in(text, name, owner, crate, path, sources):
    """Each function of this name in a file that has clauses; of this type, where one is given."""
    for begun in re.finditer(rf"^[ \t]*pub fn {name}\b", text, re.M):
        its_type = owner_at(text, begun.start())
        head = re.compile(r"\n[ \t]*(?:requires|ensures)\b|\{").search(text, begun.end())
        if owner not in ("", its_type) or not head or head.group() == "{":
            continue
        signature = text[begun.end():head.start()]
        bound = {"self", "result", *re.findall(r"(\w+)\s*:", signature)}
        clauses = clauses_from(text, head.start() + 1, Place(imports_of(text), {}, sources.resolve), bound)
        shown = f"{its_type}::{name}" if its_type else name
        yield Promise(crate, shown, str(path.relative_to(sources.root)), comment_above(text, begun.start()), clauses,
                      shown_of(text, its_type, sources))


def owner_at(text, at):
    """The type whose `impl` a place is in, or nothing."""
    before = re.split(r"^\}", text[:at], flags=re.M)[-1]
    found = re.findall(r"^impl(?:<[^>]*>)? (?:[\w<>]+ for )?(\w+)", before, re.M)
    return found[-1] if found else ""


def shown_of(text, its_type, sources):
    """What contracts see of a type of the code: the type of its value, and each field of that by fields of the code."""
    model = re.search(rf"^impl Model for {its_type} \{{$.*?^\}}", text, re.M | re.S) if its_type else None
    if not model:
        return [], []
    lines = re.findall(r"^ *ghost ((?:Value|view) = \{ .* \});$", model.group(), re.M)
    imports = imports_of(text)
    imports.names.update(imports_of(model.group()).names)
    tokens = tokens_of("\n".join(lines))
    return tokens, meanings_of_clause(tokens, Place(imports, {}, sources.resolve), {"Value", "view"})


def clauses_from(text, at, place, bound):
    """The clauses that follow one another from here on."""
    clauses = []
    while True:
        at += len(re.compile(r"\s*?(?=[ \t]*(?://|requires|ensures|\{|;))").match(text, at).group())
        begun = CLAUSE.match(text, at)
        if not begun:
            return clauses
        at = block_from(text, begun.end())
        inside = re.sub(r"\n +", "\n    ", text[begun.end():at - 1].strip())
        tokens = tokens_of(inside)
        clauses.append(Clause(begun["kind"], begun["name"] or "", words_of(begun["comment"].splitlines()), tokens,
                              meanings_of_clause(tokens, place, bound)))


def roots_of(promise):
    """What the clauses of a promise name, in order."""
    return list(dict.fromkeys(meaning for clause in promise.clauses for meaning in named_by(clause)))


def named_by(clause):
    return [meaning for meaning in clause.meanings if meaning and meaning.is_found()]


@dataclass
class Part:
    """A promise, all that it rests on, and the files with what no earlier part has, in the order in which to read them."""
    promise: Promise
    rests_on: set
    files: list

    def new(self):
        return [meaning for _, definitions in self.files for meaning in definitions]

    def definitions(self):
        return [meaning for meaning in self.rests_on if meaning.kind == DEFINITION]

    def types(self):
        return {meaning.module for meaning in self.rests_on if meaning.kind == TYPE}


def promises_of(sources, named):
    """The promises of these crates and functions."""
    return [sources.promise(crate, function) for crate, function in named]


def parts_of(sources, promises):
    parts, before = [], set()
    for promise in promises:
        rests_on = sources.closure(roots_of(promise))
        new = {meaning for meaning in rests_on if meaning.kind == DEFINITION} - before
        before |= new
        parts.append(Part(promise, rests_on, in_order(sources, roots_of(promise), new)))
    return parts


def in_order(sources, roots, new):
    """Files with their definitions: a file after all that name something in it, and what is named first as early as that
    allows; within a file as the file has them, where a definition stands after what it names."""
    rank, naming = ranks(sources, roots, new), {}
    for meaning in new:
        for found in sources.cited(meaning):
            if found in new and found.module != meaning.module:
                naming.setdefault(found.module, set()).add(meaning.module)
    order, left = [], sorted(rank, key=rank.get)
    while left:
        ready = (module for module in left if not naming.get(module, set()) & set(left))
        order.append(next(ready, left[0]))
        left.remove(order[-1])
    return [(module, of_file(sources, module, new)) for module in order]


def ranks(sources, roots, new):
    """When each file is named first by who goes from the clauses down to the last definition, one name after the other."""
    rank, seen, todo = {}, set(), list(reversed(roots))
    while todo:
        meaning = todo.pop()
        if meaning in seen or meaning.kind != DEFINITION:
            continue
        seen.add(meaning)
        if meaning in new:
            rank.setdefault(meaning.module, len(rank))
        todo += reversed(sources.cited(meaning))
    return rank


def of_file(sources, module, wanted):
    found = [Meaning(DEFINITION, module, name) for name in sources.file(module).definitions]
    return [meaning for meaning in found if meaning in wanted]


def lines_of(sources, meanings):
    return sum(sources.read(meaning)[0].lines() for meaning in meanings)


def lines_of_types(sources, types):
    return sum(sources.declaration(where)[2].count("\n") + 1 for where in types)
