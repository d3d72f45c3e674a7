"""The page of definitions as HTML: contents, each promise with its clauses, the definitions file by file, the types of the
code, the names of the toolchain's libraries, the RFCs' sections and an index."""
import re
from html import escape
from urllib.parse import quote

import standards
from definitions import lines_of, lines_of_types, named_by
from names import DEFINITION, LIBRARY, TYPE
from notation import COMMENT

TITLE = "What has to be believed"
STYLE = """
:root { color-scheme: light dark; --text: #1b1d21; --back: #fdfdfc; --code: #f3f3f0; --soft: #61656d; --link: #0b57a4; --line: #d9d9d4; }
@media (prefers-color-scheme: dark) {
  :root { --text: #e4e4e0; --back: #17191c; --code: #22252a; --soft: #a0a4ab; --link: #8ab8f2; --line: #3a3e45; }
}
body { color: var(--text); background: var(--back); font: 1rem/1.5 system-ui, sans-serif; max-width: 68rem; margin: 0 auto; padding: 1rem; }
h2 { margin-top: 3rem; border-top: 2px solid var(--line); padding-top: 1rem; }
h3 { margin-top: 2.5rem; border-top: 1px solid var(--line); padding-top: .8rem; }
h4 { margin: 1.6rem 0 .2rem; }
p { margin: .3rem 0; }
pre { background: var(--code); padding: .6rem .8rem; overflow-x: auto; margin: .4rem 0; font-size: .875rem; line-height: 1.45; }
code, pre { font-family: ui-monospace, "DejaVu Sans Mono", monospace; }
a { color: var(--link); text-decoration: none; }
a:hover { text-decoration: underline; }
:target { outline: 2px solid var(--link); outline-offset: .2rem; }
.c, .s { color: var(--soft); }
.s { font-size: .875rem; }
.r { font-style: italic; }
table { border-collapse: collapse; }
td, th { border-bottom: 1px solid var(--line); padding: .2rem .8rem .2rem 0; text-align: left; vertical-align: top; }
td.n, th.n { text-align: right; }
nav ul { columns: 18rem; padding-left: 1.2rem; }
"""
NOTATION = [
    ("abbrev f : A → B", "a function or a constant with its type; below it its equations, of which the first that fits holds. "
                         "unfoldable is the same"),
    ("record", "fields, each with its type. Where a field's type is a statement, it holds of what is built so"),
    ("data", "one of the forms that are listed"),
    ("record a { f = x }", "a, but with x as its field f"),
    ("a.f", "the field f of a; a.0 and a.1 are the two of a pair. After a type that a caller chooses it is what its trait shows"),
    ("λ x. t", "the function that makes t of x"),
    ("A → B", "a function; between statements: if A, then B"),
    ("(x : A) → B", "B for each x"),
    ("(x : A) × B", "an x with which B holds; A × B is both, A ⊎ B one of two, ¬ A not A, ⊤ what always holds, ⊥ what never does"),
    ("a ≡ b", "these are the same; a == b is the test of it"),
    ("x ∷ xs", "the list that begins with x; [] is the empty one, ++ puts two together"),
    ("Some x, None", "a value, or none; Ok x and Err e are a result, or why there is none"),
    ("do x ← a ..", "the steps one after the other; the first that gives nothing ends them"),
    ("self.old, self.new, self.now", "a value before and after a call, and where it stays as it is; result is what the call returns"),
]


def identifier(meaning):
    """Where a definition, a type or a name of a library stands on the page."""
    prefix = {DEFINITION: "", TYPE: "type.", LIBRARY: "library."}[meaning.kind]
    name = meaning.module if meaning.kind == TYPE else f"{meaning.module}.{meaning.name}"
    return prefix + re.sub(r"[^\w.-]", lambda sign: f"-{ord(sign.group()):x}", name.replace(".specs.", ".", 1))


def link(target, text):
    return f'<a href="#{quote(target)}">{escape(text)}</a>'


def words(text):
    """A comment as HTML."""
    return re.sub(r"`([^`]+)`", r"<code>\1</code>", escape(text, quote=False))


def counted(number, what):
    return f"{number:,} {what if number == 1 else what + 's'}"


def file_name(module):
    return module.replace(".", "/") + ".antt"


class Page:
    """A page of these parts."""

    def __init__(self, sources, parts):
        self.sources, self.parts = sources, parts
        self.shown = {meaning for part in parts for meaning in part.new()}
        self.rests_on = set().union(*(part.rests_on for part in parts))
        names = [meaning.name for meaning in self.shown]
        self.ambiguous = {name for name in names if names.count(name) > 1}
        self.cited_by = self.all_citations()
        self.rests = [[(clause, sources.closure(named_by(clause))) for clause in part.promise.clauses] for part in parts]
        self.references = {}
        for module in dict.fromkeys(module for part in parts for module, _ in part.files):
            self.references.update(standards.references_of(module, sources.file(module)))

    def all_citations(self):
        """Links to all that names a definition or a type: clauses first, and then definitions as they stand on the page."""
        citations = {}
        for part in self.parts:
            for clause in part.promise.clauses:
                for found in dict.fromkeys(named_by(clause)):
                    citations.setdefault(found, []).append(self.clause_link(part.promise, clause))
        for meaning in (meaning for part in self.parts for meaning in part.new()):
            for found in self.sources.cited(meaning):
                citations.setdefault(found, []).append(self.definition_link(meaning))
        return citations

    def definition_link(self, meaning):
        """A link to a definition, with its file where others have the name too."""
        file = meaning.module.rsplit(".", 1)[1]
        return link(identifier(meaning), f"{file}.{meaning.name}" if meaning.name in self.ambiguous else meaning.name)

    def html(self):
        parts = [self.part(number, part) for number, part in enumerate(self.parts, 1)]
        body = [f"<h1>{TITLE}</h1>", self.introduction(), self.contents(), self.notation(), *parts,
                self.types(), self.libraries(), self.standards(), self.index()]
        return (f'<!DOCTYPE html>\n<html lang="en">\n<head>\n<meta charset="utf-8">\n<title>Higvaszte: {TITLE.lower()}</title>\n'
                f'<meta name="viewport" content="width=device-width, initial-scale=1">\n<style>{STYLE}</style>\n</head>\n<body>\n'
                + "\n".join(body) + "\n</body>\n</html>\n")

    # ---- the head of the page

    def introduction(self):
        rows = "".join(self.count_row(number, part) for number, part in enumerate(self.parts, 1))
        return (
            "<p>Each promise below is proved: whoever believes the definitions that its clauses rest on has to read no code, no lemma "
            "and no proof. They stand here in the order in which to read them. A part has what no part before it has; in a part, a "
            "file stands after all that name something in it, and within a file a definition stands after what it names.</p>"
            "<p>Each name of a definition or of a type of the code is a link; other names are bound where they stand, fields, or the "
            "toolchain's. Below each definition stands what names it, and under which promises it stands, by their numbers, with the "
            "clauses where not every clause of a promise rests on it. Lines are those of definitions without empty lines and without the comments above them.</p>"
            '<table><tr><th>Promise</th><th class="n">Definitions</th><th class="n">Lines</th><th class="n">Files</th>'
            '<th class="n">Types</th><th class="n">Their lines</th><th class="n">New lines</th></tr>' + rows + "</table>")

    def count_row(self, number, part):
        of_all, types = part.definitions(), part.types()
        numbers = [len(of_all), lines_of(self.sources, of_all), len({meaning.module for meaning in of_all}),
                   len(types), lines_of_types(self.sources, types), lines_of(self.sources, part.new())]
        cells = "".join(f'<td class="n">{cell:,}</td>' for cell in numbers)
        return f"<tr><td>{link(f'part-{number}', part.promise.title())}</td>{cells}</tr>"

    def contents(self):
        rows = [f"<h3>{number}. {link(f'part-{number}', part.promise.title())}</h3><ul>" + "".join(
                    f"<li>{link(f'part-{number}.{module}', file_name(module.replace('.specs', '')))} "
                    f'<span class="s">{lines_of(self.sources, found)}</span></li>' for module, found in part.files) + "</ul>"
                for number, part in enumerate(self.parts, 1)]
        ends = [("notation", "The notation"), ("types", "Types of the code"), ("libraries", "Names of the toolchain's libraries"),
                ("standards", "Sections of RFCs"), ("index", "Index")]
        return ('<nav id="contents"><h2>Contents</h2><ul>' + "".join(f"<li>{link(*end)}</li>" for end in ends) + "</ul>"
                + "".join(rows) + "</nav>")

    def notation(self):
        rows = "".join(f"<tr><td><code>{escape(form)}</code></td><td>{escape(text)}</td></tr>" for form, text in NOTATION)
        return f'<h2 id="notation">The notation</h2><table>{rows}</table>'

    # ---- a promise, its files and their definitions

    def clause_place(self, promise, clause):
        return f"clause.{promise.crate}.{promise.name.replace('::', '.')}.{clause.kind}.{clause.name}"

    def clause_link(self, promise, clause):
        return link(self.clause_place(promise, clause), f"{promise.title()}: {clause.name}" if clause.name else promise.title())

    def part(self, number, part):
        promise = part.promise
        head = (f'<section><h2 id="part-{number}">{number}. <code>{promise.title()}</code></h2>'
                f'<p class="s">{promise.path}</p><p>{words(promise.comment)}</p>')
        shown = f"<p>What shows of the code's value:</p><pre>{self.code(*promise.shown)}</pre>" if promise.shown[0] else ""
        clauses = "".join(self.clause(promise, clause) for clause in promise.clauses)
        count = f"{counted(len(part.new()), 'definition')} in {counted(len(part.files), 'file')}"
        besides = "It rests on" if number == 1 else "Besides what stands above it rests on"
        files = "".join(self.file(number, module, found) for module, found in part.files)
        return f"{head}{shown}<h3>The clauses</h3>{clauses}<p>{besides} {count}.</p>{files}</section>"

    def clause(self, promise, clause):
        comment = f"<p>{words(clause.comment)}</p>" if clause.comment else ""
        return (f'{comment}<pre id="{escape(self.clause_place(promise, clause))}">{clause.kind} {clause.name}\n    '
                f"{self.code(clause.tokens, clause.meanings)}</pre>")

    def file(self, number, module, found):
        """The file's own words once, each remark before the first definition that it is over."""
        lines, remark = [], None
        for meaning in found:
            definition = self.sources.read(meaning)[0]
            if definition.remark not in ("", remark):
                lines.append(f'<p class="r">{words(definition.remark)}</p>')
            remark = definition.remark
            lines.append(self.definition(meaning))
        header = self.sources.file(module).header
        count = f"{counted(lines_of(self.sources, found), 'line')} of {counted(len(found), 'definition')}"
        return (f'<h3 id="part-{number}.{module}">{escape(file_name(module))}</h3><p>{words(header)}</p>'
                f'<p class="s">{count}{self.above(number, module)}</p>' + "\n".join(lines))

    def above(self, number, module):
        """Where more of a file stands, in the parts before."""
        places = [before for before, part in enumerate(self.parts[:number - 1], 1) if module in dict(part.files)]
        links = " and ".join(link(f"part-{before}.{module}", f"part {before}") for before in places)
        return f", besides those in {links}" if links else ""

    def definition(self, meaning):
        definition, tokens, meanings = self.sources.read(meaning)
        comment = f"<p>{words(definition.comment)}</p>" if definition.comment else ""
        parameters = f'<span class="c">{escape(definition.parameters)}</span>\n' if definition.parameters else ""
        return (f'<article id="{identifier(meaning)}"><h4><code>{escape(meaning.name)}</code></h4>{comment}'
                f"<pre>{parameters}{self.code(tokens, meanings)}</pre>{self.below(meaning)}</article>")

    def below(self, meaning):
        """The RFC's section, what names the definition, and the clauses that rest on it, by the numbers of their promises."""
        references = self.references[meaning.module, meaning.name]
        rows = ["; ".join(escape(standards.title(*reference)) for reference in references)] if references else []
        rows.append("Named by " + ", ".join(self.cited_by[meaning]) + ".")
        rows.append("Under " + "; ".join(filter(None, (self.under(number, meaning) for number in range(len(self.parts))))) + ".")
        return "".join(f'<p class="s">{row}</p>' for row in rows)

    def under(self, number, meaning):
        """The clauses of a promise that rest on a definition: its number alone where each of them does."""
        named = [clause.name for clause, rests_on in self.rests[number] if meaning in rests_on]
        if not named:
            return ""
        clauses = "" if len(named) == len(self.rests[number]) else ": " + ", ".join(named)
        return link(f"part-{number + 1}", str(number + 1)) + clauses

    def code(self, tokens, meanings):
        """Code with a link at each name that stands on the page."""
        return "".join(self.piece(token, meaning) for token, meaning in zip(tokens, meanings))

    def piece(self, token, meaning):
        if token.kind == COMMENT:
            return f'<span class="c">{escape(token.text, quote=False)}</span>'
        if meaning in self.rests_on and meaning.kind != LIBRARY:
            return link(identifier(meaning), token.text)
        return escape(token.text, quote=False)

    # ---- the end of the page

    def types(self):
        found = {}
        for meaning in (meaning for meaning in self.rests_on if meaning.kind == TYPE):
            found.setdefault(meaning.module, []).append(meaning)
        rows = [self.type(where, found[where]) for where in sorted(found)]
        return ('<section><h2 id="types">Types of the code</h2><p>What definitions say of a value of such a type they say of its fields '
                "or its form; a moment, a circuit and the like are numbers there.</p>" + "\n".join(rows) + "</section>")

    def type(self, where, meanings):
        path, comment, text = self.sources.declaration(where)
        named = dict.fromkeys(row for meaning in sorted(meanings, key=str) for row in self.cited_by.get(meaning, []))
        name = where.rsplit(".", 1)[1]
        return (f'<article id="{identifier(meanings[0])}"><h4><code>{name}</code></h4><p>{words(comment)}</p>'
                f'<pre>{escape(text, quote=False)}</pre><p class="s">{path}. Named by {", ".join(named)}.</p></article>')

    def libraries(self):
        found = sorted((meaning.module, meaning.name, meaning) for meaning in self.rests_on if meaning.kind == LIBRARY)
        rows = "".join(f'<li id="{identifier(meaning)}"><code>{escape(name)}</code> <span class="s">{escape(module)}</span></li>'
                       for module, name, meaning in found)
        return ('<nav><h2 id="libraries">Names of the toolchain\'s libraries</h2><p>The toolchain\'s own pages say what these mean.</p>'
                f"<ul>{rows}</ul></nav>")

    def standards(self):
        found = {}
        for reference, named in self.all_references():
            found.setdefault(reference, []).append(named)
        rows = "".join(f"<tr><td>{escape(standards.title(*reference))}</td><td>{', '.join(found[reference])}</td></tr>"
                       for reference in sorted(found, key=standards.place))
        return f'<h2 id="standards">Sections of RFCs</h2><table>{rows}</table>'

    def all_references(self):
        """Each section that the words of a file, a definition or a type name, with a link to it."""
        seen = set()
        for number, module, definitions in ((number, *file) for number, part in enumerate(self.parts, 1) for file in part.files):
            for reference in standards.named(self.sources.file(module).header, None)[0] if module not in seen else []:
                yield reference, link(f"part-{number}.{module}", file_name(module))
            seen.add(module)
            for meaning in definitions:
                yield from ((reference, self.definition_link(meaning)) for reference in self.references[module, meaning.name])
        for where, meaning in sorted({meaning.module: meaning for meaning in self.rests_on if meaning.kind == TYPE}.items()):
            _, comment, text = self.sources.declaration(where)
            inside = " ".join(re.findall(r"///?\s*(.*)", text))
            for reference in dict.fromkeys(standards.named(f"{comment} {inside}", None)[0]):
                yield reference, link(identifier(meaning), where.rsplit(".", 1)[1])

    def index(self):
        found = sorted(self.shown, key=lambda meaning: (meaning.name.lower(), meaning.module))
        rows = "".join(f'<li>{link(identifier(meaning), meaning.name)} <span class="s">{file_name(meaning.module)}</span></li>'
                       for meaning in found)
        return f'<nav><h2 id="index">Index</h2><ul>{rows}</ul></nav>'
