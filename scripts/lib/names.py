"""What each name in a definition or a clause stands for: a definition, a type of the code, a name of the toolchain's
libraries, or what is bound there."""
from dataclasses import dataclass

from notation import COMMENT, KEYWORDS, NUMBER, SPACE, STRING, WORD, plain, tokens_of

DEFINITION, TYPE, LIBRARY, BOUND, UNKNOWN = "definition", "type", "library", "bound", "unknown"
# signs that no file imports
SYNTAX = {"(", ")", "{", "}", "[", "]", ",", ";", ".", ":", "=", "→", "×", "←"}
# names of the language, which no file imports
LANGUAGE = {"⊥", "¬", "Unit", "tt", "absurd"}
# constructors that are written like what is bound
SMALL_CONSTRUCTORS = {"true", "false", "suc", "zero"}
OPENING, CLOSING = {"(", "{", "["}, {")", "}", "]"}


@dataclass(frozen=True)
class Meaning:
    """A kind, and for what is defined somewhere the module and the name there."""
    kind: str
    module: str = ""
    name: str = ""

    def is_found(self):
        """Whether it is defined somewhere else than where it is named."""
        return self.kind in (DEFINITION, TYPE, LIBRARY)


NONE = Meaning(BOUND)


class Reading:
    """Goes over the tokens of a text once and says what each one means, or None for what is no name. What is bound holds up
    to the end of the brackets that it stands in."""

    def __init__(self, tokens, place, bound, subject=""):
        self.tokens, self.imports, self.own, self.resolve = tokens, place.imports, place.own, place.resolve
        self.subject = subject
        self.meanings = [None] * len(tokens)
        self.scopes = [set(bound)]
        # the brackets that are open: what is bound by each, where it binds
        self.groups = []
        self.solid = [at for at, token in enumerate(tokens) if token.kind not in (SPACE, COMMENT)]
        self.number = {at: number for number, at in enumerate(self.solid)}

    def token(self, at, step):
        """The text of the token so many steps on from this one, but for spaces and comments."""
        number = self.number[at] + step
        return self.tokens[self.solid[number]].text if 0 <= number < len(self.solid) else ""

    def kind(self, at, step):
        number = self.number[at] + step
        return self.tokens[self.solid[number]].kind if 0 <= number < len(self.solid) else ""

    def touches(self, at):
        """Whether a dot stands right before the token, so that it is a field or a name of a module."""
        return at >= 2 and self.tokens[at - 1].text == "." and self.tokens[at - 2].kind != SPACE

    def is_bound(self, name):
        return any(name in scope for scope in self.scopes)

    def bind(self, name):
        self.scopes[-1].add(name)

    def read(self, first, last, pattern=False):
        """The tokens from one place to another. In a pattern a small word is bound by it."""
        for at in (at for at in self.solid if first <= at < last):
            token = self.tokens[at]
            if token.text in OPENING:
                self.groups.append(self.group(at))
                self.scopes.append(set())
            elif token.text in CLOSING and len(self.scopes) > 1:
                self.scopes.pop()
                for name in self.groups.pop():
                    self.bind(name)
            elif token.kind == WORD and token.text not in KEYWORDS:
                self.meanings[at] = self.word(at, pattern)
            elif token.kind not in (NUMBER, STRING) and token.text not in SYNTAX | KEYWORDS:
                self.meanings[at] = self.known(token.text)
            elif token.text == "λ":
                self.binders(at)
            elif token.text == "do":
                # its steps are joined by this
                self.meanings[at] = self.known(">>=")

    def group(self, at):
        """The names before a colon right after an opening bracket: they are bound after it."""
        names, step = [], 1
        while self.kind(at, step) == WORD:
            names.append(self.token(at, step))
            step += 1
        return names if names and self.token(at, step) == ":" else []

    def binders(self, at):
        """The words after λ up to the dot."""
        step = 1
        while self.kind(at, step) == WORD:
            self.bind(self.token(at, step))
            step += 1

    def word(self, at, pattern):
        text = self.tokens[at].text
        if self.touches(at):
            return self.after_dot(at, text)
        if text in self.imports.modules and self.is_module(at, text):
            return NONE
        if self.is_named(at):
            return NONE
        if self.token(at, 1) == "←" or self.token(at, -1) == "let":
            self.bind(text)
            return NONE
        if pattern and not self.is_constructor(text):
            # it holds for the whole equation
            self.scopes[0].add(text)
        return NONE if text == "_" or self.is_bound(text) else self.known(text)

    def is_constructor(self, text):
        """Whether a word of a pattern is known, and not bound by it."""
        known = text in self.own or text in self.imports.names
        return text == self.subject or (known and (text[0].isupper() or text in SMALL_CONSTRUCTORS))

    def is_module(self, at, text):
        """Whether a name of a module stands before a dot; something bound of that name has a field there, in small letters."""
        following = self.token(at, 2)
        return self.token(at, 1) == "." and not (self.is_bound(text) and not following[:1].isupper())

    def is_named(self, at):
        """Whether this is the name of a field, to which a value is given, or one of a group of binders."""
        before = self.token(at, -1)
        if before in ("{", ";") and self.token(at, 1) == "=":
            return True
        return bool(self.groups) and self.tokens[at].text in self.groups[-1] and self.before_colon(at)

    def before_colon(self, at):
        step = 1
        while self.kind(at, step) == WORD:
            step += 1
        return self.token(at, step) == ":"

    def after_dot(self, at, text):
        before = self.tokens[at - 2].text
        if before in self.imports.modules and not self.touches(at - 2) and (text[0].isupper() or not self.is_bound(before)):
            return self.resolve(self.imports.modules[before], text)
        return NONE

    def known(self, text):
        text = plain(text)
        if text in self.own:
            return Meaning(DEFINITION, *self.own[text])
        if text in self.imports.names:
            return self.resolve(*self.imports.names[text])
        return NONE if text in LANGUAGE else Meaning(UNKNOWN, name=text)


def items_of(tokens):
    """Where each item of a definition begins and ends: a line at the margin with the lines below it that are indented; within
    a record or a type, a line at the first depth."""
    is_type = next(token.text for token in tokens if token.kind == WORD and token.text not in ("pub",)) in ("record", "data")
    margin = 2 if is_type else 0
    starts = [0]
    for at, token in enumerate(tokens[:-1]):
        if token.kind == SPACE and "\n" in token.text and len(token.text.rsplit("\n", 1)[1]) <= margin:
            starts.append(at + 1)
    return list(zip(starts, starts[1:] + [len(tokens)])), is_type


@dataclass
class Place:
    """Where a text stands: what is imported there, what its file defines, and what finds a name of a module."""
    imports: object
    own: dict
    resolve: object


def meanings_of(definition, tokens, place):
    """What each token of a definition means."""
    parameters = {token.text for token in tokens_of(definition.parameters) if token.kind == WORD} - KEYWORDS
    reading = Reading(tokens, place, parameters, definition.name)
    items, is_type = items_of(tokens)
    for first, last in items:
        if is_type:
            read_member(reading, definition, first, last)
        else:
            reading.scopes = [set(parameters)]
            read_equation(reading, first, last)
    return reading.meanings


def read_member(reading, definition, first, last):
    """The head of a record or a type, or a field or constructor. A field may be named in those after it."""
    solid = [at for at in reading.solid if first <= at < last and reading.tokens[at].text != "pub"]
    if not solid:
        return
    if reading.tokens[solid[0]].text in ("record", "data"):
        reading.read(solid[1] + 1, last)
        return
    reading.scopes.append(set())
    reading.read(solid[0] + 1, last)
    reading.scopes.pop()
    if definition.kind == "record":
        reading.bind(reading.tokens[solid[0]].text)


def read_equation(reading, first, last):
    """The head with its type, or an equation: what stands before the first `=` outside brackets is a pattern."""
    solid = [at for at in reading.solid if first <= at < last]
    if not solid or reading.tokens[solid[0]].text.startswith("infix"):
        return
    if reading.tokens[solid[0]].text in KEYWORDS:
        colon = next(at for at in solid if reading.tokens[at].text == ":")
        reading.read(colon + 1, last)
        return
    depth = 0
    for at in solid:
        text = reading.tokens[at].text
        depth += (text in OPENING) - (text in CLOSING)
        if text == "=" and depth == 0:
            reading.read(first, at, pattern=True)
            reading.read(at + 1, last)
            return
    reading.read(first, last)


def meanings_of_clause(tokens, place, bound):
    """What each token of a clause means, where these names are the function's."""
    reading = Reading(tokens, place, bound)
    reading.read(0, len(tokens))
    return reading.meanings
