"""The text format of Prometheus (version 0.0.4): written by `scripts/operate/metrics`, read strictly by its tests."""
import re

NAME = re.compile(r"[a-zA-Z_:][a-zA-Z0-9_:]*")
LABEL = re.compile(r'([a-zA-Z_][a-zA-Z0-9_]*)="((?:[^"\\\n]|\\["\\n])*)"')
NUMBER = re.compile(r"[+-]?(?:\d+(?:\.\d+)?(?:e[+-]?\d+)?|Inf)|NaN")
KINDS = ("counter", "gauge")


def escaped(value):
    return value.replace("\\", r"\\").replace('"', r'\"').replace("\n", r"\n")


def family(name, kind, help_text, samples):
    """A metric with its samples, each a pair of labels and a number. One without samples is left out."""
    if not samples:
        return ""
    text = help_text.replace("\\", r"\\").replace("\n", r"\n")
    lines = [f"# HELP {name} {text}", f"# TYPE {name} {kind}"]
    for labels, value in samples:
        inside = ",".join(f'{label}="{escaped(word)}"' for label, word in labels.items())
        lines.append(f"{name}{{{inside}}} {value}" if inside else f"{name} {value}")
    return "\n".join(lines) + "\n"


class NotExposition(Exception):
    """A line that a strict reader refuses, and why."""


class Reader:
    """Reads a text, line by line: each metric has HELP, then TYPE, then its samples, once, and no sample comes twice."""

    def __init__(self):
        self.samples = {}
        self.seen = set()
        self.kinds = {}
        self.helped = self.typed = None

    def read(self, text):
        if not text.endswith("\n"):
            raise NotExposition("the last line has no end")
        for line in text[:-1].split("\n"):
            words = line.split(" ", 3)
            if words[:2] == ["#", "HELP"]:
                self.help(words)
            elif words[:2] == ["#", "TYPE"]:
                self.type(words)
            else:
                self.sample(line)
        return self.samples

    def help(self, words):
        if len(words) < 4 or not NAME.fullmatch(words[2]) or re.search(r"\\(?![\\n])", words[3].replace(r"\\", "")):
            raise NotExposition(f"HELP: {words}")
        if words[2] in self.seen:
            raise NotExposition(f"{words[2]} twice")
        self.seen.add(words[2])
        self.helped, self.typed = words[2], None

    def type(self, words):
        if len(words) != 4 or words[2] != self.helped or self.typed or words[3] not in KINDS:
            raise NotExposition(f"TYPE: {words}")
        if (words[3] == "counter") != words[2].endswith("_total"):
            raise NotExposition(f"{words[2]}: a counter's name ends with _total, and no other")
        self.typed = words[2]
        self.kinds[words[2]] = words[3]

    def sample(self, line):
        name = NAME.match(line)
        if not name or name[0] != self.typed:
            raise NotExposition(f"no sample of {self.typed}: {line}")
        labels, rest = self.labels(line, name.end())
        if not NUMBER.fullmatch(rest[1:]) or rest[0] != " ":
            raise NotExposition(f"no number: {line}")
        key = name[0], frozenset(labels.items())
        if key in self.samples:
            raise NotExposition(f"twice: {line}")
        if self.kinds[name[0]] == "counter" and rest.startswith(" -"):
            raise NotExposition(f"a counter below 0: {line}")
        self.samples[key] = float(rest[1:])

    @staticmethod
    def labels(line, at):
        """The labels from a place on, and what follows them."""
        labels = {}
        if line[at:at + 1] != "{":
            return labels, line[at:] or "?"
        at += 1
        while True:
            found = LABEL.match(line, at)
            if not found or found[1] in labels:
                raise NotExposition(f"no label, or one twice: {line}")
            labels[found[1]] = re.sub(r"\\(.)", lambda mark: "\n" if mark[1] == "n" else mark[1], found[2])
            at = found.end() + 1
            if line[found.end():at] == "}":
                return labels, line[at:] or "?"
            if line[found.end():at] != ",":
                raise NotExposition(f"labels: {line}")
