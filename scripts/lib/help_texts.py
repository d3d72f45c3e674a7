"""What the scripts of operators say of themselves by --help, read from the scripts: the text, its first sentence, and the
options in its usage."""
import ast
import re


def text_of(path):
    """A script's help: the first text of one in Python, the first comment of one in bash."""
    source = path.read_text()
    if "python" in source.partition("\n")[0]:
        return ast.get_docstring(ast.parse(source)) or ""
    comment = re.match(r"#!.*\n((?:#.*\n)+)", source)
    return re.sub(r"^# ?", "", comment[1], flags=re.M).strip() if comment else ""


def summary(text):
    """Its first sentence, without the point at its end."""
    return re.split(r"\.(?:\s|$)", " ".join(text.split()), maxsplit=1)[0]


def usage_lines(text):
    """The lines that show how it is called: those that are set in."""
    return [line.strip() for line in text.splitlines() if line.startswith("    ")]


def options_in(lines):
    """The options in lines of usage, each once."""
    return list(dict.fromkeys(re.findall(r"(?<![\w-])--[a-z][a-z-]*", "\n".join(lines))))
