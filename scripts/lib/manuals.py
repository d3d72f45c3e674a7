"""The man pages of the package: of the programs by what they print for --help, of the command `higvaszte` by the help of each
script, and of the pages that an operator needs."""
import re

import roff
from help_texts import text_of
from installed import EXAMPLES, PAGES, named, page_text, placed
from markdown import blocks, section, without_clone

# of each program: its man page, how it is called once it is installed, and the section of docs/FORMATS.md about it
PROGRAMS = {
    "accesslab": ("accesslab", 1, "accesslab", "The lines of `accesslab`"),
    "accessd": ("accessd", 8, "accessd", "The sockets of `accessd`"),
    "leases": ("higvaszte-leases", 1, "higvaszte leases", "The leases of a file"),
}
ABOUT = {
    "FORMATS": "configuration, lines, ports, reasons, statuses, messages and files of Higvaszte",
    "LIMITS": "what Higvaszte does not do, and what a subscriber then sees",
    "OPERATING": "install, start, stop, upgrade, back up, watch and change accessd",
    "TABLES": "what a DHCP client of Higvaszte is answered, row by row",
}
NOTES = ("What stands in scripts/gate, scripts/measure, cases, crates, or in another page of docs is in the sources of "
         "Higvaszte, and not in the package. What a program calls docs/OPERATING.md is `higvaszte-operating`(7).")


def heading(words):
    return "heading", (2, words)


def see_also(name):
    others = [("accesslab", 1), ("higvaszte", 1), ("higvaszte-leases", 1), *PAGES.values(), ("accessd", 8)]
    listed = sorted((other for other in others if other[0] != name), key=lambda other: (other[1], other[0]))
    return [heading("See also"), ("paragraph", ", ".join(f"`{other}`({number})" for other, number in listed))]


# Programs

def entries(lines):
    """The entries of a list of arguments or options: what is set in further belongs to the one before."""
    for line in lines:
        term, _, words = line.strip().partition("  ")
        if line.strip():
            yield "entry", (f"`{term}`", words.strip())


def program_parts(text, called):
    """What a program prints for --help, as parts of a page: what it does, how it is called, and lists."""
    about, _, rest = text.partition("\n\nUsage: ")
    usage, *lists = rest.split("\n\n")
    ways = [way.strip().partition(" ") for way in usage.splitlines()]
    name = ways[0][0]
    parts = [heading("Synopsis"), ("fenced", ("sh", [f"{called} {words}" for _, _, words in ways])),
             heading("Description"), ("paragraph", about.strip() + ".")]
    for one in lists:
        title, _, lines = one.strip("\n").partition(":\n")
        parts.append(heading(title))
        if title.startswith("Example"):
            shown = [re.sub(rf"^{name} ", f"{called} ", line.strip()) for line in lines.splitlines()]
            parts.append(("fenced", ("sh", list(map(placed, shown)))))
        else:
            parts += entries(lines.splitlines())
    return parts


def program_page(program, text, formats, stamp):
    name, number, called, about = PROGRAMS[program]
    summary = text.partition("\n")[0].rstrip(".")
    parts = program_parts(text, called)
    for title in (about, "Statuses"):
        parts += [heading(title), *blocks(page_text(section(formats, title)))]
    parts += [heading("Standard error"),
              ("paragraph", "`higvaszte-formats`(5) has each line that is written to standard error, and what to do.")]
    return name, number, roff.page(name, number, summary[:1].lower() + summary[1:], *stamp, parts + see_also(name))


# The command

def help_parts(text):
    """A script's help as parts of a page: lines that are set in show how it is called."""
    usage, words, parts = [], [], []
    for line in [*text.splitlines(), ""]:
        if words and (line.startswith("    ") or not line):
            parts.append(("paragraph", " ".join(words)))
            words = []
        if usage and not line.startswith("    "):
            parts.append(("fenced", ("sh", usage)))
            usage = []
        if line.startswith("    "):
            usage.append(re.sub(r"   +(?=\S)", "  # ", line.strip()))
        elif line:
            words.append(line)
    return parts


def command_page(scripts, text, formats, stamp):
    """The page of `higvaszte`: what docs say of it, each script's help, and the statuses."""
    parts = blocks(text)
    parts.append(heading("Commands"))
    for script in scripts:
        parts += [("heading", (3, script.name)), *help_parts(named(placed(text_of(script))))]
    for title in ("The scripts of an operator", "What the scripts of operators return"):
        parts += [heading(title), *blocks(page_text(section(formats, title)))]
    about = "the commands of an operator of Higvaszte, a DHCP relay and lease server"
    return "higvaszte", 1, roff.page("higvaszte", 1, about, *stamp, parts + see_also("higvaszte"))


# Pages

def page(title, text, stamp):
    name, number = PAGES[title]
    parts = blocks(page_text(text))[1:]
    parts = ([heading("Description")] if parts[0][0] != "heading" else []) + parts
    parts += [heading("Notes"), ("paragraph", NOTES), ("paragraph", f"The examples are in `{EXAMPLES}`.")]
    return name, number, roff.page(name, number, ABOUT[title], *stamp, parts + see_also(name))


def manuals(root, scripts, helps, date, version):
    """Each man page: its name, its section, and its text. `helps` has what each program prints for --help."""
    stamp = (date, version)
    texts = {title: without_clone((root / f"docs/{title}.md").read_text()) for title in PAGES}
    for program in PROGRAMS:
        yield program_page(program, helps[program], texts["FORMATS"], stamp)
    yield command_page(scripts, (root / "package/higvaszte.md").read_text(), texts["FORMATS"], stamp)
    for title, text in texts.items():
        yield page(title, text, stamp)
