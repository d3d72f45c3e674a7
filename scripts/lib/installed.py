"""Where the Debian package puts what it has, and the texts of scripts, units and pages as they stand there: with the installed
names of commands, pages and files in place of those of the repository."""
import ast
import re

from operator_script import Refused

HOME = "/usr/lib/higvaszte"
EXAMPLES = "/usr/share/higvaszte/examples"
USER = "higvaszte"
# the pages that are installed, with their names and sections as man pages
PAGES = {
    "FORMATS": ("higvaszte-formats", 5),
    "LIMITS": ("higvaszte-limits", 7),
    "OPERATING": ("higvaszte-operating", 7),
    "TABLES": ("higvaszte-tables", 7),
}
NAMES = "|".join(PAGES)
INTERPRETERS = {"#!/usr/bin/env python3": "#!/usr/bin/python3", "#!/usr/bin/env bash": "#!/bin/bash"}
# what a clone has elsewhere
PLACES = (
    (r"\$scripts/\.\./examples/", EXAMPLES + "/"),
    # `$scripts` is HOME there
    (r"(?<!\$)(?:new/|\./)?scripts/operate/([a-z][a-z-]*)", r"higvaszte \1"),
    (r"(?<![\w/.-])\./(accesslab|accessd)\b", r"\1"),
    (r"(?<![\w/.-])examples/(?=\w)", EXAMPLES + "/"),
)
HEAD_OF_UNITS = {
    "accessd@.service": """\
# `accessd` for one of several configurations, under systemd: `accessd@main` serves /etc/higvaszte/main.toml, with its leases in
# /var/lib/higvaszte/main/leases, which `higvaszte new` makes (man higvaszte-operating, Install). /etc/higvaszte/main.env, where it
# is there, may say `PORT=..`, the first port of the first circuit; else that is 20000.
""",
    "accessd-bridge@.service": """\
# `higvaszte bridge` for one circuit, by its id, under systemd: `accessd-bridge@a` carries frames between circuit a's ports and an
# interface. /etc/higvaszte/bridge-a.env says `IFACE=..`, the interface, and `FILE=..`, the file of leases of the service, such as
# /var/lib/higvaszte/main/leases. An id with characters other than letters, digits, `_`, `.` and `:` is written by
# `systemd-escape -- ID`, in the file's name too.
""",
}
# what each unit of the repository has, once, and what stands there in the package's
UNITS = {
    "accessd@.service": (
        ("[Unit]\n", "[Unit]\nDocumentation=man:accessd(8) man:higvaszte-operating(7)\n"),
        ("StateDirectory=accessd-%i\n", f"StateDirectory={USER}/%i\n"),
        ("EnvironmentFile=/etc/accessd/", "Environment=PORT=20000\nEnvironmentFile=-/etc/higvaszte/"),
        ("/usr/local/lib/higvaszte/", f"{HOME}/"),
        (" /etc/accessd/", " /etc/higvaszte/"),
        ("/var/lib/accessd-%i/", "/var/lib/higvaszte/%i/"),
        # a new file of leases is made by a command of its own
        (" $ACCESSD_NEW ", " "),
    ),
    "accessd-bridge@.service": (
        ("[Unit]\n", "[Unit]\nDocumentation=man:higvaszte(1) man:higvaszte-operating(7)\n"),
        ("EnvironmentFile=/etc/accessd/", "EnvironmentFile=/etc/higvaszte/"),
        ("/usr/local/lib/higvaszte/", f"{HOME}/"),
    ),
}


def placed(text):
    for pattern, there in PLACES:
        text = re.sub(pattern, there, text)
    return text


def named(text):
    """A script's text with the names of the pages that are installed."""
    return re.sub(rf"docs/({NAMES})\.md", lambda match: "{}({})".format(*PAGES[match[1]]), text)


def page_text(text):
    """A page's text. What a program writes stays as it is: there a page has its name in the repository."""
    return placed(re.sub(rf"`docs/({NAMES})\.md`", lambda match: "`{}`({})".format(*PAGES[match[1]]), text))


def script_text(text):
    first = text.partition("\n")[0]
    return named(placed(INTERPRETERS.get(first, first) + text.removeprefix(first)))


def unit_text(name, text):
    """A unit of the repository as it is in the package."""
    text = HEAD_OF_UNITS[name] + "\n" + text.partition("\n\n")[2]
    for here, there in UNITS[name]:
        if text.count(here) != 1:
            raise Refused(4, f"examples/{name}: there is not one '{here.strip()}' in it, for which the package has another text")
        text = text.replace(here, there)
    return text


def modules(scripts, library):
    """The modules that these scripts use, directly or not."""
    found, left = set(), [path.read_text() for path in scripts if "python" in path.read_text().partition("\n")[0]]
    while left:
        for node in ast.walk(ast.parse(left.pop())):
            names = [alias.name for alias in node.names] if isinstance(node, ast.Import) else \
                    [node.module] if isinstance(node, ast.ImportFrom) else []
            new = [library / f"{name}.py" for name in names if (library / f"{name}.py").exists()]
            left += [path.read_text() for path in new if path not in found]
            found.update(new)
    return sorted(found)
