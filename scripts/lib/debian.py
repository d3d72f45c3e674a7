"""The Debian package: the files that it has, where they stand, and what dpkg is told of it."""
import gzip
import hashlib
import os
import re
import shutil
import subprocess
import tempfile
import textwrap
from pathlib import Path

from elf import requirements
from help_texts import options_in, text_of, usage_lines
from installed import EXAMPLES, HOME, UNITS, modules, script_text, unit_text
from manuals import manuals
from operator_script import Refused

PROGRAMS = ("accesslab", "accessd", "leases")
# those that have their names in /usr/bin too; docs/DECISIONS.md says why `leases` has not
NAMED = ("accesslab", "accessd")
SHIPPED_EXAMPLES = ("one_circuit.toml", "offer.events", "offer.output", "dhcpv6.events", "dhcpv6.output")
# what makes packages, which an operator has no use for once it is installed
NOT_INSTALLED = ("package",)
MAINTAINERS_SCRIPTS = ("postinst", "prerm", "postrm")
PYTHON = "python3 (>= 3.11)"


def put(path, text, mode=0o644):
    path.parent.mkdir(parents=True, exist_ok=True)
    path.write_bytes(text if isinstance(text, bytes) else text.encode())
    path.chmod(mode)


def link(path, target):
    path.parent.mkdir(parents=True, exist_ok=True)
    path.symlink_to(target)


def zipped(text):
    return gzip.compress(text.encode(), 9, mtime=0)


def operators_scripts(root):
    """Those that are installed: what an editor leaves beside them has no such name."""
    found = [path for path in (root / "scripts/operate").iterdir() if re.fullmatch("[a-z][a-z-]*", path.name)]
    return sorted(path for path in found if path.name not in NOT_INSTALLED)


def help_of(program):
    """What a program prints for --help."""
    done = subprocess.run([program, "--help"], capture_output=True, text=True, stdin=subprocess.DEVNULL)
    if done.returncode:
        raise Refused(5, f"{program}: --help ends with status {done.returncode}: {done.stderr.strip()}")
    return done.stdout


class Package:
    """What a package is made of: a clone, the built programs by their names, a commit, a version, and what the toolchain of this
    machine calls itself, or None."""

    def __init__(self, root, programs, origin, version, toolchain):
        self.root, self.programs, self.origin, self.version, self.toolchain = root, programs, origin, version, toolchain
        self.scripts = operators_scripts(root)
        self.helps = {name: help_of(program.path) for name, program in programs.items()}

    def version_text(self):
        """What `higvaszte --version` prints."""
        state = "with changes that no commit has" if self.origin.is_changed else "as it was committed"
        format_of_file = next(line for line in (self.root / "scripts/lib/regions.py").read_text().splitlines()
                              if line.startswith("FORMAT_AT, FORMAT = ")).rpartition(" ")[2]
        made_by = {word for program in self.programs.values() for word in program.comments() if word.startswith("rattle ")}
        lines = [f"higvaszte {self.version}", f"commit {self.origin.commit} of {self.origin.date()}, {state}",
                 f"format {format_of_file} of the file of leases", *(f"programs built by {word}" for word in sorted(made_by))]
        if self.toolchain:
            lines.append(f"packaged where the toolchain is {self.toolchain}")
        return "\n".join(lines) + "\n"

    def completion(self):
        """The completion, with the options of each command and program."""
        options = {f"higvaszte {path.name}": options_in(usage_lines(text_of(path))) for path in self.scripts}
        for name, text in self.helps.items():
            command = name if name in NAMED else f"higvaszte {name}"
            options[command] = options_in(line for line in text.splitlines() if line.lstrip().startswith("-"))
        lines = [f'    ["{name}"]="{" ".join(dict.fromkeys([*found, "--help"]))}"' for name, found in sorted(options.items())]
        return (self.root / "package/completion").read_text().replace("    # OPTIONS\n", "\n".join(lines) + "\n")

    def changelog(self):
        date = self.origin.date("%a, %d %b %Y %H:%M:%S +0000")
        words = f"Commit {self.origin.commit[:8]}: {self.origin.subject}"
        change = textwrap.fill(words, 78, initial_indent="  * ", subsequent_indent="    ")
        return f"higvaszte ({self.version}) local; urgency=medium\n\n{change}\n\n -- {self.origin.author}  {date}\n"

    def lay_programs(self, place):
        home = place / HOME[1:]
        for name, program in self.programs.items():
            put(home / "bin" / name, program.data, 0o755)
        for name in NAMED:
            link(place / "usr/bin" / name, f"../lib/higvaszte/bin/{name}")
        put(home / "higvaszte", script_text((self.root / "package/higvaszte").read_text()), 0o755)
        link(place / "usr/bin/higvaszte", "../lib/higvaszte/higvaszte")
        put(home / "VERSION", self.version_text())

    def lay_scripts(self, place):
        home, library = place / HOME[1:], self.root / "scripts/lib"
        for path in self.scripts:
            put(home / "operate" / path.name, script_text(path.read_text()), 0o755)
        for path in modules([*self.scripts, self.root / "package/higvaszte"], library):
            put(home / "lib" / path.name, script_text(path.read_text()))
        put(home / "lib/built", script_text((library / "built").read_text()), 0o755)
        put(home / "lib/namespaces", script_text((library / "namespaces").read_text()))

    def lay_pages(self, place):
        for name, number, text in manuals(self.root, self.scripts, self.helps, self.origin.date(), self.version):
            put(place / f"usr/share/man/man{number}/{name}.{number}.gz", zipped(text))
        document = place / "usr/share/doc/higvaszte"
        put(document / "copyright", (self.root / "package/copyright").read_text())
        put(document / "changelog.gz", zipped(self.changelog()))
        for name in SHIPPED_EXAMPLES:
            put(place / EXAMPLES[1:] / name, (self.root / "examples" / name).read_text())
        link(document / "examples", "../../higvaszte/examples")
        put(place / "usr/share/lintian/overrides/higvaszte", (self.root / "package/lintian-overrides").read_text())

    def lay_system(self, place):
        for name in UNITS:
            put(place / "usr/lib/systemd/system" / name, unit_text(name, (self.root / "examples" / name).read_text()))
        completions = place / "usr/share/bash-completion/completions"
        put(completions / "higvaszte", self.completion())
        for name in NAMED:
            link(completions / name, "higvaszte")

    def control(self, size):
        architecture = subprocess.run(["dpkg", "--print-architecture"], capture_output=True, text=True, check=True).stdout.strip()
        depends = ", ".join(["adduser", *requirements(self.programs.values()), PYTHON])
        return (f"Package: higvaszte\nVersion: {self.version}\nArchitecture: {architecture}\nMaintainer: {self.origin.author}\n"
                f"Installed-Size: {size}\nDepends: {depends}\n") + (self.root / "package/control").read_text()

    def lay_control(self, place):
        files = sorted(path for path in place.rglob("*") if path.is_file() and not path.is_symlink())
        sums = [f"{hashlib.md5(path.read_bytes()).hexdigest()}  {path.relative_to(place)}\n" for path in files]
        size = sum(-(-path.stat().st_size // 1024) for path in files) + sum(1 for path in place.rglob("*") if path not in files)
        put(place / "DEBIAN/control", self.control(size))
        put(place / "DEBIAN/md5sums", "".join(sums))
        for name in MAINTAINERS_SCRIPTS:
            put(place / "DEBIAN" / name, (self.root / "package" / name).read_text(), 0o755)

    def lay(self, place):
        """Lays out what the package has."""
        for lay in (self.lay_programs, self.lay_scripts, self.lay_pages, self.lay_system):
            lay(place)

    def build(self, folder):
        """Makes the package in this folder, and returns its path."""
        folder.mkdir(parents=True, exist_ok=True)
        os.umask(0o022)
        with tempfile.TemporaryDirectory(dir=folder, prefix=".package-") as made:
            place = Path(made) / "tree"
            self.lay(place)
            self.lay_control(place)
            place.chmod(0o755)
            # so that the package does not depend on when it is made
            moment = {"SOURCE_DATE_EPOCH": str(self.origin.seconds)}
            done = subprocess.run(["dpkg-deb", "--build", "--root-owner-group", place, made], capture_output=True, text=True,
                                  env={**os.environ, **moment})
            if done.returncode:
                raise Refused(5, f"dpkg-deb: {done.stderr.strip()}")
            package, = Path(made).glob("*.deb")
            return Path(shutil.move(package, folder / package.name))
