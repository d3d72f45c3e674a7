"""What a program for Linux says of itself, by its sections: which libraries it needs, in which versions, where it has the addresses
of their functions, and its comments."""
import struct

from operator_script import Refused

RELOCATIONS, DYNAMIC, VERNEED = 4, 6, 0x6FFFFFFE
NEEDED = 1
# relocations of x86-64 that are filled with the address of what they name
ADDRESS_OF = (6, 7)
# the Debian package of each library that the toolchain's programs may need, and how the versions of its symbols begin
PACKAGES = {
    "libc.so.6": ("libc6", "GLIBC_"),
    "libm.so.6": ("libc6", "GLIBC_"),
    "ld-linux-x86-64.so.2": ("libc6", "GLIBC_"),
    "ld-linux-aarch64.so.1": ("libc6", "GLIBC_"),
    "libgcc_s.so.1": ("libgcc-s1", "GCC_"),
}


def text_at(data, at):
    return data[at:data.index(b"\0", at)].decode("ascii", "replace")


class Program:
    """A program of 64 bits, with the least byte first."""

    def __init__(self, path):
        self.path, self.data = path, path.read_bytes()
        if self.data[:6] != b"\x7fELF\2\1":
            raise Refused(4, f"{path}: this is no program of 64 bits for Linux")
        try:
            self.sections = list(self.headers())
            self.needs = self.needed()
        except (struct.error, ValueError, IndexError):
            raise Refused(4, f"{path}: this program's sections can't be read") from None

    def headers(self):
        """The name, kind, place, length and linked section of each section."""
        start, = struct.unpack_from("<Q", self.data, 0x28)
        size, count, names = struct.unpack_from("<HHH", self.data, 0x3A)
        entries = [struct.unpack_from("<IIQQQQII", self.data, start + size * number) for number in range(count)]
        for name, kind, _, _, at, length, link, _ in entries:
            yield text_at(self.data, entries[names][4] + name), kind, at, length, link

    def of_kind(self, kind):
        """Where the sections of this kind begin, how long they are, and where their texts are."""
        return [(at, length, self.sections[link][2]) for _, found, at, length, link in self.sections if found == kind]

    def needed(self):
        """The versions of symbols that it needs of each library."""
        needs = {}
        for at, length, texts in self.of_kind(DYNAMIC):
            entries = struct.iter_unpack("<QQ", self.data[at:at + length])
            needs |= {text_at(self.data, texts + value): [] for tag, value in entries if tag == NEEDED}
        for at, _, texts in self.of_kind(VERNEED):
            more = True
            while more:
                _, count, file, first, more = struct.unpack_from("<HHIII", self.data, at)
                needs.setdefault(text_at(self.data, texts + file), []).extend(self.versions(at + first, count, texts))
                at += more
        return needs

    def versions(self, at, count, texts):
        for _ in range(count):
            _, _, _, name, more = struct.unpack_from("<IHHII", self.data, at)
            yield text_at(self.data, texts + name)
            at += more

    def slots(self):
        """Where the program, once it is loaded, has the address of each function of a library: its distance from the program's
        beginning, by the function's name."""
        found = {}
        for _, kind, at, length, link in self.sections:
            if kind == RELOCATIONS:
                _, _, symbols, _, texts = self.sections[link]
                for place, what, _ in struct.iter_unpack("<QQq", self.data[at:at + length]):
                    name, = struct.unpack_from("<I", self.data, symbols + 24 * (what >> 32))
                    if what & 0xFFFFFFFF in ADDRESS_OF:
                        found[text_at(self.data, self.sections[texts][2] + name)] = place
        return found

    def entry(self):
        """Where the program begins to run, as a distance from its beginning."""
        return struct.unpack_from("<Q", self.data, 0x18)[0]

    def comments(self):
        """What the tools that made it left in it."""
        found = [self.data[at:at + length] for name, _, at, length, _ in self.sections if name == ".comment"]
        return [text.decode("utf-8", "replace") for part in found for text in part.split(b"\0") if text]


def numbers(version):
    return [int(part) for part in version.split(".")]


def requirements(programs):
    """The Debian packages that these programs need, with the least version of each."""
    least = {}
    for program in programs:
        for library, versions in program.needs.items():
            if library not in PACKAGES:
                raise Refused(4, f"{program.path}: it needs {library}, and no package is known that has it")
            package, prefix = PACKAGES[library]
            found = [version.removeprefix(prefix) for version in versions if version.startswith(prefix)]
            found = [version for version in found if version.replace(".", "").isdigit()]
            least[package] = max([least.get(package, "0"), *found], key=numbers)
    return [f"{package} (>= {version})" if version != "0" else package for package, version in sorted(least.items())]
