"""What `scripts/operate/serve` keeps beside the file of its leases, FILE: in FILE.config the configuration that it serves, from which
port on, and after it the circuits that it served before, whose leases FILE may still have, and what circuits had before their pool
or region changed; in FILE.accepted, what was accepted on purpose."""
import fcntl
import hashlib
import os
import re

from configurations import read_text, table, text_of
from operator_script import Refused
from programs import read
from regions import give_to_folder
from replaced_file import sync_folder

# after this line stand tables of these names, which no program reads
MARK = b"# No longer served, but FILE may have their leases:\n"
REMOVED, FORMER = "no_longer_served", "had_before"
# the line before that, at the end of what is served
PORT = re.compile(rb"# Served from port (\d{4,5}) on\.\n\Z")
KEPT_END = ".config"
# a bridge, which is in the group of the service, reads it; no client is named in it
MODE = 0o640


def config_of(file):
    return file + KEPT_END


def accepted_of(file):
    return file + ".accepted"


def source_of(text):
    """The configuration in a text that was kept, or that is one, as it is kept; and the port that the text says, if it says one."""
    served = text.partition(MARK)[0]
    said = PORT.search(served)
    source = served[:said.start()] if said else served
    return source if source.endswith(b"\n") else source + b"\n", int(said[1]) if said else None


class Kept:
    """What is kept beside FILE: the text as it is, the configuration that is served as a text and as values, the first port of its
    first circuit, the circuits that are no longer served, and those that had another pool or region, as they were then. What an
    earlier version kept says no port."""

    def __init__(self, path, text):
        self.path, self.text = path, text
        self.source, self.port = source_of(text)
        tables = text.partition(MARK)[2]
        self.config = read_text(self.source)
        self.removed, self.former = (read_text(tables).get(name, []) for name in (REMOVED, FORMER))
        # each has what is read of it later
        text_of(self.config["server"], self.config["relay"], self.known())

    def known(self):
        """Each circuit that has leases in FILE, or had, as it was then."""
        return self.config["circuit"] + self.removed + self.former


def kept_beside(file):
    """What is kept beside this file, or None."""
    path = config_of(file)
    if not os.path.lexists(path):
        return None
    text = read(path)
    try:
        return Kept(path, text)
    except (ValueError, KeyError, TypeError):
        raise Refused(5, f"{path}: this is not what scripts/operate/serve wrote there: put its copy in its place") from None


def served_over(file):
    """What is served over this file, and from which port on, as serve wrote it at the last start."""
    kept = kept_beside(file)
    if kept is None:
        raise Refused(5, f"{config_of(file)} is missing: scripts/operate/serve writes it when it serves {file}")
    if kept.port is None:
        raise Refused(5, f"{kept.path} says no port: an earlier version wrote it, and the next start of scripts/operate/serve does so anew")
    return kept


def text_to_keep(text, removed=(), former=(), port=None):
    """A configuration's text, the port from which it is served where that is known, the circuits that were served before it, and
    those that had another pool or region, as they were."""
    served = source_of(text)[0] + (b"" if port is None else b"# Served from port %d on.\n" % port)
    if not removed and not former:
        return served
    tables = [*(table(f"[[{REMOVED}]]", "circuit", circuit) for circuit in removed),
              *(table(f"[[{FORMER}]]", "circuit", circuit) for circuit in former)]
    return served + MARK + "\n".join(tables).encode()


def put(path, text, hold=False, mode=None):
    """Puts a file with this text in its place, or leaves what is there: it is written under another name, synced, and renamed.
    With `hold`, returns it open and locked, as it is from the moment on when it has its name. Without a mode it has the usual one."""
    new = path + ".new"
    file = os.open(new, os.O_WRONLY | os.O_CREAT | os.O_TRUNC, 0o666)
    try:
        give_to_folder(file, path)
        if mode is not None:
            os.fchmod(file, mode)
        if hold:
            fcntl.flock(file, fcntl.LOCK_EX | fcntl.LOCK_NB)
        left = text
        while left:
            left = left[os.write(file, left):]
        os.fsync(file)
        os.rename(new, path)
        sync_folder(path)
    except OSError as error:
        os.close(file)
        if os.path.lexists(new):
            os.unlink(new)
        error.filename = path
        raise
    if hold:
        return file
    os.close(file)
    return None


def hold(file):
    """Locks what is kept beside a file, and returns it open, or None where nothing is. A server holds it as long as it runs."""
    path = config_of(file)
    while True:
        try:
            held = os.open(path, os.O_RDONLY)
        except FileNotFoundError:
            return None
        try:
            fcntl.flock(held, fcntl.LOCK_EX | fcntl.LOCK_NB)
        except BlockingIOError:
            os.close(held)
            raise Refused(5, f"{file} is served: stop the server first") from None
        # another may have been put in its place meanwhile
        if os.path.exists(path) and os.path.samestat(os.fstat(held), os.stat(path)):
            return held
        os.close(held)


def mark_of(kept, text):
    """What says that this text may follow what is kept, and nothing else may."""
    parts = kept.text if kept else b"", text
    return " ".join(hashlib.sha256(part).hexdigest() for part in parts).encode() + b"\n"


def is_accepted(file, kept, text):
    """Whether this text was accepted on purpose over what is kept now."""
    path = accepted_of(file)
    return os.path.exists(path) and read(path) == mark_of(kept, text)


def accept(file, kept, text):
    put(accepted_of(file), mark_of(kept, text))
