"""Files that are written so that a stop at any moment leaves the old one or the new one, whole."""
import contextlib
import os
import stat
import time

from operator_script import Refused


def folder_of(path):
    return os.path.dirname(path) or "."


def sync_folder(path):
    folder = os.open(folder_of(path), os.O_RDONLY | os.O_DIRECTORY)
    try:
        os.fsync(folder)
    finally:
        os.close(folder)


def write_all(file, parts):
    for part in parts:
        while part:
            part = part[os.write(file, part):]


def write_beside(path, parts, mode, owner=None):
    """Writes these bytes to a new file beside a path, which has its name and .new, and syncs it. What fails leaves nothing."""
    new = path + ".new"
    try:
        file = os.open(new, os.O_WRONLY | os.O_CREAT | os.O_EXCL | os.O_CLOEXEC, 0o600)
    except FileExistsError:
        raise Refused(5, f"{new}: is there already; see whether another run still writes it, else remove it") from None
    try:
        try:
            write_all(file, parts)
            # who is not root may give a file to nobody, and owns what it writes
            if owner and os.geteuid() == 0:
                os.fchown(file, *owner)
            os.fchmod(file, mode)
            os.fsync(file)
        finally:
            os.close(file)
    except OSError as error:
        os.unlink(new)
        raise OSError(error.errno, error.strerror, new) from None
    except BaseException:
        os.unlink(new)
        raise
    return new


def owner_of(path, file):
    """Whom a file's successor belongs to, and its mode: as the old one's, or its folder's where there is none."""
    if file:
        return (file.status.st_uid, file.status.st_gid), stat.S_IMODE(file.status.st_mode)
    folder = os.stat(folder_of(path))
    return (folder.st_uid, folder.st_gid), 0o600


def keep(path):
    """Gives a file a second name, and returns it."""
    name = path + time.strftime(".before-%Y%m%dT%H%M%S")
    for end in ("", *(f"-{count}" for count in range(1, 100))):
        with contextlib.suppress(FileExistsError):
            os.link(path, name + end)
            return name + end
    raise Refused(5, f"{name}: is there already")


def put(path, parts, file, check=lambda new: None):
    """Puts these bytes in the place of a file, if there is one, once `check` has refused nothing of the new file. Returns what
    the old one is called from then on."""
    owner, mode = owner_of(path, file)
    new = write_beside(path, parts, mode, owner)
    try:
        check(new)
        kept = keep(path) if file else None
        os.rename(new, path)
    except BaseException:
        os.unlink(new)
        raise
    sync_folder(path)
    return kept
