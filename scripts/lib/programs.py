"""Finds the programs that an operator's scripts run, and lets `accesslab` read configurations. Nothing is built here."""
import functools
import os
import subprocess
from pathlib import Path

from operator_script import Refused, say

BUILT = Path(__file__).resolve().parent / "built"


@functools.cache
def program(name):
    """The path of this program: what was built in this clone, or else what is installed. One that is older than its sources is
    said to be."""
    done = subprocess.run([BUILT, name], stdout=subprocess.PIPE, stderr=subprocess.PIPE, text=True, errors="surrogateescape")
    words = done.stderr.rstrip("\n")
    if done.returncode:
        raise Refused(done.returncode, words)
    if words:
        say(words)
    return done.stdout.rstrip("\n")


def read(path):
    try:
        with open(path, "rb") as file:
            return file.read()
    except OSError as error:
        raise Refused(5, f"{path}: {error.strerror}") from None


def shown(texts):
    """Files in memory with these texts, by their descriptors: what was judged is what was read once."""
    files = [os.memfd_create("configuration") for _ in texts]
    for file, text in zip(files, texts):
        os.write(file, text)
    return files


def run_over(name, texts, *words):
    """Runs a program over configurations with these texts, before its other words."""
    files = shown(texts)
    try:
        paths = [f"/proc/self/fd/{file}" for file in files]
        done = subprocess.run([program(name), *paths, *words], stdin=subprocess.DEVNULL, stdout=subprocess.PIPE,
                              stderr=subprocess.PIPE, pass_fds=files, text=True, errors="replace")
        return done, paths
    finally:
        for file in files:
            os.close(file)


def refusal(names, texts):
    """What `accesslab` says against configurations of these names, one or several that follow each other, and with which
    status; or None."""
    done, paths = run_over("accesslab", texts)
    if done.returncode == 0:
        return None
    words = done.stderr.strip()
    for path, name in zip(paths, names):
        words = words.replace(path, name)
    if names[-1] not in words:
        words = f"{names[-1]}: {words}"
    return Refused(done.returncode if done.returncode in (2, 4, 5) else 5, words)
