"""Tests of scripts of operators, with the wrong programs that each of them catches. A test is a function that takes the folder of the
scripts, `SCRIPTS`, and runs `SCRIPTS/operate/NAME`; it raises `Wrong` for what is not as it has to be, and anything else is a fault of
the test. A wrong program is a copy of the scripts in which one text is another."""
import os
import pathlib
import shutil
import signal
import subprocess
import sys
import tempfile
import traceback

FOLDERS = ("scripts", "examples")
PROGRAMS = ("accesslab", "accessd", "leases")
# the folder from which scripts/lib/built takes the programs
PLACE = "HIGVASZTE_PROGRAMS"
# a script that takes longer hangs
SECONDS = 60


class Wrong(Exception):
    """What is not as it has to be: by this a test has to fail over a wrong program."""


def expect(is_right, what):
    if not is_right:
        raise Wrong(what)


def copy_with(root, place, file, old, new):
    """Copies the scripts of operators below a clone, `root`, into the folder `place`, and in `file`, a path below `root`, puts the text
    `new` in the place of `old`, which has to stand there once. Returns the copy's folder `scripts`. A copy that is no program is no
    wrong program."""
    for folder in FOLDERS:
        shutil.copytree(pathlib.Path(root, folder), pathlib.Path(place, folder), ignore=shutil.ignore_patterns("__pycache__"))
    path = pathlib.Path(place, file)
    text = path.read_text()
    if text.count(old) != 1:
        raise ValueError(f"{file} has {text.count(old)} times, and not once: {old}")
    text = text.replace(old, new)
    path.write_text(text)
    if path.suffix == ".py" or "python" in text.partition("\n")[0]:
        compile(text, file, "exec")
    elif "bash" in text.partition("\n")[0]:
        subprocess.run(["bash", "-n", path], check=True)
    return pathlib.Path(place, "scripts")


def run(path, *words, **how):
    """The status of a script, and what it writes. One that ends by a fault of Python's is no answer, right or wrong; one that does not
    end is a wrong one, and is killed with what it has started."""
    process = subprocess.Popen([path, *map(str, words)], stdin=subprocess.DEVNULL, stdout=subprocess.PIPE, stderr=subprocess.PIPE,
                               text=True, start_new_session=True, **how)
    try:
        written = "".join(process.communicate(timeout=SECONDS))
    except subprocess.TimeoutExpired:
        os.killpg(process.pid, signal.SIGKILL)
        process.communicate()
        raise Wrong(f"{path} {words} does not end in {SECONDS} seconds") from None
    if "Traceback" in written:
        raise RuntimeError(f"{path} {words}: status {process.returncode}\n{written}")
    return process.returncode, written


def link_programs(root, place):
    """Has every script, in a copy too, take the programs from the folder that is named already, or else from a new one, with links to
    those of `root`."""
    if os.environ.get(PLACE):
        os.environ[PLACE] = os.path.abspath(os.environ[PLACE])
        return
    os.mkdir(place)
    for name in PROGRAMS:
        found = subprocess.run([pathlib.Path(root, "scripts/lib/built"), name], stdout=subprocess.PIPE, text=True)
        if found.returncode:
            sys.exit(found.returncode)
        os.symlink(os.path.abspath(found.stdout.rstrip("\n")), f"{place}/{name}")
    os.environ[PLACE] = place


def outcome(test, scripts):
    """None where a test passes; else its words, or those of its own fault, and whether it is its assertion that failed."""
    here = os.getcwd()
    with tempfile.TemporaryDirectory() as place:
        os.chdir(place)
        try:
            test(scripts)
            return None
        except Wrong as fault:
            return str(fault), True
        except Exception:
            return traceback.format_exc(), False
        finally:
            os.chdir(here)


def first_line(words):
    return words.strip().partition("\n")[0][:160]


def is_caught(root, test, what, edit):
    """Runs a test over a wrong program, says what came of it, and returns whether the test failed by its assertion."""
    with tempfile.TemporaryDirectory() as place:
        try:
            found = outcome(test, copy_with(root, place, *edit))
        except (OSError, ValueError, SyntaxError, subprocess.CalledProcessError) as error:
            found = str(error), False
    if found is None:
        print(f"{test.__name__} passes over a wrong program: {what}")
    elif not found[1]:
        print(f"{test.__name__} over a wrong program, {what}, fails by itself: {found[0]}")
    else:
        print(f"{test.__name__} catches: {what}: {first_line(found[0])}", flush=True)
    return found is not None and found[1]


def run_tests(root, tests, chosen=""):
    """Runs each test whose name contains this word over the scripts of `root`, where it has to pass, and over each of its wrong programs,
    where it has to fail. `tests` are pairs: a test, and its wrong programs by what is wrong, each (file, old, new) for `copy_with`.
    Prints 'N passed, M failed', where each run of a test counts as one, and returns the status."""
    passed = failed = 0
    with tempfile.TemporaryDirectory() as place:
        link_programs(root, f"{place}/programs")
        for test, wrong in tests:
            if chosen not in test.__name__:
                continue
            found = outcome(test, pathlib.Path(root, "scripts"))
            if found:
                print(f"{test.__name__}: {found[0]}", flush=True)
            results = [found is None, *(is_caught(root, test, what, edit) for what, edit in wrong.items())]
            passed, failed = passed + results.count(True), failed + results.count(False)
    print(f"{passed} passed, {failed} failed")
    return 1 if failed or not passed else 0
