"""What the scripts for operators do alike: how they read their command line, and how a fault ends them, with the system's
cause in words and a status, and never with a traceback.

Statuses: 2 the command line or the configuration is refused; 4 a file is not what it has to be, or is written all the time;
5 the system refuses a file, a socket or a program."""
import argparse
import contextlib
import os
import signal
import sys


class Refused(Exception):
    """Why a script ends without having done what it is for: with which status, and in words."""

    def __init__(self, status, words):
        super().__init__(words)
        self.status, self.words = status, words


def say(words):
    """A line on standard error, where there is one and it has room."""
    if sys.stderr:
        with contextlib.suppress(OSError):
            print(words, file=sys.stderr, flush=True)


def parser(text):
    """A parser of arguments that shows this text as help."""
    return argparse.ArgumentParser(description=text, formatter_class=argparse.RawDescriptionHelpFormatter, allow_abbrev=False)


def number(least, most):
    """What reads an argument that is a number within these limits, in digits alone."""
    def read(word):
        if not (word.isascii() and word.isdigit() and len(word) < 10 and least <= int(word) <= most):
            raise argparse.ArgumentTypeError(f"'{word}' is no number from {least} to {most}")
        return int(word)
    return read


def cause(error):
    """A fault of the system in words, with the file that it is about."""
    words = error.strerror or str(error)
    return f"{error.filename}: {words}" if error.filename is not None else words


def status_of(main):
    """The status that a script's main function returns or ends with, once standard output has taken what was written to it."""
    try:
        status = main()
    except SystemExit as ending:
        status = ending.code
    if sys.stdout:
        sys.stdout.flush()
    return status


def drop_unwritten():
    """What the system has not taken by now goes nowhere, so that the interpreter does not try it again and complain."""
    for number, stream in (1, sys.stdout), (2, sys.stderr):
        try:
            if stream:
                stream.flush()
        except OSError:
            os.dup2(os.open(os.devnull, os.O_WRONLY), number)


def open_closed_streams():
    """Has /dev/null in the place of each standard stream that is closed. Else the next file that is opened would be that stream
    for every program that is started."""
    for number in range(3):
        try:
            os.fstat(number)
        except OSError:
            # what is opened gets the lowest number that is free, which is this one
            os.set_inheritable(os.open(os.devnull, os.O_RDWR), True)


def run(main):
    """Calls a script's main function and ends with the status that it returns."""
    open_closed_streams()
    for ending in (signal.SIGTERM, signal.SIGHUP):
        # so that what it has begun is taken back; nohup has one of them ignored
        if signal.getsignal(ending) != signal.SIG_IGN:
            signal.signal(ending, lambda got, _: sys.exit(128 + got))
    # argparse writes to it, closed or not
    sys.stderr = sys.stderr or open(os.devnull, "w")
    for stream in (sys.stdout, sys.stderr):
        if stream:
            # a path may have bytes that are no text
            stream.reconfigure(errors="backslashreplace")
    try:
        status = status_of(main)
    except Refused as refused:
        say(refused.words)
        status = refused.status
    except KeyboardInterrupt:
        status = 130
    except BrokenPipeError:
        # whoever reads standard output has gone
        status = 6
    except OSError as error:
        say(cause(error))
        status = 5
    except MemoryError:
        say("out of memory")
        status = 4
    drop_unwritten()
    sys.exit(status)
