"""One line that tells a person how far something is that takes minutes."""
import shutil
import sys
import time


def in_words(names):
    """Names as a sentence has them."""
    *most, last = names
    return f"{', '.join(most)} and {last}" if most else last


def minutes(seconds):
    """How long something has taken, in words."""
    if seconds < 90:
        return f"{int(seconds)} seconds"
    return f"{int(seconds / 60)} minutes"


class Progress:
    """A line on standard error. On a terminal it is rewritten in place, and gone at the end. Elsewhere it is written at the start and
    once in so many seconds."""

    def __init__(self, stream=None, seldom=300):
        self.stream = sys.stderr if stream is None else stream
        self.seldom = seldom
        self.began = time.monotonic()
        self.next, self.shown = 0, None
        self.is_terminal = self.stream.isatty()

    def show(self, words):
        """Shows these words, and how many minutes are gone."""
        gone = time.monotonic() - self.began
        line = f"{words}, {minutes(gone)} gone" if gone >= 1 else words
        if self.is_terminal and line != self.shown:
            width = shutil.get_terminal_size().columns - 1
            self.stream.write(f"\r\033[K{line[:width]}")
            self.stream.flush()
            self.shown = line
        elif not self.is_terminal and gone >= self.next:
            self.next += self.seldom
            self.stream.write(f"{line}\n")
            self.stream.flush()

    def clear(self):
        """Takes the line off a terminal."""
        if self.is_terminal:
            self.stream.write("\r\033[K")
            self.stream.flush()
            self.shown = None
