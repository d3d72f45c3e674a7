"""Clocks of a program that a case sets, by a library that is loaded before all others. It needs a C compiler, `cc`."""
import os
import struct
import subprocess
from pathlib import Path

SOURCE = Path(__file__).resolve().parent / "shifted_clock.c"


class Clocks:
    """The system's clock and the monotonic one of a program, each ahead of the machine's by some seconds, 0 at first."""

    def __init__(self, folder="."):
        # a name that no module of Python has, beside which it may stand
        self.library, self.file = (str(Path(folder, name).resolve()) for name in ("libshifted.so", "shifts"))
        subprocess.run(["cc", "-shared", "-fPIC", "-O1", "-o", self.library, SOURCE], check=True)
        self.set(0, 0)

    def set(self, system, monotonic):
        """From now on they are ahead by so many seconds."""
        shifts = struct.pack("<qq", system, monotonic)
        file = os.open(self.file, os.O_RDWR | os.O_CREAT, 0o600)
        os.pwrite(file, shifts, 0)
        os.close(file)

    def environment(self):
        """That of a program that goes by them."""
        return {**os.environ, "LD_PRELOAD": self.library, "SHIFTED_CLOCKS": self.file}
