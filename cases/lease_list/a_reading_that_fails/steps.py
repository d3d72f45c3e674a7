"""The system refuses each reading of a whole region with EIO, and nothing else (seccomp(2)): each circuit is closed, since
its region can't be read."""
import ctypes
import errno
import struct
import subprocess
from pathlib import Path

from system_calls import ALLOW, JUMP_IF_EQUAL, LOAD, PR_SET_NO_NEW_PRIVS, RETURN, rule

# x86-64; what a call asks for stands where seccomp_data has its number and its third argument
PREAD, REGION, NUMBER, LENGTH = 17, 32768, 0, 32
PR_SET_SECCOMP, MODE_FILTER, REFUSE = 22, 2, 0x00050000
RULES = b"".join([
    rule(LOAD, NUMBER), rule(JUMP_IF_EQUAL, PREAD, 1), rule(RETURN, ALLOW),
    rule(LOAD, LENGTH), rule(JUMP_IF_EQUAL, REGION, 1), rule(RETURN, ALLOW),
    rule(RETURN, REFUSE | errno.EIO),
])


def refuse():
    """Installs the filter for this process and what it becomes."""
    code = ctypes.create_string_buffer(RULES)
    program = ctypes.create_string_buffer(struct.pack("HP", len(RULES) // 8, ctypes.addressof(code)))
    libc = ctypes.CDLL(None)
    libc.prctl(PR_SET_NO_NEW_PRIVS, 1, 0, 0, 0)
    libc.prctl(PR_SET_SECCOMP, MODE_FILTER, program)


region = bytearray(32768)
region[8192] = 2
for slot in range(32):
    region[16384 + 512 * slot] = 0xA5
Path("leases").write_bytes(bytes(region) * 3)
command = ["leases", "config.toml", "--disk", "leases", "--at", "5"]
for how in ({}, {"preexec_fn": refuse}):
    run = subprocess.run(command, capture_output=True, text=True, **how)
    print(run.returncode, run.stdout + run.stderr)
