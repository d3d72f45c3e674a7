"""A program that the system grants no further memory."""
import os
import resource

# the C library takes each block from the system, and none from what it has left of another
ENVIRONMENT = {**os.environ, "GLIBC_TUNABLES": "glibc.malloc.mmap_threshold=1"}


def grant_none(process):
    """Refuses this process, which was started in that environment, every request from now on."""
    resource.prlimit(process.pid, resource.RLIMIT_DATA, (0, 0))
