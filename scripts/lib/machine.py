"""A root of Debian in which systemd runs: with processes, mounts, a network and cgroups of its own, on this machine's kernel. It
takes root, and nothing that is not in util-linux."""
import contextlib
import ctypes
import os
import shutil
import signal
import subprocess
import tempfile
import time
from pathlib import Path

from operator_script import Refused

CLONE_NEWNET = 0x40000000
PATH = "/usr/sbin:/usr/bin:/sbin:/bin"
ENVIRONMENT = ["env", "-i", f"PATH={PATH}", "TERM=dumb", "LC_ALL=C.UTF-8", "DEBIAN_FRONTEND=noninteractive", "container=other"]
# what the first process does: the root becomes its own, since no user namespace can be made below a root that chroot(2) made,
# and the kernel's settings and /sys are only read
BEGIN = """set -e
root=$1
mount --make-rprivate /
mount --bind "$root" "$root"
mount -t proc proc "$root/proc"
mount --bind "$root/proc/sys" "$root/proc/sys"
mount -o remount,bind,ro "$root/proc/sys"
mount -t sysfs -o ro sysfs "$root/sys"
mount -t cgroup2 cgroup2 "$root/sys/fs/cgroup"
mount -t tmpfs -o mode=755 tmpfs "$root/run"
mount -t tmpfs tmpfs "$root/tmp"
mount -t tmpfs -o mode=755 tmpfs "$root/dev"
for device in null zero full random urandom tty; do
    mknod -m 666 "$root/dev/$device" c $(stat -c "0x%t 0x%T" "/dev/$device")
done
mkdir "$root/dev/pts" "$root/dev/shm" "$root/run/before"
mount -t devpts -o newinstance,ptmxmode=666 devpts "$root/dev/pts"
ln -s pts/ptmx "$root/dev/ptmx"
mount -t tmpfs tmpfs "$root/dev/shm"
cd "$root"
pivot_root . run/before
exec "${@:2}" sh -c 'umount -l /run/before; exec /lib/systemd/systemd --system --log-target=null --show-status=no'
"""
SECONDS = 120


def output(*words, **how):
    """What a command writes, and its status."""
    done = subprocess.run(list(map(str, words)), stdout=subprocess.PIPE, stderr=subprocess.STDOUT, stdin=subprocess.DEVNULL,
                          text=True, **how)
    return done.stdout, done.returncode


@contextlib.contextmanager
def cgroups():
    """The folder of this process's machine among all cgroups."""
    with tempfile.TemporaryDirectory() as place:
        subprocess.run(["mount", "-t", "cgroup2", "none", place], check=True)
        try:
            group = Path(place) / f"higvaszte-try-{os.getpid()}"
            group.mkdir(exist_ok=True)
            yield group
        finally:
            subprocess.run(["umount", "-l", place], check=True)


def make_root(place, suite):
    """A root with the least of this suite of Debian, from the network."""
    if not shutil.which("debootstrap"):
        raise Refused(5, "debootstrap is not installed (the Debian package debootstrap)")
    text, status = output("debootstrap", "--variant=minbase", suite, f"{place}.new")
    if status:
        raise Refused(5, f"debootstrap ends with status {status}:\n{text}")
    os.rename(f"{place}.new", place)


class Machine:
    """A root, and systemd in it between `boot` and `stop`."""

    def __init__(self, root):
        self.root, self.process, self.first = Path(root), None, None

    def in_root(self, *words):
        """Runs a command in the root alone, with this machine's network, and returns what it writes and its status."""
        shutil.copyfile("/etc/resolv.conf", self.root / "etc/resolv.conf")
        return output("chroot", self.root, *ENVIRONMENT, *words)

    def run(self, *words):
        """The same where systemd runs, with its network."""
        return output("nsenter", "-t", self.first, "--all", "-r", "-w", *ENVIRONMENT, *words)

    def boot(self):
        """Starts systemd."""
        words = ["unshare", "--fork", "--pid", "--mount", "--uts", "--ipc", "--net", "--cgroup", "--kill-child",
                 "bash", "-c", BEGIN, "bash", self.root, *ENVIRONMENT]
        with cgroups() as group, tempfile.TemporaryFile() as self.said:
            self.process = subprocess.Popen(words, stdin=subprocess.DEVNULL, stderr=self.said,
                                            preexec_fn=lambda: (group / "cgroup.procs").write_text("0"))
            self.wait()

    def wait(self):
        """Waits until systemd has started what it starts."""
        until = time.monotonic() + SECONDS
        while not self.is_running():
            if time.monotonic() > until or self.process.poll() is not None:
                self.said.seek(0)
                failed = self.run("systemctl", "--failed")[0] if self.first else ""
                raise Refused(5, f"systemd does not run in {self.root}: {self.said.read().decode()}{failed}")
            time.sleep(0.2)

    def is_running(self):
        children = Path(f"/proc/{self.process.pid}/task/{self.process.pid}/children").read_text().split()
        self.first = children[0] if children else None
        # degraded: a service that needs hardware, or the kernel's modules, has failed
        return self.first and self.run("systemctl", "is-system-running")[0].strip() in ("running", "degraded")

    def stop(self):
        """Ends all of its processes at once, as a loss of power would."""
        if not self.process:
            return
        if self.process.poll() is None:
            os.kill(int(self.first or self.process.pid), signal.SIGKILL)
        self.process.wait()
        self.process = self.first = None
        with cgroups() as group:
            for folder in sorted((path for path in group.rglob("*") if path.is_dir()), reverse=True):
                folder.rmdir()
            group.rmdir()

    def enter_network(self):
        """From here on this process makes its sockets in the network of systemd."""
        namespace = os.open(f"/proc/{self.first}/ns/net", os.O_RDONLY)
        if ctypes.CDLL(None, use_errno=True).setns(namespace, CLONE_NEWNET):
            raise OSError(ctypes.get_errno(), "the network of the root can't be entered")
        os.close(namespace)
