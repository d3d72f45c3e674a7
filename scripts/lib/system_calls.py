"""Watches the calls of a program that write to a file, sync it, send a datagram or receive one, and makes some of them fail.
Of a server it also sees where that looks for datagrams, and so when it has taken whatever was sent.
It needs nothing but Linux: the program runs under a seccomp filter that asks this process about each such call
(SECCOMP_RET_USER_NOTIF, seccomp_unotify(2)). And copies a program's sockets (pidfd_getfd(2)).
    python3 system_calls.py NAMES DESCRIPTOR COMMAND..   installs the filter for the calls of these names, with commas between
        them, sends its listener there, and becomes COMMAND"""
import ctypes
import errno
import fcntl
import os
import select
import socket
import struct
import subprocess
import sys
import threading

# x86-64
NUMBERS = {"write": 18, "lengthen": 77, "sync": 75, "sync all": 74, "send": 44, "receive": 45, "look": 232}
# what is watched by default: a server looks for datagrams all the time
OUTGOING = ("write", "lengthen", "sync", "sync all", "send")
# how long a server may take until it has taken whatever was sent, in seconds
LIMIT = 60
SYS_SECCOMP, PR_SET_NO_NEW_PRIVS, SET_MODE_FILTER, NEW_LISTENER = 317, 38, 1, 8
SYS_PIDFD_GETFD = 438
ALLOW, ASK = 0x7FFF0000, 0x7FC00000
LOAD, JUMP_IF_EQUAL, RETURN = 0x20, 0x15, 0x06
RECEIVE, ANSWER, CONTINUE = 0xC0502100, 0xC0182101, 1
# an answer is an error and flags: the call is made, or it returns 0 at once, as a look that found nothing does
GO_ON, FOUND_NOTHING = (0, CONTINUE), (0, 0)


def rule(code, value, if_equal=0):
    return struct.pack("HBBI", code, if_equal, 0, value)


def listener(names):
    """Installs the filter for this process and what it becomes."""
    numbers = [NUMBERS[name] for name in names]
    rules = [rule(LOAD, 0)]
    rules += [rule(JUMP_IF_EQUAL, number, len(numbers) - index) for index, number in enumerate(numbers)]
    rules += [rule(RETURN, ALLOW), rule(RETURN, ASK)]
    code = ctypes.create_string_buffer(b"".join(rules))
    program = ctypes.create_string_buffer(struct.pack("HP", len(rules), ctypes.addressof(code)))
    libc = ctypes.CDLL(None, use_errno=True)
    if libc.prctl(PR_SET_NO_NEW_PRIVS, 1, 0, 0, 0) != 0:
        raise OSError(ctypes.get_errno(), "prctl")
    descriptor = libc.syscall(SYS_SECCOMP, SET_MODE_FILTER, NEW_LISTENER, program)
    if descriptor < 0:
        raise OSError(ctypes.get_errno(), "seccomp")
    return descriptor


def copies(process):
    """A copy of each socket of a program that this one has started, by its descriptor there. It is the same socket: what is sent
    from it comes from that program's address and port."""
    folder, itself = f"/proc/{process.pid}/fd", os.pidfd_open(process.pid)
    libc = ctypes.CDLL(None, use_errno=True)
    found = {}
    for name in os.listdir(folder):
        if os.readlink(f"{folder}/{name}").startswith("socket:"):
            copy = libc.syscall(SYS_PIDFD_GETFD, itself, int(name), 0)
            if copy < 0:
                raise OSError(ctypes.get_errno(), "pidfd_getfd")
            found[int(name)] = socket.socket(fileno=copy)
    os.close(itself)
    return found


def sockets_of(process):
    """The same by their ports."""
    return {end.getsockname()[1]: end for end in copies(process).values()}


class Watch:
    """The calls of one program, in order, by the names above, and the descriptor that each was made with. A server's looks are no
    part of them: they tell where its turns begin, and when it waits."""

    def __init__(self, names=OUTGOING):
        self.names = names
        self.calls, self.descriptors = [], []
        self.left, self.failing, self.kills = 0, (), False
        self.broken = []
        # how many turns have begun, how many had when the server began to wait the last time, whether it still runs, and whether it
        # no longer waits
        self.turns, self.turns_at_rest, self.runs, self.is_hurried = 0, 0, True, False
        self.changed = threading.Condition()
        # what a server looks for datagrams with; of other descriptors it asks whether they take a line
        self.looks_with = None
        # the six arguments of the last call
        self.arguments = []

    def start(self, command, **how):
        """Starts the program, as subprocess.Popen does."""
        here, there = socket.socketpair()
        words = [sys.executable, __file__, ",".join(self.names), str(there.fileno()), *command]
        self.process = subprocess.Popen(words, pass_fds=[there.fileno()], **how)
        there.close()
        _, descriptors, _, _ = socket.recv_fds(here, 1, 1)
        here.close()
        threading.Thread(target=self.answer_all, args=descriptors, daemon=True).start()
        return self.process

    def fail(self, k, names=tuple(NUMBERS)):
        """The k-th call of these names from now on fails with EIO."""
        self.left, self.failing = k, names

    def kill(self, k):
        """Where it would make the k-th of its calls from now on, the program is killed."""
        self.left, self.failing, self.kills = k, tuple(NUMBERS), True

    def settle(self):
        """Waits until a turn that begins from now on has taken nothing, however long that lasts, or the server has ended: so
        whatever was sent before has been taken and answered. Of the server's calls its looks have to be watched."""
        with self.changed:
            before = self.turns
            if not self.changed.wait_for(lambda: self.turns_at_rest > before or not self.runs, LIMIT):
                raise TimeoutError(f"no turn that takes nothing in {LIMIT} seconds")

    def hurry(self):
        """From now on the server waits for no datagram, so that its turns are soon over. Its looks have to be watched."""
        self.is_hurried = True

    def break_receives(self, port):
        """From now on every receive from the socket with this port fails with EIO, and no other one: once one that was let through
        is done. Of the server's calls its looks have to be watched."""
        self.broken = [descriptor for descriptor, end in copies(self.process).items() if end.getsockname()[1] == port]
        self.settle()

    def mend_receives(self):
        self.broken = []

    def since(self, count):
        """The calls after the first so many."""
        return ", ".join(self.calls[count:])

    def answer_all(self, descriptor):
        names = {number: name for name, number in NUMBERS.items()}
        poll = select.poll()
        poll.register(descriptor, select.POLLIN)
        while poll.poll()[0][1] & select.POLLIN:
            question = bytearray(80)
            try:
                fcntl.ioctl(descriptor, RECEIVE, question)
            except OSError:
                # the program ended
                continue
            number, _, _, call, _, _, *self.arguments = struct.unpack_from("QIIiIQQQQQQQ", question)
            how = self.answer(names[call], self.arguments[0], self.arguments[3])
            try:
                fcntl.ioctl(descriptor, ANSWER, struct.pack("QqiI", number, 0, *how))
            except OSError:
                continue
        os.close(descriptor)
        with self.changed:
            self.runs = False
            self.changed.notify_all()

    def answer(self, name, first_argument, fourth_argument):
        """The answer to a call. Only the first descriptor that it looks with tells of datagrams."""
        if name != "look":
            return self.call(name, first_argument)
        if self.looks_with is None:
            self.looks_with = first_argument
        return self.look(fourth_argument) if first_argument == self.looks_with else GO_ON

    def look(self, milliseconds):
        """The answer to a look, which waits at most so long. A turn begins with one that doesn't wait; after a turn that took nothing
        comes one that does."""
        with self.changed:
            if milliseconds == 0:
                self.turns += 1
            else:
                self.turns_at_rest = self.turns
                self.changed.notify_all()
        return FOUND_NOTHING if milliseconds and self.is_hurried else GO_ON

    def call(self, name, first_argument):
        """The answer to any other call, which is noted down."""
        counts = name in self.failing
        self.left -= counts
        is_broken = name == "receive" and first_argument in self.broken
        fails = counts and self.left == 0 or is_broken
        if fails and self.kills:
            self.process.kill()
        self.descriptors.append(first_argument)
        self.calls.append(name + (" fails" if fails else ""))
        return (-errno.EIO, 0) if fails else GO_ON


if __name__ == "__main__":
    with socket.socket(fileno=int(sys.argv[2])) as end:
        own = listener(sys.argv[1].split(","))
        socket.send_fds(end, [b"x"], [own])
    os.close(own)
    os.execvp(sys.argv[3], sys.argv[3:])
