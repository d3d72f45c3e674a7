"""The rows of docs/TABLES.md for DHCPv6, in its order, and what a row's words leave open: what client A sends, to a pool in
which state, what comes of it, and the state of the pool afterwards. A row is right where the whole reply is, and where
afterwards each address is free, and client A is advertised its own, exactly when the state says so.

Addresses are written as their last byte; the pool has 10, 11 and 12. Of a pool it is said what each is held for: `A`, `B`, `C`
a lease of this client until the next second, `a`, `b` one that has just ended; `#` and `%` bars alike; `.` nothing; and
afterwards `+` a lease of client A for the whole lease time, `-` a bar for the whole hour. The server that a client names is
`none`, `ours` or another one's."""
import subprocess
from operator import itemgetter

from messages import expand

NOW, LEASE, HOUR = 10_000, 600, 3600
CLIENTS = {"A": 1, "B": 2, "C": 3, "#": 4, "%": 5}
# one that has no lease
STRANGER = 9
POOL = ["10", "11", "12"]
SERVERS = {"none": "", "ours": "ours", "other": "server=00030001020000000009"}
ROWS = [line.split() for line in """
# the server: none for a Solicit, Confirm and Rebind, this one for the others (18)
... SOLICIT ours  :            drop:18                ...
... SOLICIT other :            drop:18                ...
A.. CONFIRM ours  :10          drop:18                A..
A.. REBIND  ours  :10          drop:18                A..
... REQUEST none  :            drop:18                ...
... REQUEST other :            drop:18                ...
A.. RENEW   none  :10          drop:18                A..
A.. RELEASE other :10          drop:18                A..
A.. DECLINE none  :10          drop:18                A..
# Solicit: the lease, the first listed address where it is free, the lowest free one, none
.A. SOLICIT none  :12          leased:11              .A.
... SOLICIT none  :12          leased:12              ...
... SOLICIT none  :            leased:10              ...
... SOLICIT none  :0f          leased:10              ...
BC# SOLICIT none  :10          ia:NoAddrsAvail        BC#
# the second listed address is not tried
B.. SOLICIT none  :10,12       leased:11              B..
# a lease and a bar count until their end, and no longer
b.. SOLICIT none  :10          leased:10              ...
.a. SOLICIT none  :            leased:10              ...
#B. SOLICIT none  :            leased:12              #B.
%B. SOLICIT none  :            leased:10              .B.
# Request: an address outside the pool, a pick, none
... REQUEST ours  :13          ia:NotOnLink           ...
A.. REQUEST ours  :10,0f       ia:NotOnLink           A..
BC# REQUEST ours  :0f          ia:NotOnLink           BC#
... REQUEST ours  :            leased:10              +..
... REQUEST ours  :11          leased:11              .+.
.A. REQUEST ours  :10          leased:11              .+.
.a. REQUEST ours  :12          leased:12              ..+
B.. REQUEST ours  :10,12       leased:11              B+.
BC# REQUEST ours  :10          ia:NoAddrsAvail        BC#
# Renew: each listed address but the lease's in order, also one that is there twice or no address of the pool, and then the
# lease's
.A. RENEW   ours  :            leased:11              .+.
.A. RENEW   ours  :11          leased:11              .+.
.A. RENEW   ours  :11,12,10    leased:12/0,10/0,11    .+.
.A. RENEW   ours  :12,10,11    leased:12/0,10/0,11    .+.
.A. RENEW   ours  :12,12       leased:12/0,12/0,11    .+.
.A. RENEW   ours  :11,13,11,0f leased:13/0,0f/0,11    .+.
.A. RENEW   ours  :0f,10,12,13 leased:0f/0,10/0,12/0,13/0,11 .+.
BC. RENEW   ours  :12          ia:NoBinding           BC.
.a. RENEW   ours  :11          ia:NoBinding           ...
# Rebind: the same
..A REBIND  none  :12          leased:12              ..+
..A REBIND  none  :10,12       leased:10/0,12         ..+
B.. REBIND  none  :10          ia:NoBinding           B..
# Confirm: no address (24), one outside the pool, all in it, whoever has them
A.. CONFIRM none  :            drop:24                A..
A.. CONFIRM none  :13          status:NotOnLink       A..
A.. CONFIRM none  :10,0f       status:NotOnLink       A..
A.. CONFIRM none  :10          status:Success         A..
B.. CONFIRM none  :10,12       status:Success         B..
# Release: the lease is listed, it is not, there is none
.A. RELEASE ours  :11          status:Success         ...
.A. RELEASE ours  :10,11       status:Success         ...
.A. RELEASE ours  :10          status:Success         .A.
.A. RELEASE ours  :            status:Success         .A.
B.. RELEASE ours  :10          nothing-held           B..
.a. RELEASE ours  :11          nothing-held           ...
... RELEASE ours  :            nothing-held           ...
# Decline: alike
.A. DECLINE ours  :11          status:Success         .-.
.A. DECLINE ours  :12,11       status:Success         .-.
.A. DECLINE ours  :12          status:Success         .A.
.A. DECLINE ours  :            status:Success         .A.
B.. DECLINE ours  :10          nothing-held           B..
.a. DECLINE ours  :11          nothing-held           ...
... DECLINE ours  :            nothing-held           ...
""".splitlines() if line and not line.startswith("# ")]
# RFC 8415, section 21.13
STATUSES = {"Success": "0000", "NoAddrsAvail": "0002", "NoBinding": "0003", "NotOnLink": "0004"}


def addresses(lasts):
    return " ".join("2001:db8::" + last for last in lasts)


def message(kind, client, server, listed, moment):
    return f"receive 6 127.0.0.1:6801 {{UP a {kind}6 {client} {server} {addresses(listed)}}} {moment}"


def reply(kind, client, words):
    answer = "ADVERTISE6" if kind == "SOLICIT" else "REPLY6"
    return f"reply {{DOWN a {answer} {client} {words}}}"


def wanted(kind, answer):
    """The line for an answer to client A."""
    what, _, value = answer.partition(":")
    if what == "drop":
        return f"drop {value}"
    words = {"leased": lambda: addresses(value.split(",")), "ia": lambda: f"ia={STATUSES[value]}",
             "status": lambda: f"status={STATUSES[value]}", "nothing-held": lambda: "status=0000 ia=0003"}
    return reply(kind, CLIENTS["A"], words[what]())


def setting_up(pool):
    """Messages that bring a pool about, with their moments."""
    for letter, last in zip(pool, POOL):
        if letter == ".":
            continue
        time = HOUR if letter in "#%" else LEASE
        moment = NOW - time if letter in "ab%" else NOW + 1 - time
        yield moment, "REQUEST", CLIENTS[letter.upper()], last
        if letter in "#%":
            yield moment, "DECLINE", CLIENTS[letter], last


def held_until(letter):
    return NOW + {".": 0, "+": LEASE, "-": HOUR}.get(letter, 1)


def advertised(owner, listed, pool, moment):
    """What a Solicit of this owner, which lists these addresses, gets: its lease, or else the pick."""
    held = [(letter, last) for letter, last in zip(pool, POOL) if moment < held_until(letter)]
    own = [last for letter, last in held if letter in owner]
    free = [last for last in POOL if last not in [last for _, last in held]]
    picks = own + [last for last in listed[:1] if last in free] + free
    return addresses(picks[:1]) if picks else f"ia={STATUSES['NoAddrsAvail']}"


def looks(pool):
    """Solicits that show what a pool holds, and their answers: they change nothing."""
    for moment in NOW, NOW + 1, NOW + LEASE - 1, NOW + LEASE, NOW + HOUR - 1, NOW + HOUR:
        for owner, client, lists in ("A+", CLIENTS["A"], [[]]), ("", STRANGER, [[last] for last in POOL]):
            for listed in lists:
                yield (message("SOLICIT", client, "", listed, moment),
                       reply("SOLICIT", client, advertised(owner, listed, pool, moment)))


def answers_of(lines):
    run = subprocess.run(["forged_datagrams", "config.toml"], input=expand("\n".join(lines) + "\n"), capture_output=True, text=True)
    return run.stdout.splitlines()


for pool, kind, server, listed, answer, afterwards in ROWS:
    first = [message(what, client, "ours", [last], moment) for moment, what, client, last in sorted(setting_up(pool), key=itemgetter(0))]
    lasts = [last for last in listed[1:].split(",") if last]
    asked = [(message(kind, CLIENTS["A"], SERVERS[server], lasts, NOW), wanted(kind, answer)), *looks(afterwards)]
    found = answers_of(first + [line for line, _ in asked])[len(first):]
    want = expand("\n".join(line for _, line in asked)).splitlines()
    if found != want:
        print(pool, kind, server, listed, "at", [i for i, pair in enumerate(zip(found, want)) if len(set(pair)) > 1])
print(len(ROWS), "rows")
