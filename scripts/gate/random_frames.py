"""Frames of both protocols that a client of a circuit of scripts/lib/configuration could send, as random.Random picks them. And
what scripts/gate/random-lines and scripts/gate/mutated-lines do with their words."""
import random

from messages import message, message6
from operator_script import number, parser, run

CLIENTS = 20
POOL = 16


def network4(circuit):
    return f"0a{circuit // 256:02x}{circuit % 256:02x}"


def frame4(pick, circuit):
    """A DHCPv4 frame: options 54 and 50 and ciaddr are this circuit's, another's or left out."""
    network = network4(circuit)
    address = f"{network}{pick.randrange(9, 11 + POOL):02x}"
    server = pick.choice([f"3604{network}01", f"3604{network}02", ""])
    wanted = pick.choice([f"3204{address}", f"3204{address}", ""])
    ciaddr = pick.choice([f"ciaddr={address}", "", ""])
    kind = pick.choice(["DISCOVER", "DISCOVER", "REQUEST", "REQUEST", "REQUEST", "DECLINE", "RELEASE", "INFORM"])
    words = [word for word in (server, wanted, ciaddr) if word and not (kind == "DISCOVER" and word == server)]
    return message(kind, pick.randrange(1, CLIENTS + 1), *words)


def frame6(pick, circuit):
    """A DHCPv6 frame: its addresses are of this circuit's pool or just outside."""
    kind = pick.choice(["SOLICIT6", "SOLICIT6", "REQUEST6", "REQUEST6", "RENEW6", "REBIND6", "CONFIRM6", "RELEASE6", "DECLINE6"])
    needs_server = kind in ("REQUEST6", "RENEW6", "RELEASE6", "DECLINE6")
    addresses = [f"20010db8{circuit:08x}{pick.randrange(255, 257 + POOL):016x}" for _ in range(pick.randrange(3))]
    words = (["ours"] if needs_server != (pick.random() < 0.05) else []) + addresses
    return message6(kind, pick.randrange(1, CLIENTS + 1), *words)


def frame(pick, circuit):
    """The number of a protocol, and a frame of it."""
    return (4, frame4(pick, circuit)) if pick.random() < 0.5 else (6, frame6(pick, circuit))


def is_event(line):
    """Whether something is written for it: not for a line before all events."""
    return not line.startswith(("old ", "move "))


def write(help_text, lines):
    """Writes the lines that the command line asks for, of those that `lines` gives for so many circuits, and ends the script."""
    reader = parser(help_text)
    reader.add_argument("count", type=number(0, 999_999_999), metavar="LINES")
    reader.add_argument("circuits", type=number(1, 1024), metavar="CIRCUITS")
    reader.add_argument("seed", type=number(0, 999_999_999), nargs="?", default=1, metavar="SEED")

    def main():
        words = reader.parse_args()
        for _, line in zip(range(words.count), lines(random.Random(words.seed), words.circuits)):
            print(line)

    run(main)
