"""However many datagrams the server takes together, clients have the same leases. All clients of a protocol ask at once."""
import subprocess

from client import DISCOVER, REQUEST, Circuit, Server, frame, frame6, select

CLIENTS = (1, 2)
circuits = [Circuit(20000), Circuit(20004)]


def ask(kind, options):
    """Sends a message of each client on each circuit, and returns the answers by circuit and client."""
    answers = {}
    for client in CLIENTS:
        for circuit in circuits:
            circuit.send(frame(kind, client, options(circuit, client)))
    for circuit in circuits:
        for _ in CLIENTS:
            answer = circuit.receive()
            answers[circuit, answer.client] = answer
    return answers


def leases(batch):
    server = Server("accessd", "config.toml", batch, "--format", "--batch", batch)
    offers = ask(DISCOVER, lambda circuit, client: b"")
    for client in CLIENTS:
        for circuit in circuits:
            circuit.send6(frame6("REQUEST6", client, "ours"))
    ask(REQUEST, lambda circuit, client: select(offers[circuit, client]))
    for circuit in circuits:
        for _ in CLIENTS:
            circuit.receive6()
    server.kill()
    listed = subprocess.run(("leases", "config.toml", "--disk", batch), capture_output=True, text=True, check=True)
    return [" ".join(line.split()[:5]) for line in listed.stdout.splitlines()]


one, two, sixteen = (leases(batch) for batch in ("1", "2", "16"))
print(*one, sep="\n")
print(two == one, sixteen == one)
