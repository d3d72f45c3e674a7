"""The file of a service is cut, replaced by a copy of itself, or removed while it is served: a line says so, and the service ends
with 5. Nobody asks it to stop."""
import os
import shutil

from client import DISCOVER, REQUEST, Circuit, Server, select

circuit = Circuit(20000)


def cut():
    os.truncate("leases", 32767)


def replace():
    shutil.copy("leases", "copy")
    os.rename("copy", "leases")


def remove():
    os.unlink("leases")


for lose in (cut, replace, remove):
    server = Server("accessd", "config.toml", "leases", "--service", "--format")
    offer = circuit.exchange(DISCOVER, 1)
    print(lose.__name__, circuit.exchange(REQUEST, 1, select(offer)))
    lose()
    print(*(line for line in server.report().splitlines() if line.startswith("leases: ")))
    print(server.process.returncode)
    if os.path.exists("leases"):
        os.unlink("leases")
