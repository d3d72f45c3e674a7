"""A server that runs holds its file and its ports. After a kill both are free."""
import os
import subprocess
from client import Server

ONE = ["accessd", "one.toml", "--turns", "1"]


def refused(*words):
    run = subprocess.run([*ONE, *words], capture_output=True, text=True)
    print(run.returncode, run.stderr.rstrip("\n"))


server = Server("accessd", "config.toml", "leases", "--format", "--port", "23000")
refused("--disk", "leases", "--format", "--port", "23100")
refused("--disk", "leases", "--port", "23100")
refused("--disk", "other", "--format", "--port", "23000")
print("made" if os.path.exists("other") else "no file")
with open("other", "wb") as file:
    file.truncate(32768)
refused("--disk", "other", "--port", "23100")
print(server.runs())
server.kill()
print(Server("accessd", "config.toml", "leases", "--port", "23000", turns=1).first_line)
