"""A service answers clients of both protocols, writes their leases and the counts meanwhile, and goes on until it is stopped. Its
leases outlive it (docs/FORMATS.md, The sockets of `accessd`)."""
import re
import subprocess

from client import DISCOVER, REQUEST, Circuit, Server, reboot, select

server = Server("accessd", "config.toml", "leases", "--service", "--format", "--report", "1", "--leases", stdout=subprocess.PIPE)
print(server.first_line)
circuit = Circuit(20000)
offer = circuit.exchange(DISCOVER, 1)
print(offer)
lease = circuit.exchange(REQUEST, 1, select(offer))
print(lease)
print(circuit.exchange6("SOLICIT6", 2))
print(circuit.exchange6("REQUEST6", 2, "ours"))
for _ in range(2):
    # two looks see each lease that has begun
    moment, *words = server.process.stdout.readline().split()
    print("NOW", *words[:-1], "NOW+600" if int(words[-1]) == int(moment) + 600 else "LATER")
while not re.match("12 datagrams received, ", counts := server.process.stderr.readline()):
    pass
print(counts, end="")
print(server.runs())
print(server.stop())
server = Server("accessd", "config.toml", "leases", "--service")
print(circuit.exchange(REQUEST, 1, reboot(lease.address)))
server.kill()
