"""A client that reboots with an address of another network is refused: the byte before the frame is 0."""
from client import REQUEST, Circuit, Server, address, frame, reboot

server = Server("accessd", "config.toml", "leases", "--format")
circuit = Circuit(20000)
circuit.send(frame(REQUEST, 1, reboot(address("10.9.9.9"))))
print(circuit.socket.recv(2048).hex())
server.kill()
