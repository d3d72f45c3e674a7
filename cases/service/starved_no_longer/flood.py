"""Sends DISCOVERs and Solicits to the circuit whose ports begin here, until it is killed; it reads no answer.
    python3 flood.py PORT"""
import socket
import sys

from client import DISCOVER, LOOPBACK, frame, frame6

port = int(sys.argv[1])
end = socket.socket(socket.AF_INET, socket.SOCK_DGRAM)
frames = (frame(DISCOVER, 1), port), (frame6("SOLICIT6", 1), port + 1)
while True:
    for data, at in frames:
        end.sendto(data, (LOOPBACK, at))
