"""Ethernet frames with a UDP datagram over IPv4 or IPv6, for several scripts. Addresses are bytes."""
import ipaddress
import struct

EVERYBODY = bytes([255] * 6)
# RFC 8415, section 7.1, and its Ethernet address (RFC 2464, section 7)
ALL_SERVERS6 = ipaddress.IPv6Address("ff02::1:2").packed
SERVERS6 = bytes.fromhex("333300010002")
IPV4, IPV6 = 0x0800, 0x86DD
UDP = 17


def checksum(data):
    """RFC 1071."""
    total = sum(struct.unpack(f">{(len(data) + 1) // 2}H", data + bytes(len(data) % 2)))
    while total > 0xFFFF:
        total = (total & 0xFFFF) + (total >> 16)
    return total ^ 0xFFFF


def udp(source, target, ports, data):
    """A UDP datagram, whose checksum covers the two addresses (RFC 768; RFC 8200, section 8.1)."""
    length = 8 + len(data)
    pseudo = source + target + (struct.pack(">II", length, UDP) if len(source) == 16 else struct.pack(">HH", UDP, length))
    header = struct.pack(">HHHH", *ports, length, 0)
    return header[:6] + struct.pack(">H", checksum(pseudo + header + data) or 0xFFFF) + data


def ethernet4(to, sender, source, target, ports, data):
    body = udp(source, target, ports, data)
    header = struct.pack(">BBHHHBBH4s4s", 0x45, 0, 20 + len(body), 0, 0, 64, UDP, 0, source, target)
    header = header[:10] + struct.pack(">H", checksum(header)) + header[12:]
    return to + sender + struct.pack(">H", IPV4) + header + body


def ethernet6(to, sender, source, target, ports, data):
    body = udp(source, target, ports, data)
    return to + sender + struct.pack(">H", IPV6) + struct.pack(">IHBB", 0x60000000, len(body), UDP, 64) + source + target + body
