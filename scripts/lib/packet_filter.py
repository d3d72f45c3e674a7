"""A filter of the kernel (BPF) by which a packet socket has only what DHCP clients of its interface send to a server: DHCPv4 to port
67 of one of the interface's addresses or of everybody, DHCPv6 to port 547 of the interface's link-local address or of the agents'
group. What has a VLAN's tag, is a fragment, or is for or from another machine is left out. What is left out costs no process."""
import array
import socket
import struct

from packets import ALL_SERVERS6, IPV4, IPV6, UDP

# of Linux: socket(7), filter.h, if_packet.h
SO_ATTACH_FILTER, SO_LOCK_FILTER = 26, 44
WORD, HALF, BYTE, HALF_FROM, HEADER_LENGTH = 0x20, 0x28, 0x30, 0x48, 0xB1
IS_EQUAL, IS_GREATER, HAS_BITS, RETURN = 0x15, 0x25, 0x45, 0x06
# what the kernel knows beside a packet's bytes: whether it had a VLAN's tag, and whom it is for: this machine (0), all (1), a
# group (2), another machine, or it leaves this one
HAS_TAG, KIND = 0xFFFFF000 + 48, 0xFFFFF000 + 4
GROUP = 2
# where things stand in an Ethernet frame with IP
TYPE, IP = 12, 14
FRAGMENT4, PROTOCOL4, TO4 = IP + 6, IP + 9, IP + 16
NEXT6, TO6, PORT6 = IP + 6, IP + 24, IP + 42
# more fragments follow, or this one is not the first
IS_FRAGMENT = 0x3FFF
SERVER4, SERVER6 = 67, 547
EVERYBODY4 = bytes([255] * 4)
EVERYTHING = 0xFFFF
# the bytes of an instruction
SIZE = 8
# an instruction jumps to one of these; to none, to the next
TAKE, DROP, NEXT, DHCP4 = "take", "drop", None, "DHCPv4"


def is_one_of(at, addresses):
    """Instructions that take the packet where its address at this place is one of these, and drop it otherwise."""
    for number, address in enumerate(addresses):
        *first, last = struct.unpack(f">{len(address) // 4}I", address)
        otherwise = DROP if number == len(addresses) - 1 else f"at {at}, {number + 1}"
        yield f"at {at}, {number}"
        for place, word in enumerate(first):
            yield WORD, at + 4 * place, NEXT, NEXT
            yield IS_EQUAL, word, NEXT, otherwise
        yield WORD, at + 4 * len(first), NEXT, NEXT
        yield IS_EQUAL, last, TAKE, otherwise


def instructions(addresses4, address6):
    """The filter for an interface with these IPv4 addresses and this link-local IPv6 address. A text names the next instruction."""
    return [
        (WORD, HAS_TAG, NEXT, NEXT), (IS_EQUAL, 0, NEXT, DROP),
        (WORD, KIND, NEXT, NEXT), (IS_GREATER, GROUP, DROP, NEXT),
        (HALF, TYPE, NEXT, NEXT), (IS_EQUAL, IPV4, DHCP4, NEXT), (IS_EQUAL, IPV6, NEXT, DROP),
        (BYTE, NEXT6, NEXT, NEXT), (IS_EQUAL, UDP, NEXT, DROP),
        (HALF, PORT6, NEXT, NEXT), (IS_EQUAL, SERVER6, NEXT, DROP),
        *is_one_of(TO6, [ALL_SERVERS6, address6]),
        DHCP4,
        (BYTE, PROTOCOL4, NEXT, NEXT), (IS_EQUAL, UDP, NEXT, DROP),
        (HALF, FRAGMENT4, NEXT, NEXT), (HAS_BITS, IS_FRAGMENT, DROP, NEXT),
        (HEADER_LENGTH, IP, NEXT, NEXT), (HALF_FROM, IP + 2, NEXT, NEXT), (IS_EQUAL, SERVER4, NEXT, DROP),
        *is_one_of(TO4, [EVERYBODY4, *addresses4]),
        TAKE, (RETURN, EVERYTHING, NEXT, NEXT),
        DROP, (RETURN, 0, NEXT, NEXT),
    ]


def assembled(lines):
    """The instructions as the kernel has them, in which a jump says how many it passes over."""
    places, program = {}, []
    for line in lines:
        if isinstance(line, str):
            places[line] = len(program)
        else:
            program.append(line)

    def distance(at, name):
        return 0 if name is NEXT else places[name] - at - 1
    return b"".join(struct.pack("HBBI", code, distance(at, true), distance(at, false), operand)
                    for at, (code, operand, true, false) in enumerate(program))


def attach(end, addresses4, address6):
    """Gives a socket the filter, which nobody can take off it again."""
    # not by ctypes, whose import may want memory that is written and run, which the unit forbids
    code = array.array("B", assembled(instructions(addresses4, address6)))
    end.setsockopt(socket.SOL_SOCKET, SO_ATTACH_FILTER, struct.pack("HL", len(code) // SIZE, code.buffer_info()[0]))
    end.setsockopt(socket.SOL_SOCKET, SO_LOCK_FILTER, 1)
