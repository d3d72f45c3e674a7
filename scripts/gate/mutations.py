"""Frames of random_frames.py with faults, and what the relay or the server would send with such faults, for the scripts
of this folder. A frame has one to three faults: a bit, a byte, a field, an option's code or length changed, a cut, an
option repeated, two frames spliced; one in eight has none, so that there are leases. A fault stands where something is read:
hardly a frame is dropped for its length alone."""
from messages import END, PAD
from random_frames import frame, network4

# where a DHCPv4 frame's options begin; before them, what is read: op, htype, hlen, hops, flags, ciaddr, giaddr, chaddr, cookie
OPTIONS4 = 240
FIELDS4 = [*range(4), 10, 11, *range(12, 16), *range(24, 34), *range(236, 240)]
# where a DHCPv6 frame's options begin: after the client's address, the type and the transaction id
OPTIONS6 = 20
# where the options in an IA_NA and in an IA Address begin (RFC 8415, sections 21.4 and 21.6)
NESTED6 = {3: 12, 5: 24}
# fields of one byte that decide, with values that do: op, htype, hlen, hops and the type of a DHCPv4 frame, the type of a
# DHCPv6 frame
DECIDING = {4: ((0, (0, 2, 3)), (1, (0, 6)), (2, (5, 16)), (3, (15, 16, 255)), (242, range(10))), 6: ((16, range(15)),)}
# ops, types, hops and codes of both protocols, and of its relays
BYTES = (0, 1, 2, 3, 5, 9, 12, 13, 15, 16, 18, 50, 52, 53, 54, 61, 82, 255)
# the longest frame that a line can have
LONGEST = 2048


def options4(frame):
    """Where each option begins, its length stands, and it ends."""
    at = OPTIONS4
    while at + 1 < len(frame) and frame[at] != END:
        end = at + 1 if frame[at] == PAD else at + 2 + frame[at + 1]
        yield at, [at + 1], min(end, len(frame))
        at = end


def options6(frame, at=OPTIONS6, limit=None):
    """The same, of nested options too."""
    limit = len(frame) if limit is None else limit
    while at + 4 <= limit:
        end = min(at + 4 + int.from_bytes(frame[at + 2:at + 4], "big"), limit)
        yield at, [at + 2, at + 3], end
        if code := NESTED6.get(int.from_bytes(frame[at:at + 2], "big")):
            yield from options6(frame, at + 4 + code, end)
        at = end


def options(protocol, frame):
    return list((options4 if protocol == 4 else options6)(frame))


def begin(protocol):
    return OPTIONS4 if protocol == 4 else OPTIONS6


def place(pick, protocol, frame):
    """Where a fault may stand: in a field that is read, or in the options."""
    fields = FIELDS4 if protocol == 4 else range(OPTIONS6)
    if pick.random() < 0.5 or len(frame) <= begin(protocol):
        return min(pick.choice(fields), len(frame) - 1)
    return pick.randrange(begin(protocol), len(frame))


def change_bit(pick, protocol, frame, _):
    at = place(pick, protocol, frame)
    return frame[:at] + bytes([frame[at] ^ 1 << pick.randrange(8)]) + frame[at + 1:]


def change_byte(pick, protocol, frame, _):
    at = place(pick, protocol, frame)
    return frame[:at] + bytes([pick.choice([pick.choice(BYTES), pick.randrange(256)])]) + frame[at + 1:]


def change_field(pick, protocol, frame, _):
    at, values = pick.choice(DECIDING[protocol])
    return frame[:at] + bytes([pick.choice(values)]) + frame[at + 1:]


def cut(pick, protocol, frame, _):
    return frame[:pick.randrange(min(begin(protocol), len(frame)), len(frame) + 1)]


def change_code(pick, protocol, frame, _):
    start, lengths, _ = pick.choice(options(protocol, frame))
    at = pick.randrange(start, lengths[0])
    return frame[:at] + bytes([pick.choice(BYTES)]) + frame[at + 1:]


def change_length(pick, protocol, frame, _):
    at = pick.choice(pick.choice(options(protocol, frame))[1])
    length = pick.choice([0, frame[at] - 1, frame[at] + 1, pick.randrange(256)]) % 256
    return frame[:at] + bytes([length]) + frame[at + 1:]


def repeat(pick, protocol, frame, _):
    """An option once more, or up to a hundred times, in front of another."""
    found = options(protocol, frame)
    start, _, end = pick.choice(found)
    at = pick.choice(found)[0]
    return frame[:at] + frame[start:end] * pick.choice([1, 1, 1, 2, pick.randrange(100)]) + frame[at:]


def splice(pick, protocol, frame, other):
    """The frame up to one of its options, and the other from one of its options on."""
    heads, tails = ([start for start, _, _ in options(protocol, part)] for part in (frame, other))
    return frame[:pick.choice(heads)] + other[pick.choice(tails):]


FAULTS = (change_bit, change_byte, change_field, cut)
FAULTS_OF_OPTIONS = (change_code, change_length, repeat, splice)


def mutated(pick, circuit):
    """The number of a protocol, and a frame of it with faults."""
    protocol, digits = frame(pick, circuit)
    data = bytes.fromhex(digits)
    for _ in range(pick.choice([0, 1, 1, 1, 1, 1, 2, 3])):
        other, digits = frame(pick, pick.choice([circuit, circuit + 1]))
        while other != protocol:
            other, digits = frame(pick, circuit)
        faults = FAULTS + FAULTS_OF_OPTIONS if options(protocol, data) else FAULTS
        data = pick.choice(faults)(pick, protocol, data, bytes.fromhex(digits))
    return protocol, data[:LONGEST]


def relayed(pick, circuit, kind):
    """The number of a protocol, and such a frame as the relay (kind 1) or the server (kind 2) would send it."""
    protocol, data = mutated(pick, circuit)
    name = f"c{circuit}".encode()
    if protocol == 4:
        gateway = bytes.fromhex(network4(circuit)) + b"\x01"
        agent = bytes([82, len(name) + 8, 1, len(name)]) + name + b"\x0b\x04" + gateway
        data = bytes([kind]) + data[1:24] + gateway + data[28:-1] + agent + bytes([END])
    else:
        link = bytes.fromhex(f"20010db8{circuit:08x}{1:016x}")
        inside = b"".join(code + len(value).to_bytes(2, "big") + value
                          for code, value in ((b"\0\x12", name), (b"\0\x09", data[16:])))
        data = bytes([11 + kind, 0]) + link + data[:16] + inside
    return protocol, data[:LONGEST]
