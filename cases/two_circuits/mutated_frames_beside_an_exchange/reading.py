"""What the relay answers to a client's frame, by docs/FORMATS.md ('Why something is dropped', 1 to 8, and 'The messages that
are sent'), written a second time in another language than the program's."""
LONGEST = 1024
COOKIE = bytes([99, 130, 83, 99])


class Unreadable(Exception):
    pass


def options4(data):
    """RFC 2132, section 2: each code at most once, up to the end option."""
    found, at = {}, 0
    while data[at:at + 1] != b"\xff":
        if data[at:at + 1] == b"\0":
            at += 1
            continue
        header = data[at:at + 2]
        value = data[at + 2:at + 2 + header[1]] if len(header) == 2 else b""
        if len(header) < 2 or len(value) < header[1] or header[0] in found:
            raise Unreadable
        found[header[0]] = value
        at += 2 + len(value)
    return found


def answer4(frame, name):
    """RFC 2131, section 2; option 52 is not supported. What goes up has no pads, and an option 82 with the circuit's id and
    the gateway."""
    op, htype, hlen, hops = frame[:4] if len(frame) >= 240 else (0, 0, 0, 0)
    if frame[236:240] != COOKIE or (htype, hlen) != (1, 6) or op not in (1, 2):
        raise Unreadable
    options = options4(frame[240:])
    kind = options.get(53, b"")
    if 52 in options or len(options.get(50, COOKIE)) != 4 or len(options.get(54, COOKIE)) != 4:
        raise Unreadable
    if len(kind) != 1 or kind[0] not in range(1, 9):
        raise Unreadable
    for reason, applies in ((3, op != 1), (4, any(frame[24:28])), (5, 82 in options), (6, hops >= 16), (7, kind[0] in (2, 5, 6))):
        if applies:
            return f"drop {reason}"
    return f"up {240 + sum(2 + len(value) for value in options.values()) + 2 + 2 + len(name) + 6 + 1}"


def options6(data):
    """RFC 8415, section 21.1."""
    while data:
        length = int.from_bytes(data[2:4], "big")
        if len(data) < 4 + length:
            raise Unreadable
        yield int.from_bytes(data[:2], "big"), data[4:4 + length]
        data = data[4 + length:]


def answer6(frame, name):
    """RFC 8415, sections 7.3, 21.4 and 21.6. What goes up stands in a Relay-forward with the options 18 and 9."""
    if len(frame) < 20:
        raise Unreadable
    if frame[16] in (12, 13):
        return "drop 8"
    if frame[16] not in (1, 3, 4, 5, 6, 8, 9):
        return "drop 7"
    options = list(options6(frame[20:]))
    codes = [code for code, _ in options]
    associations = [value for code, value in options if code == 3]
    addresses = [value for association in associations for code, value in options6(association[12:]) if code == 5]
    if codes.count(1) > 1 or codes.count(2) > 1 or len(associations) != 1 or len(associations[0]) < 12:
        raise Unreadable
    if len(addresses) > 4 or any(len(value) < 24 for value in addresses):
        raise Unreadable
    return f"up {34 + 4 + len(name) + 4 + len(frame) - 16}"


def answer(line):
    """The relay's answer to a line `frame`."""
    _, name, protocol, digits = line.split()
    frame = bytes.fromhex(digits.replace("-", ""))
    if len(frame) > LONGEST:
        return "drop 1"
    try:
        return (answer4 if protocol == "4" else answer6)(frame, name)
    except Unreadable:
        return "drop 2"
