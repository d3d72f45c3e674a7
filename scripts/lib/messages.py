"""DHCP messages as hexadecimal digits: what cases/README.md says that words between braces stand for. And the options
of messages that are bytes."""
import ipaddress
import re

TYPES = {name: number for number, name in enumerate(
    ("DISCOVER", "OFFER", "REQUEST", "DECLINE", "ACK", "NAK", "RELEASE", "INFORM"), 1)}
FROM_SERVER = ("OFFER", "ACK", "NAK")
# the header of a DHCPv4 message, RFC 2131 section 2
HEADER = (("op", 1), ("htype", 1), ("hlen", 1), ("hops", 1), ("xid", 4), ("secs", 2), ("flags", 2),
          ("ciaddr", 4), ("yiaddr", 4), ("siaddr", 4), ("giaddr", 4), ("chaddr", 16), ("sname", 64), ("file", 128))
COOKIE = "63825363"
# options that are one byte, without a length (RFC 2132, sections 3.1 and 3.2)
PAD, END = 0, 255

# RFC 8415, section 7.3; a 6 parts them from DHCPv4's
TYPES6 = {name + "6": number for number, name in enumerate(
    ("SOLICIT", "ADVERTISE", "REQUEST", "CONFIRM", "RENEW", "REBIND", "REPLY", "RELEASE", "DECLINE",
     "RECONFIGURE", "INFORMATION"), 1)}
FROM_SERVER6 = ("ADVERTISE6", "REPLY6")


def raw(words):
    """Hexadecimal digits, where DIGITS*N is these digits N times."""
    digits = ""
    for word in words:
        part, _, times = word.partition("*")
        digits += part * int(times or 1)
    return digits


def message(kind, client, *words):
    """A DHCPv4 message of this type and client, with these header fields and options."""
    fields = dict(word.split("=") for word in words if "=" in word)
    options = raw(word for word in words if "=" not in word)
    number = f"{int(client):08x}"
    values = {"op": "02" if kind in FROM_SERVER else "01", "htype": "01", "hlen": "06", "xid": number,
              "chaddr": "0200" + number, "cookie": COOKIE, **fields}
    length = int(values.pop("length", 0)) * 2
    digits = "".join(values.pop(name, "").ljust(size * 2, "0") for name, size in HEADER)
    digits += values.pop("cookie") + f"3501{TYPES[kind]:02x}" + options + "ff"
    if values:
        raise ValueError(f"no header fields: {values}")
    return digits.ljust(length, "0")[:length] if length else digits


# the server's id in every configuration of the cases, and what a lease of 600 seconds has for T1, T2 and its lifetimes
DUID = "00030001020000000001"
T1_AND_T2 = f"{600 // 2:08x}{600 * 4 // 5:08x}"
LIFETIMES = f"{600:08x}" * 2


def option6(code, value):
    """A DHCPv6 option, RFC 8415 section 21.1."""
    return f"{code:04x}{len(value) // 2:04x}{value}"


def address6(word, lifetimes):
    """An IA Address option with these lifetimes, or with lifetimes of 0 where the address ends with /0."""
    address, mark, _ = word.partition("/0")
    digits = ipaddress.IPv6Address(address).packed.hex() if ":" in address else raw([address])
    return option6(5, digits + ("0" * 16 if mark else lifetimes))


def message6(kind, client, *words):
    """The frame of a DHCPv6 message of this type and client: its link-local address, then the message with
    these fields, and with these addresses in its IA_NA. Or the server's message of this type to this client,
    where the IA_NA has addresses or a status, or is left out."""
    number = f"{int(client):08x}"
    values = {"xid": number[2:], "duid": "000300010200" + number, "iaid": "00000001", **fields6(words)}
    peer = values.pop("peer", link_address(client))
    is_server = kind in FROM_SERVER6
    addresses = [word for word in words if "=" not in word and word != "ours"]
    options = "".join(address6(word, LIFETIMES if is_server else "0" * 16) for word in addresses)
    digits = ("" if is_server else peer) + f"{TYPES6[kind]:02x}" + values.pop("xid")
    digits += option6(1, values.pop("duid"))
    if is_server or "ours" in words:
        values.setdefault("server", DUID)
    for name, code in ("server", 2), ("status", 13):
        if name in values:
            digits += option6(code, values.pop(name))
    if "ia" in values:
        options = option6(13, values.pop("ia"))
    iaid, times = values.pop("iaid"), T1_AND_T2 if is_server and addresses else "0" * 16
    if options or not is_server:
        digits += option6(3, iaid + times + options)
    digits += values.pop("more", "")
    if values:
        raise ValueError(f"no fields: {values}")
    return digits


def link_address(client):
    """The address of this client on the link of its circuit."""
    return f"fe80{int(client):028x}"


def fields6(words):
    return {name: raw(value.split("+")) for name, value in (word.split("=") for word in words if "=" in word)}


# the gateway and the link address of the circuits `a` and `a1` of the cases' configurations, whose mask, name server and
# lease (docs/FORMATS.md, "The messages that are sent") are the same
LINKS = {"a": ("0a000001", "20010db8" + "0" * 23 + "1"), "a1": ("0a000101", "20010db80001" + "0" * 19 + "1")}
LEASE = f"3304{600:08x}3a04{600 // 2:08x}3b04{600 * 7 // 8:08x}0104ffffff00"
NAME_SERVER = "06040aff0035"


def option82(circuit):
    """What the relay writes for this circuit: suboption 1, its id, and suboption 11, its gateway."""
    name = circuit.encode().hex()
    value = f"01{len(circuit):02x}{name}0b04{LINKS[circuit][0]}"
    return f"52{len(value) // 2:02x}{value}"


def relay_message(kind, circuit, peer, digits):
    """A Relay-forward (12) or Relay-reply (13) with an interface-id and this message (RFC 8415, section 9)."""
    return f"{kind:02x}00{LINKS[circuit][1]}{peer}" + option6(18, circuit.encode().hex()) + option6(9, digits)


def sent_up(circuit, kind, client, *words):
    """What the relay of this circuit sends to the server for a client's message."""
    if kind in TYPES6:
        frame = message6(kind, client, *words)
        return relay_message(12, circuit, frame[:32], frame[32:])
    return message(kind, client, "hops=01", f"giaddr={LINKS[circuit][0]}", *words, option82(circuit))


def sent_down(circuit, kind, client, *words):
    """What the server sends to the relay of this circuit. `leased=` stands for yiaddr and the options of a lease."""
    if kind in TYPES6:
        peer = fields6(words).get("peer", link_address(client))
        return relay_message(13, circuit, peer, message6(kind, client, *words))
    gateway, options = LINKS[circuit][0], []
    for word in words:
        name, _, address = word.partition("leased=")
        options += [word] if name else [f"yiaddr={address}", f"3604{gateway}", LEASE, f"0304{gateway}", NAME_SERVER]
    return message(kind, client, f"giaddr={gateway}", "length=300", *options, option82(circuit))


def replaced(digits, where, *words):
    """The digits with others in place of the bytes from A up to B, where it says A..B."""
    first, last = (2 * int(number) for number in where.split(".."))
    if not first <= last <= len(digits):
        raise ValueError(f"there are no bytes {where}")
    return digits[:first] + raw(words) + digits[last:]


def bytes_of(words):
    """What stands between braces, as hexadecimal digits."""
    forms = {**dict.fromkeys(TYPES, message), **dict.fromkeys(TYPES6, message6)}
    if words[:1] == ["UP"]:
        return sent_up(*words[1:])
    if words[:1] == ["DOWN"]:
        return sent_down(*words[1:])
    return forms[words[0]](*words) if words and words[0] in forms else raw(words)


def expand(text):
    """The text with digits in place of what stands between braces, where # and what follows on its line is a comment, and
    each | is followed by what stands in the place of some bytes."""
    def digits(found):
        whole, *changes = re.sub("#.*", "", found[1]).split("|")
        result = bytes_of(whole.split())
        for change in changes:
            result = replaced(result, *change.split())
        return result
    return re.sub(r"\{([^{}]*)\}", digits, text)


def read_options4(message):
    """Each option's value by its code, of a DHCPv4 message: those before the end option, or before one that is cut off,
    and of two with one code the first."""
    options, at = {}, sum(size for _, size in HEADER) + len(COOKIE) // 2
    while at + 1 < len(message) and message[at] != END:
        if message[at] == PAD:
            at += 1
            continue
        end = at + 2 + message[at + 1]
        if end > len(message):
            break
        options.setdefault(message[at], message[at + 2:end])
        at = end
    return options


def each_option6(data):
    """The code and the value of each DHCPv6 option (RFC 8415, section 21.1), before one that is cut off."""
    at = 0
    while at + 4 <= len(data):
        end = at + 4 + int.from_bytes(data[at + 2:at + 4], "big")
        if end > len(data):
            return
        yield int.from_bytes(data[at:at + 2], "big"), data[at + 4:end]
        at = end


def read_options6(data):
    """Each DHCPv6 option's value by its code, and of two with one code the first."""
    options = {}
    for code, value in each_option6(data):
        options.setdefault(code, value)
    return options
