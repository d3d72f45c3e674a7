"""What changes where a configuration follows another one over the same file of leases, and what becomes of these leases. Each
change is a line of words. A circuit is a table of a configuration that `accesslab` accepts."""
from configurations import KEYS, gateway4, is_same, link6, pool4, pool6, ports_of, span

# what becomes of a circuit's leases where one of its keys has another value
EFFECTS = {
    "relay": "its leases stay",
    "region": "its leases stay where they are, and nobody serves them there; it serves what its new region has",
    "lease": "its leases stay as they are, and those from now on last so long",
    "gateway4": "its leases stay; a client learns it when it renews, and until then sends to the old one",
    "prefix4": "its leases stay; a client learns it when it renews",
    "first4": "each of its DHCPv4 leases moves to another address, and two clients may use one",
    "dns": "its leases stay; a client learns them when it renews",
    "link6": "its leases stay",
    "first6": "each of its DHCPv6 leases moves to another address, and two clients may use one",
}
# which addresses a circuit has; its region says which of them are leased
POOLS = ("first4", "count4", "first6", "count6")
MORE = "its leases stay; where it was once as great before, the circuit may be closed as damaged"
LESS = "leases past the new end are not served, and their addresses are leased to nobody"


def name(circuit):
    return f'circuit "{circuit["id"]}"'


def shown(value):
    return "[" + ", ".join(value) + "]" if isinstance(value, list) else str(value)


def server_changes(old, new):
    for key in KEYS["server"]:
        if not is_same(key, old["server"][key], new["server"][key]):
            effect = "no lease is lost; a DHCPv6 client begins anew once it can't renew" if key == "duid" else "no lease is lost"
            yield f"server: {key} {old['server'][key]} becomes {new['server'][key]}: {effect}"


def relay_changes(old, new):
    before, after = ({relay["name"]: relay["source"] for relay in config["relay"]} for config in (old, new))
    for relay, source in before.items():
        if relay not in after:
            yield f'relay "{relay}" is gone: no lease is lost'
        elif after[relay] != source:
            yield f'relay "{relay}": source {source} becomes {after[relay]}: no lease is lost'
    for relay in after:
        if relay not in before:
            yield f'relay "{relay}" is new: no lease is lost'
    both = [[relay for relay in names if relay in before and relay in after] for names in (before, after)]
    if both[0] != both[1]:
        yield "the relays are in another order: no lease is lost"


def effect_of(key, old, new):
    """What becomes of a circuit's leases where this key has another value."""
    if key in POOLS and old["region"] != new["region"]:
        return f"its leases stay in region {old['region']}"
    return EFFECTS.get(key) or (MORE if new[key] > old[key] else LESS)


def key_changes(old, new):
    """Of one circuit."""
    for key in KEYS["circuit"]:
        if not is_same(key, old[key], new[key]):
            effect = effect_of(key, old, new)
            yield f"{name(new)}: {key} {shown(old[key])} becomes {shown(new[key])}: {effect}"


def overlaps(one, other):
    return one[0] <= other[-1] and other[0] <= one[-1]


def has_in_common(new, gone):
    """What a circuit has of one that is not served any more, in words."""
    if new["region"] == gone["region"]:
        yield f"region {new['region']}, so that it serves the leases there"
    for protocol, pool in (("DHCPv4", pool4), ("DHCPv6", pool6)):
        if overlaps(pool(new), pool(gone)):
            yield f"{protocol} addresses, which may be leased there"
    if any(gateway4(one) in pool4(other) or link6(one) in pool6(other) for one, other in ((new, gone), (gone, new))):
        yield "a gateway or link address in a pool"


def conflicts(new, gone, leases, known=()):
    """Which circuits have something of those that are not served any more, or not so any more, in words. What a circuit had
    itself it may have again, where it is known."""
    for circuit in new:
        for other in gone:
            if circuit["id"] != other["id"] or circuit["id"] not in known:
                for words in has_in_common(circuit, other):
                    yield f"{name(circuit)} has what {name(other)} had, {words}; {last_words(other, leases, ' of it')}"


def has_all_of(one, other):
    """Whether a circuit has all that it had as it was another time."""
    return (one["id"], one["region"]) == (other["id"], other["region"]) and all(
        set(pool(other)) <= set(pool(one)) for pool in (pool4, pool6))


def had_before(circuits, now):
    """Of circuits as they were, the oldest first, those that had more than they have now, each once."""
    found = []
    for circuit in circuits:
        if not any(has_all_of(other, circuit) for other in now + found):
            found.append(circuit)
    return found


def port_changes(old, new, port):
    places = {circuit["id"]: index for index, circuit in enumerate(new)}
    for index, circuit in enumerate(old):
        place = places.get(circuit["id"], index)
        if place != index:
            yield (f"{name(circuit)}: its ports {span(ports_of(index, port))} become {span(ports_of(place, port))}: a bridge or a "
                   "client at the old ones would be another circuit's")


def last_words(circuit, leases, of=""):
    """What is leased of a circuit, where that is known: how many leases there are, and when the last ends."""
    if circuit["id"] not in leases:
        return f"what {name(circuit)} has leased{of} is not known"
    count, date = leases[circuit["id"]]
    leased = f"{count} lease{'s' if count > 1 else ''}{of} until {date}" if count else f"no lease{of}"
    return f"{name(circuit)} has {leased}"


def by_id(circuits):
    return {circuit["id"]: circuit for circuit in circuits}


class Changes:
    """A configuration over what is kept: what a start does not do by itself, the circuits that are new, those that are not
    served any more, and those that had another pool or region, as they were then. `leases` has for circuits, by id, what is
    leased of them."""

    def __init__(self, kept, new, port, leases):
        old, now, before = (by_id(circuits) for circuits in (kept.config["circuit"], new["circuit"], kept.removed))
        known = {**before, **old}
        self.added = [circuit for key, circuit in now.items() if key not in known]
        self.gone = [circuit for key, circuit in old.items() if key not in now]
        idle = self.gone + [circuit for key, circuit in before.items() if key not in now and key not in old]
        self.refused = [*server_changes(kept.config, new), *relay_changes(kept.config, new)]
        for key, circuit in now.items():
            if key in known:
                self.refused += key_changes(known[key], circuit)
        leased = leases(idle) if idle else {}
        self.refused += [f"{name(circuit)} is gone: its leases stay in region {circuit['region']}, and nobody serves them; "
                         f"{last_words(circuit, leased)}" for circuit in self.gone]
        self.refused += conflicts(new["circuit"], idle, leased)
        former = had_before(kept.former + [known[key] for key in now if key in known], new["circuit"])
        given = [circuit for circuit in former if any(conflicts(new["circuit"], [circuit], {}, known))]
        for circuit in given:
            self.refused += conflicts(new["circuit"], [circuit], leases([circuit]), known)
        self.refused += port_changes(kept.config["circuit"], new["circuit"], port)
        # of what another circuit is given, nothing is known any more
        self.removed = [circuit for circuit in idle if not any(conflicts(new["circuit"], [circuit], leased))]
        self.former = [circuit for circuit in former if circuit not in given]
