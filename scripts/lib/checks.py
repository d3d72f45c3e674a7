"""Whether a configuration may be served over a file of leases: what `scripts/operate/check` says, `serve` goes by, and `accept`
changes."""
import json
import os

from changes import Changes, by_id, name
from configurations import FIRST_PORT, faults, has_address, read_config, text_of, warnings
from kept import config_of, is_accepted, kept_beside, source_of, text_to_keep
from operator_script import Refused
from programs import read, refusal, run_over
from regions import NotRegions, Regions
from served_circuits import CLOSED

SERVED, REFUSED, OTHER, DISK, SYSTEM = 0, 2, 3, 4, 5
RESTORE = "docs/OPERATING.md, Back up and restore"


class Verdict:
    """Of a start with CONFIG at this path over a file, or without one: with which status it ends, or 0, and why, a line for each
    reason; what it changes that has to be accepted; and the text that it keeps."""

    def __init__(self, path, file, port, accepting):
        self.path, self.file, self.port, self.accepting = path, file, port, accepting
        self.status, self.lines, self.changes = SERVED, [], []
        self.source = self.config = self.kept = self.text = None

    def refuse(self, status, lines):
        self.lines += lines
        self.status = self.status or (status if lines else SERVED)

    def change(self, head, lines):
        """Refuses these changes, but where they are accepted, or about to be."""
        self.changes = lines
        if lines and not self.accepting and not is_accepted(self.file, self.kept, self.source):
            port = "" if self.port == FIRST_PORT else f" {self.port}"
            words = f"scripts/operate/accept {self.path} {self.file}{port}"
            self.refuse(OTHER, [head, *lines, f"to do this on purpose: {words}, then a start"])


def plan_of(config, circuits):
    """A configuration of these circuits, which were served before, behind the relays of this one."""
    names = [relay["name"] for relay in config["relay"]]
    circuits = [circuit if circuit["relay"] in names else {**circuit, "relay": names[0]} for circuit in circuits]
    return text_of(config["server"], config["relay"], circuits).encode()


def is_served(now, before, address):
    """Whether a circuit serves a lease of this address still, which it had as it was before."""
    return now is not None and now["region"] == before["region"] and has_address(now, address)


def leases_by_circuit(config, circuits, file):
    """How many leases each of these circuits, which were served before, has now without those that it serves still, and when the
    last ends, by id; nothing of those that can't be read."""
    try:
        done, _ = run_over("leases", [plan_of(config, circuits)], f"--disk={file}", "--json")
    except Refused:
        return {}
    # with 4 some of them are listed, or none
    is_listed = done.returncode in (0, CLOSED) or done.returncode == 4 and done.stdout
    now, before = by_id(config["circuit"]), by_id(circuits)
    found = {key: [] for key in before} if is_listed else {}
    for line in map(json.loads, done.stdout.splitlines()):
        if line["state"] in ("closed", "busy"):
            found.pop(line["circuit"], None)
        elif line["circuit"] in found and not is_served(now.get(line["circuit"]), before[line["circuit"]], line["address"]):
            found[line["circuit"]].append((line["until"], line["date"]))
    return {key: (len(ends), max(ends)[1] if ends else None) for key, ends in found.items()}


def lost_lines(path, count, circuits):
    """Which of these circuits, whose leases were in a file, have them there no longer, since it has so few regions."""
    return list(dict.fromkeys(
        f"{path} has {count} regions and no region {circuit['region']}, where the leases of {name(circuit)} were: it was cut, or is "
        "not the file that was served; put its copy in its place" for circuit in circuits if circuit["region"] >= count))


def region_lines(config, regions, kept):
    """The circuits whose region is not in the file, which has fewer."""
    before = {(circuit["id"], circuit["region"]) for circuit in kept.known()} if kept else set()
    missing = [circuit for circuit in config["circuit"] if circuit["region"] >= regions.count]
    lost = [circuit for circuit in missing if (circuit["id"], circuit["region"]) in before]
    yield from lost_lines(regions.path, regions.count, lost)
    added = [circuit for circuit in missing if circuit not in lost]
    if added:
        most = max(added, key=lambda circuit: circuit["region"])
        count = most["region"] + 1 - regions.count
        yield (f"{regions.path} has {regions.count} regions and no region {most['region']} for {name(most)}: stop the server, then "
               f"scripts/operate/add-regions {regions.path} {count}")


def used_lines(circuits, regions):
    """The circuits that are new and whose region is not."""
    for circuit in circuits:
        if circuit["region"] < regions.count and not regions.unused[circuit["region"]]:
            yield (f"{name(circuit)} is new and region {circuit['region']} is not: it has what another circuit left there, or was "
                   "never formatted; scripts/operate/add-regions adds one that is new")


def judge_without(verdict, regions):
    """Over a file beside which nothing is kept: it has no leases, or nobody knows of which circuits."""
    lines = [] if all(regions.unused) else [
        f"{verdict.path} is served over {verdict.file} as it is: its leases are those of the circuits with their regions"]
    verdict.change(f"{verdict.file} may have leases, and no {config_of(verdict.file)} says of which circuits:", lines)
    verdict.text = text_to_keep(verdict.source, port=verdict.port)


def judge_after(verdict, regions):
    """Over a file beside which is kept what was served over it last."""
    kept, config = verdict.kept, verdict.config
    changes = Changes(kept, config, verdict.port, lambda circuits: leases_by_circuit(config, circuits, verdict.file))
    lines = changes.refused + list(used_lines(changes.added, regions))
    if not lines and source_of(verdict.source)[0] != kept.source:
        # the rules for configurations that follow each other are those of `accesslab`
        before = [plan_of(config, changes.removed)] if changes.removed else []
        names = [kept.path, *("what was served before" for _ in before), verdict.path]
        words = refusal(names, [kept.source, *before, verdict.source])
        lines = [str(words)] if words else []
    verdict.change(f"{verdict.path} differs from {kept.path}, which was served last:", lines)
    verdict.text = text_to_keep(verdict.source, changes.removed, changes.former, verdict.port)


def judge_file(verdict, is_new):
    """Over a file, and over what is kept beside it."""
    file, kept = verdict.file, kept_beside(verdict.file)
    verdict.kept = kept
    if not os.path.lexists(file):
        lost = f"{file} is missing, and {config_of(file)} is there: the leases were lost; put their copy in its place ({RESTORE})"
        first = f"{file} is missing: where it is to be made, say --new; where it was lost, put its copy in its place"
        verdict.refuse(OTHER, [lost] if kept else [] if is_new else [first])
        verdict.text = text_to_keep(verdict.source, port=verdict.port)
        return
    try:
        regions = Regions(file)
    except NotRegions as error:
        return verdict.refuse(DISK, [f"{file}: {error}"])
    if kept:
        judge_after(verdict, regions)
    else:
        judge_without(verdict, regions)
    verdict.refuse(DISK, list(region_lines(verdict.config, regions, kept)))


def judge(path, file, port, is_new=False, accepting=False):
    """Whether the configuration at this path may be served from this port on, over this file where one is given."""
    verdict = Verdict(path, file, port, accepting)
    try:
        verdict.source = read(path)
        refused = refusal([path], [verdict.source])
        if refused:
            raise refused
        verdict.config = read_config(path, verdict.source)
        verdict.refuse(REFUSED, [f"{path}: {line}" for line in faults(verdict.config, port)])
        if file and not verdict.status:
            judge_file(verdict, is_new)
        verdict.lines += [f"warning: {path}: {line}" for line in warnings(verdict.config)]
    except Refused as error:
        verdict.refuse(error.status, [str(error)])
    except OSError as error:
        verdict.refuse(SYSTEM, [f"{error.filename or file}: {error.strerror}"])
    return verdict
