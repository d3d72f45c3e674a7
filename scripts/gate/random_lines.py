"""Lines for `accesslab` over the configuration that scripts/lib/configuration makes, as random.Random picks them."""
from random_frames import frame


def preparations(pick, circuits):
    """Some regions are of format 1, and some of these are not moved at the start."""
    for circuit in range(circuits):
        if pick.random() < 0.3:
            yield f"old c{circuit}"
            yield f"move c{circuit} {pick.choice([0, 0, 0, 1, 2, 3, 4])}"


def batch(pick, clocks):
    """Frames of some circuits, the delivery of their datagrams as one batch, and of what it answers. Faults are rare."""
    some = pick.sample(range(len(clocks)), min(len(clocks), pick.choice([1, 2, 2, 3, 5, 16])))
    for circuit in some:
        if pick.random() < 0.9:
            protocol, digits = frame(pick, circuit)
            yield f"frame c{circuit} {protocol} {digits}"
    moment = max(clocks[circuit] for circuit in some)
    for circuit in some:
        clocks[circuit] = moment
    sync = pick.choice([2, 4, 6]) if pick.random() < 0.01 else 0
    faults = [pick.choice([1, 3, 5]) if pick.random() < (0.3 if sync else 0.005) else 0 for _ in some]
    parts = [f"c{circuit}={pick.choice([0, 0, 0, 0, 1, 20])}={fault}" for circuit, fault in zip(some, faults)]
    yield " ".join(["batch", str(moment), str(sync), *parts])
    for circuit in some:
        yield f"down c{circuit} 0"


def lines(pick, circuits):
    yield from preparations(pick, circuits)
    clocks = [pick.randrange(0, 1_000_000) for _ in range(circuits)]
    while True:
        circuit = pick.randrange(circuits)
        kind = pick.choices(["exchange", "batch", "up", "down", "tick", "restart", "stray"], [90, 10, 4, 3, 2, 0.05, 0.5])[0]
        clocks[circuit] += pick.choice([0, 0, 1, 1, 20, 60, 300, 3600])
        moment = max(0, clocks[circuit] - pick.choice([0, 0, 0, 0, 100]))
        number = pick.choice([0, 0, 0, 1, 2, 20])
        fault = pick.randrange(1, 7) if pick.random() < 0.01 else 0
        if kind == "exchange":
            protocol, digits = frame(pick, circuit)
            yield f"frame c{circuit} {protocol} {digits}"
            yield f"up c{circuit} 0 {moment} {fault}"
            yield f"down c{circuit} 0"
        elif kind == "batch":
            yield from batch(pick, clocks)
        elif kind == "up":
            yield f"up c{circuit} {number} {moment} {fault}"
        elif kind == "down":
            yield f"down c{circuit} {number}"
        elif kind == "tick":
            yield f"tick {min(clocks) + pick.randrange(0, 10_000)}"
        elif kind == "restart":
            images = {pick.randrange(circuits): pick.choice(["a5", "00", "5a", "unreadable", "02", "02:2", "00:4"]) for _ in range(pick.randrange(8))}
            yield " ".join(["restart", *(f"c{other}={image}" for other, image in images.items())])
        else:
            yield f"strayup {pick.choice('46')} 127.0.0.1:9999 {pick.randbytes(pick.randrange(1, 300)).hex()} {moment}"
