"""Client 1 takes its lease at 101 and extends it at 102; a call of each of the two saves fails, or none, and after each the server
and the disk stop, and the unsynced bytes become 00, 01, 02, 5a, a5 or ff. Each of 294 circuits stands for two calls and a byte. Then
the same for a client that has had a lease since 100, whose slot has two open halves."""
import itertools
import subprocess

from messages import message

RUNS = list(itertools.product(range(7), range(7), ("00", "01", "02", "5a", "a5", "ff")))
IMAGES = "restart " + " ".join(f"c{index}={byte}" for index, (_, _, byte) in enumerate(RUNS))
MOMENTS = (699, 700, 701, 702)


def select(index):
    network = f"0a{index // 256:02x}{index % 256:02x}"
    return message("REQUEST", 1, f"3604{network}01", f"3204{network}0a")


def asks(index, now, call):
    """Client 1 asks for its lease, and this call of the save fails."""
    return [f"frame c{index} 4 {message('DISCOVER', 1)}", f"up c{index} 0 {now} 0",
            f"frame c{index} 4 {select(index)}", f"up c{index} 0 {now} {call}"]


def is_found(call, byte):
    return call == 0 or call in (5, 6) and byte == "a5"


def until(kept, first, second, byte):
    """Until when client 1 has the address in the end; 0 where it has none."""
    if is_found(second, byte):
        return 702
    return 701 if is_found(first, byte) else kept


def show(kept):
    lines = []
    for index, (first, _, _) in enumerate(RUNS):
        if kept:
            lines += asks(index, 100, 0)
        lines += asks(index, 101, first)
    lines.append(IMAGES)
    for index, (_, second, _) in enumerate(RUNS):
        lines += asks(index, 102, second)
    lines.append(IMAGES)
    count = len(lines)
    for index in range(len(RUNS)):
        lines += [f"frame c{index} 4 {message('DISCOVER', 2)}", *(f"up c{index} 0 {now} 0" for now in MOMENTS)]
    said = subprocess.run(["accesslab", "config.toml"], input="\n".join(lines) + "\n", capture_output=True, text=True,
                          check=True).stdout.splitlines()[count:]
    right = 0
    for index, run in enumerate(RUNS):
        got = said[index * 5 + 1:index * 5 + 5]
        # client 2 finds no address (19) until the lease is over
        wanted = ["drop 19" if now < until(kept, *run) else "down" for now in MOMENTS]
        if [answer if answer.startswith("drop") else answer.split()[0] for answer in got] == wanted:
            right += 1
        else:
            print(*run, got)
    print(right, "of", len(RUNS))


show(0)
show(700)
