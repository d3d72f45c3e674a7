"""20000 lines of scripts/gate/mutated-lines on `c0`, and behind each ten of them the next line of `exchange` on `c1`, which begins
again where it has ended. What is written for `c1` has to be what stands behind ' > ' there, by docs/TABLES.md, and for a
frame on `c0` what reading.py says. The kinds of answers on `c0` are printed too: each reason that docs/FORMATS.md has for a
client's frame, and each for a server whose disk does not fail, but those that no frame meets since the relay drops it (22) or
writes the field itself (12 to 16)."""
import os
import subprocess
from pathlib import Path

import reading
from messages import expand

COUNT, EVERY = 20000, 10
# the seconds from one exchange to the next, when the leases of 600 seconds have ended
PERIOD = 1000


def fixed():
    """The lines on `c1` without end, and what is wanted for each."""
    exchange = [line.split(" > ") for line in expand(Path("exchange").read_text()).splitlines()]
    now = 0
    while True:
        for line, wanted in exchange:
            yield line.replace("NOW", str(now)), wanted
        now += PERIOD


def kind(answer):
    """An answer without what differs from frame to frame."""
    return answer if answer.startswith("drop") else answer.split()[0]


def main():
    mutated = subprocess.run([f"{os.environ['ROOT']}/scripts/gate/mutated-lines", str(COUNT), "1"],
                             capture_output=True, text=True, check=True).stdout.splitlines()
    lines, others = [], fixed()
    for number, line in enumerate(mutated, 1):
        lines.append((line, None))
        if number % EVERY == 0:
            lines.append(next(others))
    run = subprocess.run(["accesslab", "config.toml"], input="".join(f"{line}\n" for line, _ in lines),
                         capture_output=True, text=True)
    answers = run.stdout.splitlines()
    print(f"status {run.returncode}: {len(lines)} lines, {len(answers)} answers")
    differ = [(line, answer) for (line, wanted), answer in zip(lines, answers) if wanted not in (None, answer)]
    print(f"c1: {sum(wanted is not None for _, wanted in lines)} lines, {len(differ)} answered otherwise", *differ[:3])
    differ = [(line, answer) for (line, wanted), answer in zip(lines, answers)
              if wanted is None and line.startswith("frame") and answer != reading.answer(line)]
    print(f"frames on c0: {len(differ)} answered otherwise", *differ[:3])
    for name in ("frame", "up", "down", "strayup", "straydown"):
        kinds = {kind(answer) for (line, wanted), answer in zip(lines, answers)
                 if wanted is None and line.split()[0] == name and answer != "gone"}
        print(f"{name}:", ", ".join(sorted(kinds)))


main()
