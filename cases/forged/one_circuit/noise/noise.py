"""Noise, where frames and datagrams should be: 10,000 strings of 0 to 1300 bytes at the relay of `a` from its circuit and from the
server, and at the server from the relay, in both protocols. What is written for each has to be the reason that docs/FORMATS.md
has. Then the server has to answer clients as one does that noise did not reach."""
import subprocess

from messages import sent_up

COUNT = 10000
CLIENTS = [f"receive 4 127.0.0.1:6801 {sent_up('a', 'DISCOVER', 1)} 100",
           f"receive 6 127.0.0.1:6801 {sent_up('a', 'SOLICIT6', 1, 'xid=000007', 'peer=' + '09' * 16)} 100"]


def numbers():
    """Numbers of 16 bits that look random and are the same in every run: those of a linear congruential generator, whose
    constants give it the period 2^32, without its lower bits, which repeat early."""
    number = 1
    while True:
        number = (number * 1664525 + 1013904223) & 0xffffffff
        yield number >> 16


def strings():
    """For each string 1300 bytes are drawn, of which it has the first."""
    number = numbers()
    while True:
        length = next(number) % 1301
        yield bytes(next(number) & 255 for _ in range(1300))[:length]


def why_up(protocol, noise):
    """Reasons 1 to 8. Noise has no DHCP cookie and no options that can be read, so what is left are its length and, behind 16
    bytes, the type of a DHCPv6 message (RFC 8415, section 7.3)."""
    if len(noise) > 1024:
        return 1
    if protocol == 4 or len(noise) < 20:
        return 2
    if noise[16] in (12, 13):
        return 8
    return 2 if noise[16] in (1, 3, 4, 5, 6, 8, 9) else 7


def why_received(protocol, noise):
    """Reasons 12 and 13: the server can't read it, or its first byte is the type of a client's or a server's DHCPv6 message."""
    return 13 if protocol == 6 and 0 < len(noise) <= 1280 and 1 <= noise[0] <= 11 else 12


def lines():
    """Each line with the reason that is wanted."""
    for _, noise in zip(range(COUNT), strings()):
        digits = noise.hex() or "-"
        for protocol in 4, 6:
            yield f"up a {protocol} {digits}", why_up(protocol, noise)
        for port in 6767, 6547:
            yield f"down 0 127.0.0.1:{port} {digits}", 32
        for protocol in 4, 6:
            yield f"receive {protocol} 127.0.0.1:6801 {digits} 100", why_received(protocol, noise)


def answers(texts):
    run = subprocess.run(["forged_datagrams", "config.toml"], input="".join(f"{text}\n" for text in texts),
                         capture_output=True, text=True, check=True)
    return run.stdout.splitlines()


def main():
    noise = list(lines())
    given = answers([text for text, _ in noise] + CLIENTS)
    differ = [(text, answer) for (text, why), answer in zip(noise, given) if answer != f"drop {why}"]
    print(f"{len(noise)} lines of noise, {len(given) - len(CLIENTS)} answers, {len(differ)} answered otherwise", *differ[:3])
    for word in "up", "down", "receive":
        reasons = {why for text, why in noise if text.startswith(word)}
        print(f"{word}:", *sorted(reasons))
    print(*given[len(noise):], sep="\n")
    print("as without noise" if given[len(noise):] == answers(CLIENTS) else "not as without noise")


main()
