"""Writes the lines: every proper beginning of what the relay sends up for a DISCOVER, and the whole; the same for a Solicit."""
from messages import sent_up

# of 255 bytes, the last of which is the end option
DISCOVER = sent_up("a", "DISCOVER", 1)
# of 77 bytes: a header of 34, whose first is the type; option 18 up to 39; option 9 up to the end
SOLICIT = sent_up("a", "SOLICIT6", 1, "xid=000007", "peer=" + "09" * 16)

for protocol, datagram in (4, DISCOVER), (6, SOLICIT):
    for length in range(len(datagram) // 2 + 1):
        print(f"receive {protocol} 127.0.0.1:6801 {datagram[:2 * length] or '-'} 100")
