"""Writes the lines: every proper beginning of each frame, a delivery, and the frames whole."""
from messages import message, message6

# of 244 and 265 bytes: 240, and options of 3, 9, 6, 6 and 1
DISCOVER = message("DISCOVER", 1)
REQUEST = message("REQUEST", 1, "3d0701020000000001", "36040a000001", "32040a00000a")
# of 50 and 120 bytes: 16 of the client's address, 4, and options of 14, 14, 16 and twice 28
SOLICIT = message6("SOLICIT6", 2)
REQUEST6 = message6("REQUEST6", 2, "ours", "2001:db8::100", "2001:db8::101")
FRAMES = ((4, DISCOVER), (4, REQUEST), (6, SOLICIT), (6, REQUEST6))

for protocol, frame in FRAMES:
    for length in range(len(frame) // 2):
        print(f"frame a {protocol} {frame[:2 * length] or '-'}")
print("up a 0 100 0")
for protocol, frame in FRAMES:
    print(f"frame a {protocol} {frame}")
