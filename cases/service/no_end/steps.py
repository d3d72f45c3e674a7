"""A service makes passes without end: after 1,040,000, more than a run has turns at most, it still answers, and SIGTERM ends it. No
wait after a pass that took nothing is longer than 5 ms: here each returns at once."""
from client import DISCOVER, frame, frame6
from stepped_service import SteppedService, circuits_of

ROUNDS, PASSES = 4, 260_000
service = SteppedService("accessd", "--format")
first, second = circuits_of(2)
for _ in range(ROUNDS):
    calls = service.step(PASSES)
    print("calls of a pass that takes nothing:", calls, "waits of 5 ms at most:", service.watch.longest <= 5)
    first.send(frame(DISCOVER, 1))
    second.send6(frame6("SOLICIT6", 1))
    service.settle()
    print(first.receive(), "and", second.receive6())
print("passes:", service.watch.turns > ROUNDS * PASSES, "runs:", service.runs(), "ends with", service.stop())
