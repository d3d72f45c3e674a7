"""A frame that comes while a pass is made is taken in that pass if its circuit is still ahead. Each of the first 16 of 20 circuits has
sent a DISCOVER when the pass begins. After that slice the service asks the system again, and just before it does circuits 3 and 18
send one: 18 is answered in this pass, and 3 in the next one."""
from client import DISCOVER, frame
from stepped_service import SteppedService, circuits_of, sent_to_clients

service = SteppedService("accessd", "--format")
circuits = circuits_of(20)


def send(numbers):
    for number in numbers:
        circuits[number].send(frame(DISCOVER, 1))


def answered():
    """The circuits that are answered in the next pass, in order."""
    return [f"c{number}" for number, _ in sorted(sent_to_clients(service.step()))]


send(range(16))
service.await_frames(range(16))
service.watch.within = lambda: send((3, 18))
print("answered in this pass:", *answered())
service.watch.within = lambda: None
print("answered in the next one:", *answered())
service.kill()
