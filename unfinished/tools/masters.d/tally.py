"""What was checked, what was polled, and how long it took."""

import sys

SLAVE, MODEL, LIBMODBUS = sys.argv[1:4]
# Longer than any reply takes, on a busy machine too.
PATIENCE = 2.0
# So many lost polls end a part.
MOST_LOST = 10
# What a slave says last, where its line is closed.
ENDS = [["slave: the line has ended"], ["slave: the line: Input/output error"]]

passed = failed = polls = lost = 0
# Name, median and 99th of 100 in ms, polls a second.
figures = []


def check(name, got, expected):
    global passed, failed
    if got == expected:
        passed += 1
        return
    failed += 1
    print(f"FAILED {name}: got {got}, expected {expected}")


def check_end(said, before=(), ends=ENDS):
    """The last line on standard error names the end of the line; before it stands what is expected."""
    check("said before the end of the line", said[:-1], list(before))
    check(f"the end of the line is said last, in {said}", said[-1:] in ends, True)


def count(number, failures):
    """Polls that a master made."""
    global polls, lost
    polls += number
    lost += failures


class Polled:
    """The polls of a part: counted, and checked at its end."""

    def __init__(self, name):
        self.name, self.polls, self.lost = name, 0, 0

    def poll(self, wire, frame, expected):
        """A request and its reply."""
        wire.send(frame)
        self.take(frame, wire.receive(PATIENCE, len(expected)), expected)

    def take(self, frame, reply, expected):
        """A request that was sent, with what came."""
        self.polls += 1
        count(1, reply != expected)
        if reply == expected:
            return
        self.lost += 1
        print(f"LOST, {self.name}: {frame.hex(' ')}: got {reply.hex(' ') or 'nothing'}, expected {expected.hex(' ')}")
        if self.lost > MOST_LOST:
            raise RuntimeError(f"{self.name}: {self.lost} of {self.polls} polls lost")

    def end(self, wire):
        check(f"{self.name}, lost of {self.polls} polls", self.lost, 0)
        check(f"{self.name}, nothing more comes", wire.receive(0.2), b"")
