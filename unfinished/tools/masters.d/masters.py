"""Real masters against the slave: mbpoll, libmodbus, pymodbus, and bytes as they are. See tools/masters."""

import os
import subprocess
import sys
import tempfile
import time

import tally
from drivers import libmodbus, mbpoll, pymodbus
from lines import Bus, Feed, SocatLine, Wire, pause, until
from shared_lines import (
    echoes,
    four_slaves_whose_replies_end_twice,
    half_frames,
    mixed_line,
    two_slaves_whose_replies_end_twice,
)
from starts import ports_set_otherwise, refused_starts, restarts, script_that_sets_a_port, what_is_said
from tally import ENDS, MODEL, SLAVE, check, check_end, count, figures
from twin import SHOWN, Twin, read_frame, sealed, two, write_frame

# Past the tenth of a second that ends a frame.
SILENCE = 0.15

# Binary; input 1 resets, input 2 teaches preselection 1, input 3 freezes while high.
TABLE = ["slot 2 1", "slot 49 1", "slot 51 5", "slot 53 2", "slot 54 1", "slot 10 1234567", "slot 11 1234567"]
TABLE += ["slot 15 -99999999", "slot 19 12", "slot 41 99999999", "slot 56 -99999999", "slot 57 65536", "slot 103 -1"]
# 1000 is taught, then the offset; -500 is held while the result is -900.
EVENTS = ["# a log", "t 3E8", "i 2", "i 3", "t 1F4", "i 7", "t 64", "c 10"]

# Carried out, each with the table of those before it: every kind of slot, ends, signs, both halves.
WRITES = [(0, 32), (3, 32), (5, -99999999), (5, 99999999), (6, 1), (7, 360), (10, 9999999), (12, -65536), (12, -1)]
WRITES += [(13, 2), (13, 0), (14, 2), (16, 65535), (17, 32768), (18, 6), (20, 60000), (22, 1), (41, -12345678), (44, 1)]
WRITES += [(55, 24), (56, 0), (57, 0), (58, 5), (103, 99999999), (103, 99999999)]
# Refused by the load.
REFUSED = [(0, 33), (4, 33), (8, 1), (16, -99999999), (17, 100000000), (50, 4), (103, -2147483648), (103, 2147483647)]

class Setup:
    """A slave on a line of its own, and its twin."""

    def __init__(self, folder, node=1, table=TABLE, events=None, feed=None):
        self.folder = folder
        path = self.file("table", table)
        arguments = [SLAVE, str(node), path]
        if feed or events is not None:
            arguments.append(feed or self.file("events", events))
        self.line = SocatLine(folder, "line", " ".join(arguments))
        self.twin = Twin(MODEL, node, table, [line for line in events or [] if line[0] in "tic"])

    def file(self, name, lines):
        path = os.path.join(self.folder, name)
        with open(path, "w") as file:
            file.write("\n".join(lines) + "\n")
        return path

    def close(self):
        self.twin.close()
        check("the slave ends with its line", self.line.close(), True)
        # socat may end it by a signal, before it says so.
        check_end(self.line.said(), ends=[[], *ENDS])


def read_all(master, twin, when):
    for at in [*range(0, 208, 2), SHOWN]:
        check(f"{master.name}, register {at} {when}", master.ask("r", at), twin.read(at))


def with_each_master(folder):
    """Reads of everything, writes, read-back and exceptions, by each master on a fresh slave with a replayed log."""
    for open_master in [mbpoll, libmodbus, pymodbus]:
        setup = Setup(folder, events=EVENTS)
        master, twin = open_master(setup.line.path), setup.twin
        check(f"{master.name}, the shown value", twin.read(SHOWN), "-500")
        read_all(master, twin, "after the log")
        for slot, word in WRITES:
            check(f"{master.name}, slot {slot} := {word}", master.ask("w", 2 * slot, word), twin.write(2 * slot, word))
            check(f"{master.name}, slot {slot} read back", master.ask("r", 2 * slot), str(word))
        for slot, word in REFUSED:
            check(f"{master.name}, slot {slot} := {word}", master.ask("w", 2 * slot, word), "exception 3")
            check("the model", twin.write(2 * slot, word), "exception 3")
        exceptions(master, twin)
        read_all(master, twin, "after the writes")
        master.ask("n", 9)
        check(f"{master.name}, another node", master.ask("r", 0), "none")
        master.close()
        setup.close()


def exceptions(master, twin):
    for at in [1, 207, 208, 0x0FFE, SHOWN + 1, SHOWN + 2, 0xFFFE]:
        check(f"{master.name}, read of register {at}", master.ask("r", at), "exception 2")
        check("the model", twin.read(at), "exception 2")
    for at in [25, 208, SHOWN]:
        check(f"{master.name}, write to register {at}", master.ask("w", at, 0), "exception 2")
        check("the model", twin.write(at, 0), "exception 2")
    for quantity in [1, 3, 10, 125]:
        check(f"{master.name}, {quantity} registers", master.ask("q", 0, quantity), "exception 3")
        check("the model", twin.answer(read_frame(1, 0, quantity)), "exception 3")
    check(f"{master.name}, function 4", master.ask("i", 0), "exception 1")
    check(f"{master.name}, function 6", master.ask("s", 0, 25), "exception 1")


def broadcasts(folder):
    """pymodbus writes to all nodes: no reply, carried out or refused."""
    setup = Setup(folder, events=EVENTS)
    master = pymodbus(setup.line.path)
    for at, word in [(24, 77), (24, 100000000), (25, 5), (SHOWN, 5), (2 * 17, -4)]:
        master.ask("b", at, word)
        setup.twin.reply(write_frame(0, at, word))
        pause(0.02)
        for read in [24, 2 * 5, 2 * 17, SHOWN]:
            check(f"register {read} after {word} to all at {at}", master.ask("r", read), setup.twin.read(read))
    master.close()
    setup.close()


def bytes_as_they_are(folder):
    """Broken frames, other nodes, odd lengths and gaps; whole replies held against the model's."""
    setup = Setup(folder, events=EVENTS)
    wire, twin = Wire(setup.line.path), setup.twin
    good, write = read_frame(1, 10), write_frame(1, 24, 7)
    swapped = good[:6] + good[:5:-1]
    turned = bytes([*write[:8], write[8] ^ 1, *write[9:]])
    frames = [good, write, swapped, good, turned, good, read_frame(2, 10), write_frame(2, 24, 9)]
    frames += [read_frame(0, 10), write_frame(0, 24, 9), read_frame(1, 24), b"\x01", sealed([1]), sealed([1, 3])]
    frames += [sealed([1, 7]), sealed([1, 0x83, 2]), sealed([1, 0x90]), sealed([1, 0xFF, 0]), sealed([0, 7])]
    frames += [sealed([1, 3, 0, 10, 0, 2, 0]), sealed([1, 16, 0, 24, 0, 2]), sealed([1, 16, 0, 24, 0, 2, 0])]
    frames += [sealed([1, 16, 0, 24, 0, 2, 2, 0, 7]), sealed([1, 16, 0, 24, 0, 2, 247] + [0] * 247)]
    frames += [sealed([1, 7] + [0] * 252), sealed([1, 7] + [0] * 253), sealed([1, 43] + [5] * 296), read_frame(1, SHOWN)]
    for frame in frames:
        wire.send(frame)
        check(f"reply to {frame[:12].hex(' ')}, {len(frame)} bytes", wire.receive(), twin.reply(frame))
        pause(SILENCE)
    on_a_shared_line(wire, twin)
    gaps(wire, twin)
    wire.close()
    setup.close()


def on_a_shared_line(wire, twin):
    """Another node's request and reply, and a poll for this one right behind them."""
    poll = read_frame(1, 10)
    others = [
        read_frame(2, 10) + sealed([2, 3, 4, 0, 9, 0, 0]),
        read_frame(2, 10, 10) + sealed([2, 3, 20] + list(range(20))),
        write_frame(2, 10, 7) + sealed([2, 16, *two(10), 0, 2]),
        read_frame(2, 11) + sealed([2, 0x83, 2]),
        write_frame(2, 11, 7) + sealed([2, 0x90, 3]),
    ]
    for other in others:
        wire.send(other + poll)
        check(f"poll behind {other[:2].hex(' ')}", wire.receive(), twin.reply(poll))
    wire.send(poll + poll + poll)
    check("three polls in one", wire.receive(), 3 * twin.reply(poll))


def gaps(wire, twin):
    """A pause inside a frame: 30 ms pass, 300 ms cut it."""
    poll = read_frame(1, 10)
    wire.send(poll[:3])
    pause(0.03)
    wire.send(poll[3:])
    check("a gap of 30 ms", wire.receive(), twin.reply(poll))
    wire.send(poll[:3])
    pause(0.3)
    wire.send(poll[3:])
    check("a gap of 300 ms", wire.receive(), b"")
    pause(SILENCE)
    wire.send(poll)
    check("a poll behind it", wire.receive(), twin.reply(poll))


def typed_events(folder):
    """Events typed at a second terminal while a master polls."""
    feed = Feed(folder)
    setup = Setup(folder, feed=feed.path)
    master = libmodbus(setup.line.path)
    polls = 0
    for i in range(60):
        old = setup.twin.read(SHOWN)
        event = f"t {40 * i:X}" if i % 6 else f"i {i // 6 % 8}"
        feed.type(event)
        setup.twin.ask(event)
        new, seen = setup.twin.read(SHOWN), []

        def arrived():
            seen.append(master.ask("r", SHOWN))
            return seen[-1] == new

        check(f"typed {event} is shown", until(arrived), True)
        check(f"old or new beside {event}", set(seen) <= {old, new}, True)
        polls += len(seen)
    pause(0.05)
    for at in [2 * 5, 2 * 17, SHOWN]:
        check(f"register {at} after the typed events", master.ask("r", at), setup.twin.read(at))
    half_a_line(feed, master, setup.twin)
    feed.type("t 5 5")
    master.ask("r", SHOWN)
    check("a line that is none is named", until(lambda: master.ask("r", 0) and len(setup.line.said()) == 1), True)
    said = setup.line.said()[0]
    check(f"with its number and text: {said}", said.startswith("slave: EVENTS line 63: ") and said.endswith(": t 5 5"), True)
    check("and the slave goes on", master.ask("r", SHOWN), setup.twin.read(SHOWN))
    master.close()
    setup.twin.close()
    check("the slave ends with its line", setup.line.close(), True)
    feed.close()


def half_a_line(feed, master, twin):
    """Half a line counts when its newline has come, over polls and silences."""
    for event in ["i 0", "t 12"]:
        twin.ask(event)
    feed.type("i 0")
    feed.type("t 1", end="")
    old = master.ask("r", SHOWN)
    pause(0.3)
    check("half a line counts for nothing", (master.ask("r", SHOWN), old == twin.read(SHOWN)), (old, False))
    feed.type("2")
    check("the whole line is shown", until(lambda: master.ask("r", SHOWN) == twin.read(SHOWN)), True)


def two_slaves(folder):
    """Nodes 1 and 2 on one line, polled in turn without a pause; each hears the other's replies."""
    tables = [TABLE, TABLE + ["slot 12 -7", "slot 2 0"]]
    twins = [Twin(MODEL, node, table) for node, table in zip([1, 2], tables)]
    commands = []
    for node, table in zip([1, 2], tables):
        path = os.path.join(folder, f"table.{node}")
        with open(path, "w") as file:
            file.write("\n".join(table) + "\n")
        commands.append(f"{SLAVE} {node} {path}")
    bus = Bus(folder, commands)
    for open_master in [libmodbus, pymodbus]:
        master = open_master(bus.path)
        name = master.name
        for i in range(200):
            node, at = 1 + i % 2, [24, 4, 0, SHOWN, 20, 206, 1, 208][i // 2 % 8]
            master.ask("n", node)
            check(f"{name}, node {node}, register {at}", master.ask("r", at), twins[node - 1].read(at))
            if i % 20 < 2:
                word = twins[node - 1].write(24, i)
                check(f"{name}, node {node}, a write", master.ask("w", 24, i), word)
        if name == "pymodbus":
            master.ask("b", 24, 4321)
            pause(0.05)
            for node, twin in zip([1, 2], twins):
                twin.reply(write_frame(0, 24, 4321))
                master.ask("n", node)
                check(f"node {node} after a write to all", (master.ask("r", 24), twin.read(24)), ("4321", "4321"))
        master.close()
    for twin in twins:
        twin.close()
    check("both slaves end with their line", bus.close(), True)
    for said in bus.said():
        check_end(said)


def timed(folder):
    """Round trips and polls a second."""
    setup = Setup(folder, events=EVENTS)
    for open_master, number in [(libmodbus, 2000), (pymodbus, 300)]:
        master = open_master(setup.line.path)
        master.ask("p", 20, SHOWN)
        median, late, rate, failures = master.ask("p", number, SHOWN).split()
        check(f"{master.name}, failures in {number} polls", failures, "0")
        count(number, int(failures))
        figures.append((f"{master.name}, function 3, {number} polls", float(median), float(late), rate))
        master.close()
    wire = Wire(setup.line.path)
    for name, frame, length, number in [
        ("bytes, function 3", read_frame(1, SHOWN), 9, 2000),
        ("bytes, function 16", write_frame(1, 24, 7), 8, 2000),
        ("bytes, unknown function, ends at silence", sealed([1, 7]), 5, 30),
    ]:
        took, start = [], time.monotonic()
        for _ in range(number):
            sent = time.monotonic()
            wire.send(frame)
            reply = wire.receive(length=length)
            took.append((time.monotonic() - sent) * 1e3)
            count(1, len(reply) != length)
            if len(reply) != length:
                check(f"{name}, a reply", len(reply), length)
        rate = number / (time.monotonic() - start)
        took.sort()
        figures.append((f"{name}, {number} polls", took[number // 2], took[number * 99 // 100], f"{rate:.0f}"))
    wire.close()
    setup.close()


def main():
    parts = [with_each_master, broadcasts, bytes_as_they_are, typed_events, two_slaves]
    parts += [two_slaves_whose_replies_end_twice, four_slaves_whose_replies_end_twice, mixed_line, half_frames, echoes]
    parts += [restarts, ports_set_otherwise, refused_starts, what_is_said, script_that_sets_a_port, timed]
    for part in parts:
        before, start = tally.passed, time.monotonic()
        with tempfile.TemporaryDirectory() as folder:
            try:
                part(folder)
            except (OSError, RuntimeError, ValueError, subprocess.SubprocessError) as trouble:
                check(part.__name__.replace("_", " "), repr(trouble), "no trouble")
        took = time.monotonic() - start
        print(f"{part.__name__.replace('_', ' ')}: {tally.passed - before} passed, {took:.1f} s", flush=True)
    print(f"\n{'round trip, ms':52} {'median':>8} {'99th':>8} {'polls a second':>15}")
    for name, median, late, rate in figures:
        print(f"{name:52} {median:8.2f} {late:8.2f} {rate:>15}")
    print(f"\n{tally.polls} polls, {tally.lost} lost")
    check("10,000 polls at least", tally.polls >= 10_000, True)
    print(f"{tally.passed} passed, {tally.failed} failed")
    return tally.failed > 0


sys.exit(main())
