"""What a line brings that is shared with others: replies that end twice, other functions, halves, echoes."""

import os
import random

from drivers import libmodbus, pymodbus
from lines import Bus, Feed, Port, Wire, pause, until
from tally import MODEL, PATIENCE, SLAVE, Polled, check, check_end, count
from twin import SHOWN, Twin, crc, read_frame, sealed, two, write_frame

ADDITIVE = 24
# Words of node 2 in whose reply the first 8 bytes are a frame too.
TWO_ENDS = [240, 243, 305, 306, 1036]
BINARY = ["slot 2 1"]


def ends_twice(node, word):
    reply = sealed([node, 3, 4, *two(word & 0xFFFF), *two(word >> 16)])
    return crc(reply[:8]) == 0


def words_that_end_twice(node, count):
    found = (word for word in range(1, 99999) if ends_twice(node, word))
    return [next(found) for _ in range(count)]


def written(folder, name, lines):
    path = os.path.join(folder, name)
    with open(path, "w") as file:
        file.write("".join(line + "\n" for line in lines))
    return path


def slaves_on_a_line(folder, nodes, events=None):
    """A bus of nodes with binary telegrams, and their twins; node 2 has events."""
    twins = {node: Twin(MODEL, node, BINARY) for node in nodes}
    commands = []
    for node in nodes:
        path = written(folder, f"table.{node}", BINARY)
        commands.append(f"{SLAVE} {node} {path}" + (f" {events}" if events and node == 2 else ""))
    return Bus(folder, commands), twins


def close_bus(bus, twins):
    for twin in twins.values():
        twin.close()
    check("all slaves end with their line", bus.close(), True)
    for said in bus.said():
        check_end(said)


def two_slaves_whose_replies_end_twice(folder):
    """Node 2's shown value and slot 12 are such words, and node 1 is polled right behind each reply."""
    check("words of node 2 that end twice", [word for word in TWO_ENDS if ends_twice(2, word)], TWO_ENDS)
    feed = Feed(folder)
    bus, twins = slaves_on_a_line(folder, [1, 2], feed.path)
    wire, polled = Wire(bus.path), Polled("two slaves")
    for word in TWO_ENDS:
        # A write starts afresh, so the telegram comes behind it.
        for frame in [write_frame(2, ADDITIVE, word), write_frame(2, ADDITIVE, 0)]:
            polled.poll(wire, frame, twins[2].reply(frame))
            both_in_turn(polled, wire, twins, ADDITIVE, 100)
        feed.type(f"t {word:X}")
        twins[2].ask(f"t {word:X}")
        check(f"node 2 shows {word}", twins[2].read(SHOWN), str(word))
        new = twins[2].reply(read_frame(2, SHOWN))
        check(f"typed {word} arrives", until(lambda: asked(wire, read_frame(2, SHOWN)) == new), True)
        both_in_turn(polled, wire, twins, SHOWN, 100)
    polled.end(wire)
    wire.close()
    close_bus(bus, twins)
    feed.close()


def asked(wire, frame):
    wire.send(frame)
    return wire.receive(PATIENCE, 9)


def both_in_turn(polled, wire, twins, at, rounds):
    for i in range(rounds):
        for frame in [read_frame(2, at), read_frame(1, [SHOWN, ADDITIVE][i % 2])]:
            polled.poll(wire, frame, twins[frame[0]].reply(frame))


def four_slaves_whose_replies_end_twice(folder):
    """Nodes 1 to 4 with such words in slot 12, each its own, polled and written in any order, and all at once."""
    rng = random.Random(4)
    nodes = [1, 2, 3, 4]
    bus, twins = slaves_on_a_line(folder, nodes)
    words = {node: words_that_end_twice(node, 4) for node in nodes}
    words[2] = TWO_ENDS
    wire, polled = Wire(bus.path), Polled("four slaves")
    for i in range(2000):
        node = rng.choice(nodes)
        if i % 100 == 0:
            for each in nodes:
                frame = write_frame(each, ADDITIVE, rng.choice(words[each]))
                polled.poll(wire, frame, twins[each].reply(frame))
        if i % 250 == 125:
            # To all: no reply; node 2's word.
            frame = write_frame(0, ADDITIVE, rng.choice(TWO_ENDS))
            wire.send(frame)
            for twin in twins.values():
                twin.reply(frame)
        frame = read_frame(node, rng.choice([ADDITIVE, ADDITIVE, SHOWN, 1]))
        polled.poll(wire, frame, twins[node].reply(frame))
    polled.end(wire)
    wire.close()
    for open_master in [libmodbus, pymodbus]:
        by_a_master(open_master(bus.path), twins, words)
    close_bus(bus, twins)


def by_a_master(master, twins, words):
    """All nodes in turn, each with such a word."""
    lost, rounds = 0, 50
    for i in range(rounds):
        for node, twin in twins.items():
            master.ask("n", node)
            if i % 10 == 0:
                word = words[node][i // 10 % 4]
                check(f"{master.name}, node {node} := {word}", master.ask("w", ADDITIVE, word), twin.write(ADDITIVE, word))
            lost += master.ask("r", ADDITIVE) != twin.read(ADDITIVE)
    count(rounds * len(twins), lost)
    check(f"{master.name}, lost of {rounds * len(twins)} polls of four slaves", lost, 0)
    master.close()


class Alone:
    """A slave on a port of its own, and its twin."""

    def __init__(self, folder, node=1, table=BINARY, **options):
        self.twin = Twin(MODEL, node, table)
        self.port = Port(folder, f"{SLAVE} {node} {written(folder, 'table', table)}", **options)

    def reply(self, frame):
        return self.twin.reply(frame)

    def close(self, before=()):
        self.twin.close()
        check("the slave ends with its line", self.port.close(), True)
        check_end(self.port.said(), before)


def exchange(rng, node):
    """Request and reply of a node that is not there, of any function of the public documents."""
    function = rng.choice([1, 2, 3, 4, 5, 6, 15, 16, 22, 23])
    count = rng.choice([1, 2, 4, 8, 20, 100, 240])
    head, counted = rng.randbytes(4), bytes([count]) + rng.randbytes(count)
    request, reply = {
        5: (head, head),
        6: (head, head),
        15: (head + counted, head),
        16: (head + counted, head),
        22: (head + b"\x12\x34", head + b"\x12\x34"),
        23: (head + head + counted, counted),
    }.get(function, (head, counted))
    if rng.random() < 0.15:
        return sealed(bytes([node, function]) + request), sealed([node, function | 0x80, rng.randint(1, 11)])
    return sealed(bytes([node, function]) + request), sealed(bytes([node, function]) + reply)


def mixed_line(folder):
    """Exchanges of other nodes, with all functions and any data, and broadcasts, with gaps of 0, 2 and 5 ms; node 1 is polled in between."""
    alone, rng = Alone(folder), random.Random(5)
    port = alone.port
    for gap, rounds in [(0, 1500), (0.002, 500), (0.005, 300)]:
        polled = Polled(f"a mixed line, {gap * 1000:.0f} ms")
        for i in range(rounds):
            traffic = [frame for _ in range(rng.randint(0, 2)) for frame in exchange(rng, rng.randint(2, 247))]
            if i % 5 == 0:
                traffic.append(sealed([0, rng.choice([5, 6]), 0, rng.randint(0, 255), *two(rng.choice([0, 0xFF00]))]))
            if i % 50 == 10:
                traffic.append(write_frame(0, ADDITIVE, rng.randint(-99999, 99999)))
                alone.reply(traffic[-1])
            rng.shuffle(traffic)
            frame = rng.choice([read_frame(1, ADDITIVE), read_frame(1, SHOWN), read_frame(1, 1)])
            if gap == 0 and i % 2:
                # All in one.
                polled.poll(port, b"".join(traffic) + frame, alone.reply(frame))
                continue
            for other in traffic:
                port.send(other)
                pause(gap)
            polled.poll(port, frame, alone.reply(frame))
            pause(gap)
        polled.end(port)
    alone.close()


def half_frames(folder):
    """Half a frame, mostly with a long count, and a poll 5 ms behind it."""
    alone, rng = Alone(folder), random.Random(6)
    port, polled, again = alone.port, Polled("behind half a frame"), 0
    for i in range(200):
        node = rng.choice([1, 2, 9, 247])
        whole = sealed(bytes([node, 16, 0, 0, 0, 123, 246]) + rng.randbytes(246))
        half = [whole[: rng.randint(1, 250)], bytes([node, 3, 255]), bytes([node]), read_frame(node, SHOWN)[:5]][i % 4]
        frame = read_frame(1, [SHOWN, ADDITIVE][i % 2])
        # A busy machine can let the slave sleep over the pause; a master tries again.
        tries = (behind_a_half(port, half, frame) for _ in range(4))
        for tried, reply in enumerate(tries):
            if reply:
                break
        again += tried
        polled.take(frame, reply, alone.reply(frame))
    polled.end(port)
    print(f"behind half a frame: {again} of 200 polls were tried again")
    check("behind half a frame, polls tried again are few", again <= 40, True)
    alone.close()


def behind_a_half(port, half, frame):
    port.send(half)
    pause(0.005)
    port.send(frame)
    return port.receive(0.4, 9)


def echoes(folder):
    """An adapter that brings each reply back, in one or in pieces: polls go on, and no exception goes round."""
    alone, rng = Alone(folder, node=2, table=BINARY + ["slot 12 240"]), random.Random(7)
    port, polled = alone.port, Polled("echoes")
    frames = [read_frame(2, ADDITIVE), read_frame(2, SHOWN), read_frame(2, 1), write_frame(2, ADDITIVE, 240)]
    for i in range(600):
        frame = rng.choice(frames)
        reply = alone.reply(frame)
        polled.poll(port, frame, reply)
        # At once in one; in single bytes; in two with a pause.
        for piece in [[reply], [bytes([byte]) for byte in reply], [reply[:3], reply[3:]]][i % 3]:
            port.send(piece)
            if i % 3 == 2:
                pause(0.003)
    polled.end(port)
    for frame in [sealed([2, 4, 0, 0, 0, 2]), sealed([2, 7]), sealed([2, 0x83, 2]), read_frame(2, 1)]:
        polled.poll(port, frame, alone.reply(frame))
        port.send(alone.reply(frame))
        check(f"the exception to {frame.hex(' ')} does not go round", port.receive(0.35), b"")
        polled.poll(port, frames[0], alone.reply(frames[0]))
        port.send(alone.reply(frames[0]))
    # No echo: what a request has in common with the reply before it does no harm.
    for frame in [read_frame(2, 0x0400), read_frame(2, ADDITIVE), read_frame(2, 0x04F0)] * 20:
        polled.poll(port, frame, alone.reply(frame))
    polled.end(port)
    alone.close()
