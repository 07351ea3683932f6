#!/usr/bin/env python3
"""Writes stdin, what passes on the serial line of node 1 beside data/table.txt and data/events.txt, and stdout, the replies, worked out by hand.

All of EVENTS is there before the first reply. There is no silence before the end, so every frame ends at its length but the last.
"""
import pathlib


def crc(data):
    """The public document's, bit by bit."""
    c = 0xFFFF
    for b in data:
        c ^= b
        for _ in range(8):
            c = c >> 1 ^ (0xA001 if c & 1 else 0)
    return bytes([c & 0xFF, c >> 8])


def sealed(*texts):
    """Hex digits, and the CRC behind them."""
    data = bytes.fromhex(" ".join(texts))
    return data + crc(data)


NOTHING = b""
LINE = [
    # slot 2, registers 4 and 5: 1, low half first
    (sealed("01 03 0004 0002"), sealed("01 03 04 0001 0000")),
    # the shown value after the events: -956 is hex FFFFFC44
    (sealed("01 03 1000 0002"), sealed("01 03 04 FC44 FFFF")),
    # slot 5, the offset, as the reset left it: 999
    (sealed("01 03 000A 0002"), sealed("01 03 04 03E7 0000")),
    # slot 17, named twice in TABLE: 1500, the last
    (sealed("01 03 0022 0002"), sealed("01 03 04 05DC 0000")),
    # slot 103, the last: 0
    (sealed("01 03 00CE 0002"), sealed("01 03 04 0000 0000")),
    # slot 17 = -70,000, hex FFFEEE90
    (sealed("01 10 0022 0002 04 EE90 FFFE"), sealed("01 10 0022 0002")),
    # it is read back
    (sealed("01 03 0022 0002"), sealed("01 03 04 EE90 FFFE")),
    # the panel started afresh, so 0 is shown
    (sealed("01 03 1000 0002"), sealed("01 03 04 0000 0000")),
    # the offset is still the one of the table in force
    (sealed("01 03 000A 0002"), sealed("01 03 04 03E7 0000")),
    # slot 2 = 2 fails the load's check 2
    (sealed("01 10 0004 0002 04 0002 0000"), sealed("01 90 03")),
    # an odd register, one behind the last slot, and a write to the shown value
    (sealed("01 03 0005 0002"), sealed("01 83 02")),
    (sealed("01 03 00D0 0002"), sealed("01 83 02")),
    (sealed("01 10 1000 0002 04 0001 0000"), sealed("01 90 02")),
    # a quantity of 1, before the odd register
    (sealed("01 03 0005 0001"), sealed("01 83 03")),
    # to all nodes: slot 12, the additive value, = 5, without a reply; then it is read
    (sealed("00 10 0018 0002 04 0005 0000"), NOTHING),
    (sealed("01 03 0018 0002"), sealed("01 03 04 0005 0000")),
    # to all nodes: a read is ignored
    (sealed("00 03 0018 0002"), NOTHING),
    # node 2 is asked and replies, and a poll of node 1 comes right behind: the shown value of a fresh panel is 0, for no telegram has come yet
    (sealed("02 03 0022 0002"), NOTHING),
    (sealed("02 03 04 1234 5678"), NOTHING),
    (sealed("01 03 1000 0002"), sealed("01 03 04 0000 0000")),
    # node 2 is written and echoes; it refuses; each time a poll behind it
    (sealed("02 10 0022 0002 04 EE90 FFFE"), NOTHING),
    (sealed("02 10 0022 0002"), NOTHING),
    (sealed("01 03 0004 0002"), sealed("01 03 04 0001 0000")),
    (sealed("02 03 0005 0002"), NOTHING),
    (sealed("02 83 02"), NOTHING),
    (sealed("01 03 0004 0002"), sealed("01 03 04 0001 0000")),
    # 123 registers for node 2: 255 bytes, more than what is left of the first read
    (sealed("02 10 0000 007B F6", "0102" * 123), NOTHING),
    (sealed("02 10 0000 007B"), NOTHING),
    (sealed("01 03 0000 0002"), sealed("01 03 04 0019 0000")),
    # node 2 shows 240, 243 and 1036: the first 8 bytes of its reply are a whole frame too, and the poll behind is heard all the same
    (sealed("02 03 1000 0002"), NOTHING),
    (sealed("02 03 04 00F0 0000"), NOTHING),
    (sealed("01 03 0018 0002"), sealed("01 03 04 0005 0000")),
    (sealed("02 03 04 00F3 0000"), NOTHING),
    (sealed("01 03 0018 0002"), sealed("01 03 04 0005 0000")),
    (sealed("02 03 04 040C 0000"), NOTHING),
    (sealed("01 03 0018 0002"), sealed("01 03 04 0005 0000")),
    # a read of node 2 at hex 0400, and a write to all right behind it: slot 12 = 6
    (sealed("02 03 0400 0002"), NOTHING),
    (sealed("00 10 0018 0002 04 0006 0000"), NOTHING),
    (sealed("01 03 0018 0002"), sealed("01 03 04 0006 0000")),
    # functions 1, 2, 4, 5, 6, 15, 22 and 23 of node 3 with their replies, and 5 and 6 to all
    (sealed("03 01 0000 0010") + sealed("03 01 02 1234"), NOTHING),
    (sealed("03 02 0000 0008") + sealed("03 02 01 FF"), NOTHING),
    (sealed("03 04 0000 0003") + sealed("03 04 06 0001 0002 0003"), NOTHING),
    (sealed("03 05 0000 FF00") + sealed("03 05 0000 FF00"), NOTHING),
    (sealed("03 06 0000 0007") + sealed("03 06 0000 0007"), NOTHING),
    (sealed("00 05 0000 FF00") + sealed("00 06 0000 0007"), NOTHING),
    (sealed("01 03 0018 0002"), sealed("01 03 04 0006 0000")),
    (sealed("03 0F 0000 000A 02 CD01") + sealed("03 0F 0000 000A"), NOTHING),
    (sealed("03 16 0004 00F2 0025") + sealed("03 16 0004 00F2 0025"), NOTHING),
    (sealed("03 17 0003 0006 000E 0003 06 00FF 00FF 00FF") + sealed("03 17 04 00FE 0ACD"), NOTHING),
    (sealed("01 03 0018 0002"), sealed("01 03 04 0006 0000")),
    # the echo of that reply is dropped, and a poll behind it is heard
    (sealed("01 03 04 0006 0000"), NOTHING),
    (sealed("01 03 0018 0002"), sealed("01 03 04 0006 0000")),
    # noise: behind it each byte may begin a frame
    (bytes.fromhex("FF07 FFFF"), NOTHING),
    (sealed("01 03 0018 0002"), sealed("01 03 04 0006 0000")),
    # slot 8 lies in register 16, and the second data byte is 2: a write to all of another quantity could end with it
    (sealed("01 10 0010 0002 04 0002 0000"), sealed("01 90 03")),
    # function 4 is unknown: its frame ends at silence, here at the end of the line
    (sealed("01 04 0000 0002"), sealed("01 84 01")),
]

if __name__ == "__main__":
    here = pathlib.Path(__file__).parent
    (here / "stdin").write_bytes(b"".join(frame for frame, _ in LINE))
    (here / "stdout").write_bytes(b"".join(reply for _, reply in LINE))
