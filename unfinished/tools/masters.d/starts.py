"""Starts: refused ones, ones with a request waiting, ports that are set otherwise, and what is said."""

import os
import subprocess

from lines import FIRST_SILENCE, Pair, Wire, lines_of, pause, started, until
from shared_lines import ADDITIVE, BINARY, Alone, written
from tally import MODEL, SLAVE, Polled, check
from twin import SHOWN, Twin, read_frame, sealed, write_frame

LINE = os.path.join(os.path.dirname(os.path.abspath(__file__)), "..", "line")
UNSET = "slave: the terminal of the line is not set to min 0 time 1"
END = "slave: the line has ended"


def run(*arguments, given=b"", **options):
    """What a slave writes for a line that is a file, and what it says."""
    command = [*SLAVE.split(), *(str(argument) for argument in arguments)]
    options = {"stdout": subprocess.PIPE, "input": given, **options}
    ended = subprocess.run(command, stderr=subprocess.PIPE, timeout=10, **options)
    return ended.stdout, ended.stderr.decode(errors="replace").splitlines()


def refused_starts(folder):
    """A refused node, table or file, or a line that is none: one line on standard error, no reply ever."""
    table = written(folder, "table", BINARY)
    fifo, nothing = os.path.join(folder, "fifo"), os.path.join(folder, "nothing")
    os.mkfifo(fifo)
    said_of_events = "slave: EVENTS is neither a file nor a terminal"
    cases = [([], "slave: usage: slave [-v] NODE TABLE [EVENTS]"), ([1], "slave: usage: slave [-v] NODE TABLE [EVENTS]")]
    cases += [([node, table], "slave: start 33 0") for node in [0, 248, 256, 257, 65537, 70000, -1, "x", "", "1x"]]
    cases += [([1, nothing], f"{nothing}: No such file or directory"), ([1, folder], "slave: TABLE is no file")]
    cases += [([1, "/dev/null"], "slave: TABLE is no file"), ([1, table, folder], said_of_events)]
    cases += [([1, table, fifo], said_of_events), ([1, table, "/dev/null"], said_of_events)]
    cases += [([1, table, nothing], f"{nothing}: No such file or directory")]
    for i, (lines, said) in enumerate(
        [(["slot 0 9"], "2 0"), (["slot 17 100000000"], "2 17"), (["slot 15 10000"], "5 0"), (["slot 8 1"], "4 0")]
    ):
        cases.append(([1, written(folder, f"refused.{i}", lines)], f"slave: start {said}"))
    for arguments, said in cases:
        reply, lines = run(*arguments, given=read_frame(1, 0))
        check(f"slave {arguments}: says", lines, [said])
        check(f"slave {arguments}: no reply", reply, b"")
    for lines in [["slot 2 1", "t 5"], ["", "slot 104 0"], ["# a remark", "slot 2 x"]]:
        reply, said = run(1, written(folder, "refused", lines), given=read_frame(1, 0))
        check(f"{lines}: one line", len(said), 1)
        named = said[0].startswith("slave: TABLE line 2: ") and said[0].endswith(f": {lines[1]}")
        check(f"{said}: names the line and a reason", named and len(said[0]) > len(lines[1]) + 25, True)
        check(f"{lines}: no reply", reply, b"")


def what_is_said(folder):
    """With -v each frame that is heard, and events that are refused; a table from a pipe; reads and writes that fail."""
    table, twin = written(folder, "table", BINARY), Twin(MODEL, 1, BINARY)
    events = written(folder, "events", ["# a log", "t 5", "t FFFFFFFF", "t 5 5", "t 7"])
    for event in ["t 5", "t FFFFFFFF", "t 7"]:
        twin.ask(event)
    poll, good, bad = read_frame(1, SHOWN), write_frame(0, ADDITIVE, 7), write_frame(0, ADDITIVE, 2**31 - 1)
    frames = [poll, read_frame(1, 1), good, bad, read_frame(0, 0), read_frame(2, 0), poll, sealed([1, 7])]
    replies = [twin.reply(frame) for frame in frames]

    def heard(frame, reply):
        spelled = frame.hex(" ").upper()
        if reply:
            return f"slave: heard {spelled} to this node: sent {reply.hex(' ').upper()}"
        return f"slave: heard {spelled} to all: " + ("started afresh" if frame == good else "nothing sent")

    said = [heard(frame, reply) for frame, reply in zip(frames, replies) if frame[0] == 1 or frame[1] == 16] + [END]
    wrong = "slave: EVENTS line 4: "
    for words, expected in [(["-v"], ["slave: EVENTS line 3: refused 11", *said]), ([], [END])]:
        reply, lines = run(*words, 1, table, events, given=b"".join(frames))
        check(f"{words}: the replies", reply, b"".join(replies))
        check(f"{words}: the wrong line", [line[-7:] for line in lines if line.startswith(wrong)], [": t 5 5"])
        check(f"{words}: all else", [line for line in lines if not line.startswith(wrong)], expected)
    twin.close()
    # The last line of a file needs no newline, and a table may come from a pipe.
    with open(events, "w") as file:
        file.write("t 5\nt 9")
    check("a last line without its newline", run(1, table, events, given=poll)[0][3:5], b"\0\x09")
    end, start = os.pipe()
    os.write(start, b"slot 12 77\n")
    os.close(start)
    reply, lines = run(1, f"/dev/fd/{end}", given=read_frame(1, ADDITIVE), pass_fds=[end])
    check("a table from a pipe", (reply[3:5], lines), (b"\0\x4d", [END]))
    os.close(end)
    failed_reads_and_writes(folder, table, poll)


def failed_reads_and_writes(folder, table, poll):
    with open("/dev/full", "wb") as full:
        lines = run(1, table, given=poll, stdout=full)[1]
    check("a reply that does not go out", lines[:1], ["slave: a reply: No space left on device"])
    line = os.open(folder, os.O_RDONLY)
    lines = run(1, table, given=None, stdin=line)[1]
    check("a line that cannot be read", lines, ["slave: the line: Is a directory"])
    os.close(line)


def restarts(folder):
    """A request waits when the slave starts: it is not answered, the next one is, and every answer belongs to its request."""
    table = BINARY + ["slot 12 77"]
    alone = Alone(folder, table=table)
    port, polled = alone.port, Polled("restarts")
    stale, next_one, third = read_frame(1, ADDITIVE), read_frame(1, SHOWN), read_frame(1, 1)
    for waiting in [stale, stale[:5], stale + stale, stale + sealed([1, 7]), write_frame(1, ADDITIVE, 5), sealed([1, 7])]:
        polled.poll(port, stale, alone.reply(stale))
        port.stop()
        port.start(waiting)
        check(f"{waiting.hex(' ')} that waited is not answered", port.receive(0.2), b"")
        polled.poll(port, next_one, alone.reply(next_one))
        polled.poll(port, stale, alone.reply(stale))
    # A master that does not wait for the first silence: what is answered belongs to the request sent last.
    for wait in [0, 0.01, 0.03, 0.06, 0.09]:
        port.stop()
        port.start(stale, settled=wait)
        port.send(third)
        early = port.receive(0.35)
        check(f"a request {wait} s behind a start: its own answer or none", early in (b"", alone.reply(third)), True)
        polled.poll(port, next_one, alone.reply(next_one))
    polled.end(port)
    alone.close()


def ports_set_otherwise(folder):
    """min 1 time 0: polls further apart than a tenth of a second are answered, and it is said once; so with min 0 time 0."""
    alone = Alone(folder, vmin=1, vtime=0)
    port, polled = alone.port, Polled("min 1 time 0")
    # The first may come before the slave knows of a silence.
    port.send(read_frame(1, SHOWN))
    check("the first poll: its answer or none", port.receive(0.4) in (b"", alone.reply(read_frame(1, SHOWN))), True)
    for i in range(12):
        pause(1.2 if i in (5, 9) else 0.15)
        frame = [read_frame(1, SHOWN), write_frame(1, ADDITIVE, i), read_frame(1, ADDITIVE)][i % 3]
        polled.poll(port, frame, alone.reply(frame))
    # Another function waits there until the next bytes come: it is dropped, not answered late.
    port.send(sealed([1, 7]))
    pause(0.3)
    polled.poll(port, read_frame(1, SHOWN), alone.reply(read_frame(1, SHOWN)))
    polled.end(port)
    check("it is said while the slave runs", port.said(), [UNSET])
    alone.close([UNSET])
    alone = Alone(folder, vmin=0, vtime=0)
    check("min 0 time 0 is said", until(lambda: alone.port.said() == [UNSET]), True)
    alone.close([UNSET])


def script_that_sets_a_port(folder):
    """tools/line on a pseudo terminal as it is made: it sets it, serves it, and its status tells a refused start."""
    table, events = written(folder, "table", BINARY), written(folder, "events", ["t 4D2"])
    errors = os.path.join(folder, "line.errors")

    def line(*words):
        with open(errors, "wb") as file:
            command = [LINE, *(str(word) for word in words)]
            return started(command, stdin=subprocess.DEVNULL, stderr=file, env={**os.environ, "SLAVE": SLAVE})

    def said():
        return [text for text in lines_of(errors) if text.startswith("slave: ")]

    twin = Twin(MODEL, 1, BINARY, ["t 4D2"])
    for words in [["PORT", 1, table, events], ["PORT", 9600, 1, table, events], ["-v", "PORT", 38400, 1, table]]:
        pair = Pair(folder, "near", "far")
        process = line(*(pair.far if word == "PORT" else word for word in words))
        pause(2 * FIRST_SILENCE)
        settings = subprocess.run(["stty", "-F", pair.far, "-a"], capture_output=True, text=True).stdout
        set_so = [word in settings for word in ["min = 0", "time = 1", "-icanon", "-echo ", "cs8", "-cstopb"]]
        check(f"{words}: the port is set", set_so, [True] * 6)
        baud = next((word for word in words if word in (9600, 38400)), 19200)
        check(f"{words}: its speed", f"speed {baud} baud" in settings, True)
        wire, polled, frame = Wire(pair.near), Polled("tools/line"), read_frame(1, [SHOWN, 4][words[0] == "-v"])
        for _ in range(100):
            polled.poll(wire, frame, twin.reply(frame))
        polled.end(wire)
        check(f"{words}: what is said", len(said()), 100 if words[0] == "-v" else 0)
        wire.close()
        pair.close()
        check(f"{words}: the status at the end of the line", process.wait(5) in (0, 3), True)
        check(f"{words}: and what is said then", said()[-1][:15], "slave: the line")
    twin.close()
    pair, nothing = Pair(folder, "near", "far"), os.path.join(folder, "nothing")
    for words, status in [([248, table], 1), ([1, nothing], 1), ([1, table, folder], 1), ([9600, 1, nothing, events], 1)]:
        check(f"{words} refused: the status", line(pair.far, *words).wait(5), status)
        check(f"{words} refused: it is said", lines_of(errors)[-1][:5] != "line:", True)
    for words in [[], [pair.far], [pair.far, 1], [nothing, 1, table], [table, 1, table], [pair.far, 77777, 1, table]]:
        check(f"{words} refused by tools/line: the status", line(*words).wait(5), 2)
    pair.close()
