"""The model's console beside the slave: what each frame must be answered with."""

import subprocess

SHOWN = 0x1000


def crc(data):
    rest = 0xFFFF
    for byte in data:
        rest ^= byte
        for _ in range(8):
            rest = rest >> 1 ^ (0xA001 if rest & 1 else 0)
    return rest


def sealed(data):
    return bytes(data) + crc(data).to_bytes(2, "little")


def two(number):
    return list(number.to_bytes(2, "big"))


def read_frame(node, at, quantity=2):
    return sealed([node, 3, *two(at), *two(quantity)])


def write_frame(node, at, word):
    word %= 1 << 32
    return sealed([node, 16, *two(at), 0, 2, 4, *two(word & 0xFFFF), *two(word >> 16)])


class Twin:
    """A panel of the model with the same node, table, events and frames."""

    def __init__(self, model, node, table, events=()):
        self.node = node
        self.process = subprocess.Popen([model, "console"], stdin=subprocess.PIPE, stdout=subprocess.PIPE, text=True)
        for line in [f"node {node}", *table]:
            self.tell(line)
        started = self.ask("start")
        assert started == "start 0 0", started
        for line in events:
            self.ask(line)

    def tell(self, line):
        self.process.stdin.write(line + "\n")

    def ask(self, line):
        self.tell(line)
        self.process.stdin.flush()
        return self.process.stdout.readline().rstrip("\n")

    def reply(self, frame):
        """The reply's bytes, empty for none."""
        _, _, said = self.ask("f " + frame.hex(" ")).split(" ", 2)
        return b"" if said == "-" else bytes.fromhex(said)

    def answer(self, frame):
        """What a master says of the reply: a word, ok, an exception or none."""
        reply = self.reply(frame)
        if not reply:
            return "none"
        if reply[1] >= 0x80:
            return f"exception {reply[2]}"
        if reply[1] == 16:
            return "ok"
        word = int.from_bytes(reply[5:7] + reply[3:5], "big")
        return str(word - (1 << 32) if word >> 31 else word)

    def read(self, at):
        return self.answer(read_frame(self.node, at))

    def write(self, at, word):
        return self.answer(write_frame(self.node, at, word))

    def close(self):
        self.process.stdin.close()
        self.process.wait()
