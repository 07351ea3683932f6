"""A master on pymodbus: the commands of libmodbus_master.c, and

b REGISTER WORD   a write to all nodes   ok
"""

import logging
import sys
import time

from pymodbus.client import ModbusSerialClient

logging.disable(logging.CRITICAL)


class Master:
    def __init__(self, line):
        self.node = 1
        # The timeout is in whole seconds: a part of one is taken as 0.
        self.client = ModbusSerialClient(
            line, baudrate=19200, bytesize=8, parity="N", stopbits=1, timeout=1, retries=0, broadcast_enable=True
        )
        if not self.client.connect():
            sys.exit(f"pymodbus_master: cannot open {line}")

    def said(self, answer):
        if answer.isError():
            code = getattr(answer, "exception_code", None)
            return "none" if code is None else f"exception {code}"
        return "ok"

    def read(self, at):
        answer = self.client.read_holding_registers(at, 2, slave=self.node)
        if answer.isError():
            return self.said(answer)
        low, high = answer.registers
        word = high << 16 | low
        return str(word - (1 << 32) if word >> 31 else word)

    def write(self, at, word, node):
        word %= 1 << 32
        return self.client.write_registers(at, [word & 0xFFFF, word >> 16], slave=node)

    def polls(self, count, at):
        took, failures, start = [], 0, time.monotonic()
        for _ in range(count):
            sent = time.monotonic()
            failures += not self.read(at).lstrip("-").isdigit()
            took.append((time.monotonic() - sent) * 1e3)
        everything = time.monotonic() - start
        took.sort()
        return f"{took[count // 2]:.3f} {took[count * 99 // 100]:.3f} {count / everything:.0f} {failures}"

    def command(self, kind, a, b):
        if kind == "n":
            self.node = a
            return "ok"
        if kind == "r":
            return self.read(a)
        if kind == "w":
            return self.said(self.write(a, b, self.node))
        if kind == "b":
            self.write(a, b, 0)
            return "ok"
        if kind == "q":
            return self.said(self.client.read_holding_registers(a, b, slave=self.node))
        if kind == "i":
            return self.said(self.client.read_input_registers(a, 2, slave=self.node))
        if kind == "s":
            return self.said(self.client.write_register(a, b, slave=self.node))
        if kind == "p":
            return self.polls(a, b)
        return "no such command"


master = Master(sys.argv[1])
for text in sys.stdin:
    kind, *numbers = text.split()
    a, b = ([int(number) for number in numbers] + [0, 0])[:2]
    print(master.command(kind, a, b), flush=True)
