"""The masters, each with the same commands: r, w, q, i, s, p and n (see libmodbus_master.c)."""

import re
import select
import subprocess

# Longer than any command takes.
PATIENCE = 30


class Talker:
    """A master program that takes a command a line."""

    def __init__(self, name, command):
        self.name = name
        self.process = subprocess.Popen(command, stdin=subprocess.PIPE, stdout=subprocess.PIPE, text=True)

    def ask(self, *words):
        self.process.stdin.write(" ".join(str(word) for word in words) + "\n")
        self.process.stdin.flush()
        if not select.select([self.process.stdout], [], [], PATIENCE)[0]:
            raise RuntimeError(f"{self.name} says nothing to {words}")
        return self.process.stdout.readline().strip()

    def close(self):
        self.process.stdin.close()
        self.process.wait()


class Mbpoll:
    """mbpoll, a process for each command."""

    name = "mbpoll"
    said = {"Illegal function": 1, "Illegal data address": 2, "Illegal data value": 3}

    def __init__(self, path):
        self.path = path
        self.node = 1

    def ask(self, kind, *numbers):
        if kind == "n":
            self.node = numbers[0]
            return "ok"
        at = numbers[0]
        how = {
            "r": ["-t", "4:int", "-c", "1"],
            "w": ["-t", "4:int"],
            "q": ["-t", "4", "-c", str(numbers[-1])],
            "i": ["-t", "3", "-c", "2"],
            "s": ["-t", "4"],
        }[kind]
        command = ["mbpoll", "-m", "rtu", "-a", str(self.node), "-0", "-r", str(at), *how, "-b", "19200", "-P", "none"]
        command += ["-o", "0.4", "-q", "-1", self.path]
        if kind in "ws":
            command += ["--", str(numbers[1])]
        run = subprocess.run(command, stdin=subprocess.DEVNULL, capture_output=True, text=True)
        return self.answer(kind, at, run.stdout + run.stderr)

    def answer(self, kind, at, text):
        for words, number in self.said.items():
            if words in text:
                return f"exception {number}"
        value = re.search(rf"\[{at}\]:\s+(-?\d+)", text)
        if value:
            return value.group(1) if kind == "r" else "ok"
        return "ok" if "Written" in text else "none"

    def close(self):
        pass
