"""Serial lines over pseudo terminals: one slave behind socat, or some slaves on one line."""

import atexit
import os
import select
import signal
import subprocess
import termios
import threading
import time
import tty

TENTH = 0.1
# A slave hears nothing before its first silence; a master that tries again comes about so late.
FIRST_SILENCE = 0.33


def started(*arguments, **options):
    """A process that does not outlive this one."""
    process = subprocess.Popen(*arguments, **options)
    atexit.register(lambda: process.poll() is None and process.terminate())
    return process


def pause(seconds):
    time.sleep(seconds)


def until(test, seconds=2.0):
    """Waits for a test to hold; whether it did."""
    end = time.monotonic() + seconds
    while time.monotonic() < end:
        if test():
            return True
        time.sleep(0.005)
    return bool(test())


def raw_terminal(vmin, vtime):
    """A new pseudo terminal: its master, and its slave set raw with min and time."""
    master, slave = os.openpty()
    tty.setraw(slave)
    settings = termios.tcgetattr(slave)
    settings[6][termios.VMIN] = vmin
    settings[6][termios.VTIME] = vtime
    termios.tcsetattr(slave, termios.TCSANOW, settings)
    return master, slave


def lines_of(path):
    with open(path, errors="replace") as file:
        return file.read().splitlines()


class SocatLine:
    """A slave behind socat, as the manual page has it."""

    def __init__(self, folder, name, command):
        self.path = os.path.join(folder, name)
        self.errors = self.path + ".errors"
        self.process = started(
            ["socat", f"pty,raw,echo=0,link={self.path}", f"EXEC:{command},pty,raw,echo=0,vmin=0,vtime=1"],
            stderr=open(self.errors, "wb"),
        )
        if not until(lambda: os.path.exists(self.path)):
            raise RuntimeError(f"socat made no {self.path}")
        # Held open, so that the line outlives each master.
        self.held = os.open(self.path, os.O_RDWR | os.O_NOCTTY)
        until(self.children, 0.5)
        pause(FIRST_SILENCE)

    def children(self):
        pid = self.process.pid
        try:
            with open(f"/proc/{pid}/task/{pid}/children") as file:
                return [int(child) for child in file.read().split()]
        except OSError:
            return []

    def said(self):
        return [line for line in lines_of(self.errors) if " socat[" not in line]

    def close(self):
        """Ends the line; whether the slave ended with it."""
        children = self.children()
        os.close(self.held)
        self.process.terminate()
        self.process.wait()
        ended = until(lambda: not any(alive(child) for child in children))
        for child in children:
            if alive(child):
                os.kill(child, signal.SIGTERM)
        return ended


def alive(pid):
    try:
        with open(f"/proc/{pid}/stat") as file:
            return file.read().rsplit(")", 1)[1].split()[0] != "Z"
    except OSError:
        return False


class Bus:
    """Some slaves on one line: each hears the master and the replies of the others."""

    def __init__(self, folder, commands):
        self.master, self.end = raw_terminal(1, 0)
        self.path = os.ttyname(self.end)
        self.ports, self.processes, self.ends, self.errors = [], [], [], []
        for i, command in enumerate(commands):
            port, end = raw_terminal(0, 1)
            self.errors.append(os.path.join(folder, f"bus.{i}.errors"))
            errors = open(self.errors[-1], "wb")
            self.processes.append(started(command.split(), stdin=end, stdout=end, stderr=errors))
            self.ports.append(port)
            self.ends.append(end)
        self.running = True
        self.thread = threading.Thread(target=self.copy, daemon=True)
        self.thread.start()
        pause(FIRST_SILENCE)

    def said(self):
        """What each slave said."""
        return [lines_of(path) for path in self.errors]

    def copy(self):
        everyone = [self.master] + self.ports
        while self.running:
            ready, _, _ = select.select(everyone, [], [], TENTH)
            for port in ready:
                data = os.read(port, 4096)
                for other in everyone:
                    if other != port:
                        os.write(other, data)

    def close(self):
        self.running = False
        self.thread.join()
        for end in self.ends + self.ports + [self.master, self.end]:
            os.close(end)
        ended = [until(lambda: process.poll() is not None) for process in self.processes]
        for process in self.processes:
            if process.poll() is None:
                process.terminate()
                process.wait()
        return all(ended)


class Pair:
    """Two terminals with a line between them; the far one is set by options, or left as it is made."""

    def __init__(self, folder, near, far, options=""):
        self.near, self.far = os.path.join(folder, near), os.path.join(folder, far)
        self.process = started(["socat", f"pty,raw,echo=0,link={self.near}", f"pty{options},link={self.far}"])
        if not until(lambda: os.path.exists(self.near) and os.path.exists(self.far)):
            raise RuntimeError(f"socat made no {self.near} and {self.far}")

    def close(self):
        self.process.terminate()
        self.process.wait()


class Feed:
    """A terminal to type events at, and the one that the slave reads."""

    def __init__(self, folder):
        self.pair = Pair(folder, "typed", "events.terminal", ",raw,echo=0,vmin=0,vtime=0")
        self.path = self.pair.far
        self.file = os.open(self.pair.near, os.O_RDWR | os.O_NOCTTY)
        self.held = os.open(self.path, os.O_RDWR | os.O_NOCTTY)

    def type(self, line, end="\n"):
        os.write(self.file, (line + end).encode())

    def close(self):
        os.close(self.file)
        os.close(self.held)
        self.pair.close()


class Wire:
    """Bytes on a line as they are, for what no master sends."""

    def __init__(self, path):
        self.file = os.open(path, os.O_RDWR | os.O_NOCTTY)
        tty.setraw(self.file)
        termios.tcflush(self.file, termios.TCIOFLUSH)

    def send(self, data):
        os.write(self.file, bytes(data))

    def receive(self, seconds=0.3, length=None):
        """What comes until so many bytes are there, or no more for a while."""
        data = b""
        while length is None or len(data) < length:
            ready, _, _ = select.select([self.file], [], [], seconds)
            if not ready:
                break
            data += os.read(self.file, 4096)
        return data

    def close(self):
        os.close(self.file)


class Port(Wire):
    """The line of one slave, held by this process: what is sent is there at once."""

    def __init__(self, folder, command, vmin=0, vtime=1, waiting=b"", settled=FIRST_SILENCE):
        self.file, self.end = raw_terminal(vmin, vtime)
        self.errors, self.command = os.path.join(folder, "port.errors"), command
        open(self.errors, "wb").close()
        self.start(waiting, settled)

    def start(self, waiting=b"", settled=FIRST_SILENCE):
        """Starts the slave, with bytes that it finds on its line."""
        self.send(waiting)
        with open(self.errors, "ab") as errors:
            self.process = started(self.command.split(), stdin=self.end, stdout=self.end, stderr=errors)
        pause(settled)

    def stop(self):
        """Ends the slave; the line stays."""
        self.process.terminate()
        self.process.wait()

    def said(self):
        return lines_of(self.errors)

    def close(self):
        """Ends the line; whether the slave ended with it."""
        os.close(self.file)
        os.close(self.end)
        ended = until(lambda: self.process.poll() is not None)
        if not ended:
            self.stop()
        return ended
