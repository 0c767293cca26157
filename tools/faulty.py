"""The program on a machine that fails it: scripts, a server and its clients, over refuse.c.

The first argument of the tool that imports this is the program. All files are in a folder that
`remove` removes.
"""
import os
import shutil
import socket
import subprocess
import sys
import tempfile

TOP = os.path.dirname(os.path.dirname(os.path.abspath(__file__)))
BUILT = os.path.join(TOP, "crates/pt_server/out/pt_server")
PROGRAM = os.path.abspath(sys.argv[1]) if len(sys.argv) > 1 else BUILT
# How long a run, and an answer that must come, may take, in seconds.
RUN = 20
ANSWER = 2
# Answers to lines that are no events.
REFUSALS = (b" NOHELLO", b" SYNTAX", b" BLOCKED", b" ENOMEM")
folder = tempfile.mkdtemp()
LIBRARY = os.path.join(folder, "refuse.so")
MARK = os.path.join(folder, "mark")
SOCKET = os.path.join(folder, "socket")


def build():
    """Builds the library that refuses calls."""
    source = os.path.join(TOP, "tools", "refuse.c")
    subprocess.run(["cc", "-O1", "-shared", "-fPIC", "-o", LIBRARY, source, "-ldl"], check=True)


def remove():
    shutil.rmtree(folder)


def has_refused():
    """Whether the call that was to fail in the latest run has failed."""
    return os.path.exists(MARK)


def environment(name, at, most_bytes):
    """The environment in which call number `at` of a function is refused, and each call moves this
    many bytes at most."""
    if not name and not most_bytes:
        return dict(os.environ)
    if os.path.exists(MARK):
        os.unlink(MARK)
    more = {"LD_PRELOAD": LIBRARY, "REFUSED": name, "REFUSED_AT": str(at), "REFUSED_MARK": MARK}
    if most_bytes:
        more["MOST_BYTES"] = str(most_bytes)
    return dict(os.environ, **more)


def script(text, name="", at=0, most_bytes=0):
    """The status, the output and the report of a script. Call `at` of a function is refused."""
    path = os.path.join(folder, "script")
    with open(path, "wb") as file:
        file.write(text)
    with open(path, "rb") as file:
        run = subprocess.run([PROGRAM, "script"], stdin=file, capture_output=True, timeout=RUN,
                             env=environment(name, at, most_bytes))
    return run.returncode, run.stdout, run.stderr


def answers(text):
    """What a script is answered if nothing is refused."""
    return script(text)[1]


def client_of(line):
    return line.split(b" ")[0]


def answers_to(name, output):
    """The answers to a script's client, without its name."""
    return [line.split(b" ", 1)[1] for line in output.splitlines() if client_of(line) == name]


class Server:
    """A server in which one call is refused, or each moves this many bytes at most."""

    def __init__(self, sessions, name="", at=0, most_bytes=0):
        if os.path.exists(SOCKET):
            os.unlink(SOCKET)
        self.process = subprocess.Popen(
            [PROGRAM, "serve", "--socket", SOCKET, "--sessions", str(sessions)],
            stdout=subprocess.PIPE, stderr=subprocess.PIPE, env=environment(name, at, most_bytes))
        self.is_ready = self.process.stdout.readline() == b"ready\n"

    def end(self):
        """The status, the output and the report, or None if the server doesn't end."""
        try:
            output, report = self.process.communicate(timeout=RUN)
        except subprocess.TimeoutExpired:
            self.process.kill()
            self.process.communicate()
            return None
        return self.process.returncode, output, report


class Client:
    """A client, its answers, and whether its connection ended or stays silent."""

    def __init__(self):
        self.answers = []
        self.sent = []
        self.state = "open"
        self.begun = b""
        self.socket = socket.socket(socket.AF_UNIX)
        self.socket.settimeout(ANSWER)
        try:
            self.socket.connect(SOCKET)
        except OSError:
            self.state = "ended"

    def send(self, line):
        self.sent.append(line)
        try:
            self.socket.sendall(line + b"\n")
        except OSError:
            self.state = "ended"

    def receive(self):
        """Waits for the next answer."""
        while self.state == "open" and b"\n" not in self.begun:
            try:
                piece = self.socket.recv(4096)
            except socket.timeout:
                self.state = "silent"
                return
            except OSError:
                piece = b""
            self.begun += piece
            if not piece:
                self.state = "ended"
        line, newline, rest = self.begun.partition(b"\n")
        if newline:
            self.answers.append(line)
            self.begun = rest

    def ask(self, line):
        if self.state == "open":
            self.send(line)
            self.receive()

    def finish(self):
        """Ends what is sent, and waits for all answers that are left."""
        if self.state == "open":
            self.socket.shutdown(socket.SHUT_WR)
        while self.state == "open":
            self.receive()
        self.socket.close()

    def as_script(self, name, count):
        """The first lines as lines of a script. One that was answered ENOMEM is a bad one."""
        refused = {int(line.split(b" ")[0]) for line in self.answers if line.endswith(b" ENOMEM")}
        return [name if at + 1 in refused else name + b" " + line
                for at, line in enumerate(self.sent[:count])]

    def counts(self):
        """How many of its lines may have been submitted."""
        return range(len(self.answers), min(len(self.answers) + 1, len(self.sent)) + 1)

    def events(self):
        """The least and the greatest number of events that it may have made, with its death."""
        accepted = sum(not line.endswith(REFUSALS) for line in self.answers)
        unanswered = len(self.counts()) - 1
        death = 1 if accepted else 0
        return accepted + death, accepted + unanswered + max(death, unanswered)

    def is_told(self, name, output):
        """Whether its answers begin those that a script's client of this name gets."""
        own = [line.replace(b"ENOMEM", b"SYNTAX") for line in self.answers]
        return answers_to(name, output)[:len(own)] == own
