"""A client of `ptserver serve`, for programs and test benches in Python.

It is one file that needs only the standard library: copy it next to your program.

    from ptclient import Answer, Client

    with Client("/tmp/pt.sock", priority=10, timeout=5) as client:
        client.mutex_init("m", robust=True)
        if client.lock("m") is Answer.EOWNERDEAD:
            client.consistent("m")
        client.unlock("m")

A `Client` is one connection. The server treats it as a process with a single thread of a fixed
priority. When the connection is closed, that process has ended, and what it owns is handled as
POSIX prescribes for a dead owner.

Each call word of the server has a method. A method sends its line, waits for the answer and returns
it as an `Answer`. A call that has to wait in the server, such as `lock` of a mutex that another
client owns, is answered when its wait ends. If that takes longer than the client's `timeout`, the
method raises `TimeoutError`; the call still waits in the server, and `answer()` waits for it again.

docs/RULES.md says how each call is answered.
"""

import enum
import socket
import time

__all__ = ["Answer", "Client", "Clock", "Disconnected", "Kind", "deadline_after"]

PIECE = 4096
NANOSECONDS = 1_000_000_000


class Answer(enum.Enum):
    """The word that answers a line."""

    DONE = "0"
    SERIAL = "SERIAL"
    EPERM = "EPERM"
    EINVAL = "EINVAL"
    EBUSY = "EBUSY"
    EAGAIN = "EAGAIN"
    EDEADLK = "EDEADLK"
    ETIMEDOUT = "ETIMEDOUT"
    EOWNERDEAD = "EOWNERDEAD"
    ENOTRECOVERABLE = "ENOTRECOVERABLE"
    SYNTAX = "SYNTAX"
    LONG = "LONG"
    DEAD = "DEAD"
    NOHELLO = "NOHELLO"
    BLOCKED = "BLOCKED"
    LIMIT = "LIMIT"
    FULL = "FULL"
    ENOMEM = "ENOMEM"

    @property
    def is_refusal(self):
        """True if the line was not accepted, so that nothing has changed."""
        return self in REFUSALS

    @property
    def has_lock(self):
        """True if the caller now has the lock, for the answer to a call that locks."""
        return self in (Answer.DONE, Answer.EOWNERDEAD)


REFUSALS = frozenset(
    (
        Answer.SYNTAX,
        Answer.LONG,
        Answer.DEAD,
        Answer.NOHELLO,
        Answer.BLOCKED,
        Answer.LIMIT,
        Answer.FULL,
        Answer.ENOMEM,
    )
)


class Kind(enum.Enum):
    """The kind of a mutex."""

    NORMAL = "normal"
    DEFAULT = "default"
    ERRORCHECK = "errorcheck"
    RECURSIVE = "recursive"


class Clock(enum.Enum):
    """The clock of a deadline: CLOCK_REALTIME or CLOCK_MONOTONIC."""

    REAL = "real"
    MONO = "mono"


class Disconnected(ConnectionError):
    """The connection has ended. To the server, this client has died."""


def deadline_after(seconds):
    """Returns the time of day `seconds` from now, as `(seconds, nanoseconds)`.

    It is for a server with `--clock system`: `client.timedlock("m", *deadline_after(0.5))`.
    """
    return divmod(time.time_ns() + round(seconds * NANOSECONDS), NANOSECONDS)


class Client:
    """One client of the server."""

    def __init__(self, path, priority=None, timeout=None):
        """Connects to the socket at `path`, and says hello if a priority is given.

        `timeout` is the number of seconds that a method waits for its answer; `None` means without
        end. Raises `OSError` if no server listens there, and `ValueError` if hello is refused.
        """
        self.timeout = timeout
        self._sent = 0
        self._answered = 0
        self._rest = b""
        self._socket = socket.socket(socket.AF_UNIX, socket.SOCK_STREAM)
        try:
            self._socket.connect(str(path))
            if priority is not None:
                self._greet(priority)
        except BaseException:
            self._socket.close()
            raise

    def _greet(self, priority):
        answer = self.hello(priority)
        if answer is not Answer.DONE:
            raise ValueError(f"hello {priority} is answered {answer.value}")

    def __enter__(self):
        return self

    def __exit__(self, *_):
        self.close()

    def close(self):
        """Closes the connection, which ends the client's process."""
        self._socket.close()

    @property
    def is_waiting(self):
        """True if a line that was sent has no answer yet."""
        return self._answered < self._sent

    # Lines and answers

    def send(self, *words):
        """Sends a line without waiting for its answer, which `answer()` returns."""
        line = " ".join(str(word) for word in words)
        try:
            self._socket.settimeout(None)
            self._socket.sendall(line.encode() + b"\n")
        except ConnectionError as error:
            raise Disconnected(f"the server has closed the connection before: {line}") from error
        self._sent += 1

    def answer(self, timeout=None):
        """Waits for the answer to the oldest line that has none yet, and returns it.

        Raises `TimeoutError` after `timeout` seconds, or after the client's own timeout if none is
        given.
        """
        if not self.is_waiting:
            raise RuntimeError("each line has been answered: send one first")
        number, word = self._line(self.timeout if timeout is None else timeout).split(" ")
        self._answered += 1
        if int(number) != self._answered:
            raise RuntimeError(f"line {self._answered} is answered as line {number}")
        return Answer(word)

    def ask(self, *words):
        """Sends a line and returns its answer."""
        if self.is_waiting:
            raise RuntimeError("an earlier line has no answer yet: call answer() first")
        self.send(*words)
        return self.answer()

    def _line(self, timeout):
        end = None if timeout is None else time.monotonic() + timeout
        while b"\n" not in self._rest:
            self._rest += self._piece(None if end is None else end - time.monotonic())
        line, self._rest = self._rest.split(b"\n", 1)
        return line.decode()

    def _piece(self, timeout):
        if timeout is not None and timeout <= 0:
            raise TimeoutError("no answer yet")
        self._socket.settimeout(timeout)
        try:
            piece = self._socket.recv(PIECE)
        except TimeoutError:
            raise TimeoutError("no answer yet") from None
        except ConnectionError as error:
            raise Disconnected("the server has closed the connection") from error
        if not piece:
            raise Disconnected("the server has closed the connection")
        return piece

    # Clients and clocks

    def hello(self, priority):
        """Starts the client's process. Its thread has this priority: 1 to 99, 99 is the highest."""
        return self.ask("hello", priority)

    def moment(self, seconds, nanoseconds=0):
        """Hands in a reading of the clock `real`, for a server with `--clock lines`."""
        return self.ask("moment", seconds, nanoseconds)

    def mono_moment(self, seconds, nanoseconds=0):
        """Hands in a reading of the clock `mono`, for a server with `--clock lines`."""
        return self.ask("mono-moment", seconds, nanoseconds)

    # Mutexes

    def mutex_init(self, name, kind=Kind.NORMAL, robust=False):
        return self.ask("mutex-init", name, kind.value, "robust" if robust else "stalled")

    def lock(self, name):
        return self.ask("lock", name)

    def trylock(self, name):
        return self.ask("trylock", name)

    def timedlock(self, name, seconds, nanoseconds=0):
        return self.ask("timedlock", name, seconds, nanoseconds)

    def clocklock(self, name, clock, seconds, nanoseconds=0):
        return self.ask("clocklock", name, clock.value, seconds, nanoseconds)

    def unlock(self, name):
        return self.ask("unlock", name)

    def consistent(self, name):
        return self.ask("consistent", name)

    def mutex_destroy(self, name):
        return self.ask("mutex-destroy", name)

    # Read-write locks

    def rwlock_init(self, name):
        return self.ask("rwlock-init", name)

    def rdlock(self, name):
        return self.ask("rdlock", name)

    def tryrdlock(self, name):
        return self.ask("tryrdlock", name)

    def timedrdlock(self, name, seconds, nanoseconds=0):
        return self.ask("timedrdlock", name, seconds, nanoseconds)

    def clockrdlock(self, name, clock, seconds, nanoseconds=0):
        return self.ask("clockrdlock", name, clock.value, seconds, nanoseconds)

    def wrlock(self, name):
        return self.ask("wrlock", name)

    def trywrlock(self, name):
        return self.ask("trywrlock", name)

    def timedwrlock(self, name, seconds, nanoseconds=0):
        return self.ask("timedwrlock", name, seconds, nanoseconds)

    def clockwrlock(self, name, clock, seconds, nanoseconds=0):
        return self.ask("clockwrlock", name, clock.value, seconds, nanoseconds)

    def rwunlock(self, name):
        return self.ask("rwunlock", name)

    def rwlock_destroy(self, name):
        return self.ask("rwlock-destroy", name)

    # Conditions

    def cond_init(self, name):
        return self.ask("cond-init", name)

    def wait(self, name, mutex):
        return self.ask("wait", name, mutex)

    def timedwait(self, name, mutex, seconds, nanoseconds=0):
        return self.ask("timedwait", name, mutex, seconds, nanoseconds)

    def clockwait(self, name, mutex, clock, seconds, nanoseconds=0):
        return self.ask("clockwait", name, mutex, clock.value, seconds, nanoseconds)

    def signal(self, name):
        return self.ask("signal", name)

    def broadcast(self, name):
        return self.ask("broadcast", name)

    def cond_destroy(self, name):
        return self.ask("cond-destroy", name)

    # Barriers

    def barrier_init(self, name, count):
        return self.ask("barrier-init", name, count)

    def bwait(self, name):
        return self.ask("bwait", name)

    def barrier_destroy(self, name):
        return self.ask("barrier-destroy", name)
