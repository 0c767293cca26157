"""Tests of ptclient against a running server. `tools/try-clients` runs them.

The server is the program $PTSERVER, or else ptserver at the top of the repository.
"""

import os
import pathlib
import subprocess
import tempfile
import threading
import unittest

from ptclient import Answer, Client, Clock, Disconnected, Kind, deadline_after

TOP = pathlib.Path(__file__).resolve().parents[2]
PROGRAM = os.environ.get("PTSERVER", str(TOP / "ptserver"))


class Served(unittest.TestCase):
    """A test case that starts a server of its own for each test."""

    clock = "lines"

    def setUp(self):
        folder = tempfile.TemporaryDirectory()
        self.addCleanup(folder.cleanup)
        self.path = os.path.join(folder.name, "socket")
        command = [PROGRAM, "serve", "--socket", self.path, "--clock", self.clock]
        self.server = subprocess.Popen(command, stdout=subprocess.PIPE)
        self.addCleanup(self.end_server)
        self.assertEqual(self.server.stdout.readline(), b"ready\n")

    def end_server(self):
        self.server.kill()
        self.server.wait()
        self.server.stdout.close()

    def client(self, priority=None):
        client = Client(self.path, priority, timeout=5)
        self.addCleanup(client.close)
        return client

    def check(self, *answers, want=Answer.DONE):
        self.assertEqual(answers, (want,) * len(answers))


class Calls(Served):
    def test_mutexes(self):
        a, b = self.client(10), self.client(20)
        self.check(a.mutex_init("m"), a.lock("m"), b.mutex_init("e", Kind.ERRORCHECK), b.lock("e"))
        self.check(b.trylock("m"), b.mutex_destroy("m"), want=Answer.EBUSY)
        self.check(b.lock("e"), want=Answer.EDEADLK)
        self.check(b.unlock("m"), want=Answer.EPERM)
        self.check(a.consistent("m"), a.lock("nothing"), want=Answer.EINVAL)
        self.check(a.timedlock("m2", 1), want=Answer.EINVAL)
        self.check(a.unlock("m"), a.mutex_destroy("m"))

    def test_read_write_locks(self):
        a, b = self.client(10), self.client(20)
        self.check(a.rwlock_init("r"), a.rdlock("r"), b.tryrdlock("r"), b.timedrdlock("r", 1))
        self.check(a.trywrlock("r"), want=Answer.EBUSY)
        self.check(a.wrlock("r"), a.timedwrlock("r", 1), want=Answer.EDEADLK)
        self.check(a.rwunlock("r"), b.rwunlock("r"), b.rwunlock("r"), a.rwlock_destroy("r"))

    def test_conditions(self):
        a, b = self.client(10), self.client(20)
        self.check(a.mutex_init("m"), a.cond_init("c"), a.lock("m"))
        a.send("wait", "c", "m")
        self.check(b.lock("m"), b.signal("c"), b.broadcast("c"), b.unlock("m"))
        self.check(a.answer(), a.unlock("m"), a.cond_destroy("c"))
        self.check(a.wait("c", "m"), a.timedwait("c", "m", 1), want=Answer.EINVAL)

    def test_barriers(self):
        a, b = self.client(10), self.client(20)
        self.check(a.barrier_init("b", 2))
        a.send("bwait", "b")
        with self.assertRaises(TimeoutError):
            a.answer(timeout=0.1)
        self.check(b.bwait("b"), want=Answer.SERIAL)
        self.check(a.answer(), a.barrier_destroy("b"))

    def test_clocks(self):
        a, b = self.client(10), self.client(20)
        self.check(a.mono_moment(5), a.mutex_init("m"), a.lock("m"))
        self.check(a.cond_init("c"), a.rwlock_init("r"))
        self.check(b.clocklock("m", Clock.MONO, 5), want=Answer.ETIMEDOUT)
        self.check(b.clockrdlock("r", Clock.REAL, 1), b.rwunlock("r"))
        self.check(b.clockwrlock("r", Clock.MONO, 1))
        self.check(a.clockwait("c", "m", Clock.MONO, 5), want=Answer.ETIMEDOUT)

    def test_moments(self):
        a, b = self.client(10), self.client(20)
        self.check(a.mutex_init("m"), a.lock("m"))
        b.send("timedlock", "m", 5, 0)
        self.check(a.moment(5))
        self.check(b.answer(), want=Answer.ETIMEDOUT)


class Sessions(Served):
    def test_the_next_owner_learns_of_a_death(self):
        a, b = self.client(10), self.client(20)
        self.check(a.mutex_init("m", robust=True), a.lock("m"))
        b.send("lock", "m")
        a.close()
        self.check(b.answer(), want=Answer.EOWNERDEAD)
        self.check(b.consistent("m"), b.unlock("m"))

    def test_a_wait_outlasts_its_timeout(self):
        a, b = self.client(10), self.client(20)
        self.check(a.mutex_init("m"), a.lock("m"))
        b.timeout = 0.1
        with self.assertRaises(TimeoutError):
            b.lock("m")
        self.assertTrue(b.is_waiting)
        with self.assertRaises(RuntimeError):
            b.unlock("m")
        self.check(a.unlock("m"), b.answer(timeout=5))
        self.assertFalse(b.is_waiting)

    def test_refusals(self):
        a = self.client()
        self.check(a.lock("m"), want=Answer.NOHELLO)
        self.check(a.hello(0), a.ask("lokc", "m"), a.ask("die"), want=Answer.SYNTAX)
        self.check(a.ask("x" * 129), want=Answer.LONG)
        self.assertTrue(Answer.LONG.is_refusal and not Answer.EBUSY.is_refusal)
        with self.assertRaises(ValueError):
            self.client(priority=0)

    def test_lines_sent_ahead(self):
        a = self.client()
        for words in (("hello", 10), ("mutex-init", "m", "normal", "stalled"), ("lock", "m")):
            a.send(*words)
        self.check(a.answer(), a.answer(), a.answer())
        with self.assertRaises(RuntimeError):
            a.answer()

    def test_the_server_is_killed(self):
        a = self.client(10)
        self.end_server()
        with self.assertRaises(Disconnected):
            a.lock("m")
        with self.assertRaises(OSError):
            self.client(10)


class SystemClock(Served):
    clock = "system"

    def test_a_deadline_passes(self):
        a, b = self.client(10), self.client(20)
        self.check(a.mutex_init("m"), a.lock("m"))
        self.check(b.timedlock("m", *deadline_after(0.05)), want=Answer.ETIMEDOUT)
        self.check(a.moment(1), want=Answer.SYNTAX)


class Threads(Served):
    def test_one_owner_at_a_time(self):
        self.check(self.client(1).mutex_init("m"))
        inside, worst = [0], [0]

        def work(client):
            for _ in range(50):
                client.lock("m")
                inside[0] += 1
                worst[0] = max(worst[0], inside[0])
                inside[0] -= 1
                client.unlock("m")

        threads = [threading.Thread(target=work, args=(self.client(n),)) for n in range(1, 9)]
        for thread in threads:
            thread.start()
        for thread in threads:
            thread.join()
        self.assertEqual(worst, [1])


if __name__ == "__main__":
    unittest.main()
