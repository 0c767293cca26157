#!/usr/bin/env python3
"""A test bench: what does the next owner of a robust mutex learn if its owner is killed?

    examples/owner-dies.py

It starts a server, and a process that locks the mutex `m`. The process is killed, and a client that
waits for `m` gets it with EOWNERDEAD. The server is the program $PTSERVER, or else ./ptserver.
"""
import os
import pathlib
import subprocess
import sys
import tempfile

TOP = pathlib.Path(__file__).resolve().parents[1]
CLIENTS = str(TOP / "clients/python")
sys.path.insert(0, CLIENTS)

from ptclient import Answer, Client

PROGRAM = os.environ.get("PTSERVER", str(TOP / "ptserver"))
OWNER = """
import sys, time
sys.path.insert(0, sys.argv[1])
from ptclient import Client
owner = Client(sys.argv[2], priority=10)
print(owner.mutex_init("m", robust=True).value, owner.lock("m").value, flush=True)
time.sleep(60)
"""


def start(*command):
    """Starts a process, and returns it with the first line that it writes."""
    process = subprocess.Popen(command, stdout=subprocess.PIPE, text=True)
    return process, process.stdout.readline().strip()


def bench(path):
    owner, said = start(sys.executable, "-c", OWNER, CLIENTS, path)
    print(f"the owner has made and locked m: {said}")
    with Client(path, priority=20, timeout=5) as waiter:
        waiter.send("lock", "m")
        owner.kill()
        owner.wait()
        answer = waiter.answer()
        print(f"the owner was killed, and the next one gets: {answer.value}")
        print(f"consistent: {waiter.consistent('m').value}, unlock: {waiter.unlock('m').value}")
    return answer is Answer.EOWNERDEAD


def main():
    with tempfile.TemporaryDirectory() as folder:
        path = os.path.join(folder, "socket")
        server, _ = start(PROGRAM, "serve", "--socket", path)
        try:
            return 0 if bench(path) else 1
        finally:
            server.kill()
            server.wait()


sys.exit(main())
