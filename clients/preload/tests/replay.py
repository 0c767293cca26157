#!/usr/bin/env python3
"""Plays a trace of the library again, as a script, and compares the answers.

    tests/replay.py TRACE      the server is the program $PTSERVER
"""
import os
import subprocess
import sys

trace = open(sys.argv[1], encoding="ascii").read().splitlines()
script = [line for line in trace if not line.startswith(("> ", "#"))]
seen = {tuple(line[2:].split()) for line in trace if line.startswith("> ")}
played = subprocess.run(
    [os.environ["PTSERVER"], "script"],
    input="".join(line + "\n" for line in script),
    stdout=subprocess.PIPE,
    text=True,
    check=True,
)
answers = {tuple(line.split()) for line in played.stdout.splitlines()}
for answer in sorted(seen - answers):
    print("only the trace has:", *answer)
for answer in sorted(answers - seen):
    print("only the script has:", *answer)
print(f"{len(script)} lines, {len(seen)} answers")
sys.exit(seen != answers or not seen)
