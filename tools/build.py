#!/usr/bin/env python3
"""Proves and builds a program of this repository, with all crates that it uses.

    tools/build.py pt_server

Each crate is proved as soon as the crates that it uses are proved. Several are proved at once if
none uses another. A check uses the processors that the other checks leave free, and the longer its
way to the program is, the less it yields to them. The build of a crate is stored with a stamp, a
hash of everything that it was made from, and it is rebuilt only when that hash changes. Standard
error gets a line for each crate that is proved. The toolchain's own output goes to a file, which is
named if a crate fails.
"""
import fcntl
import functools
import hashlib
import os
import shutil
import signal
import subprocess
import sys
import tempfile
import time
from concurrent.futures import FIRST_COMPLETED, ThreadPoolExecutor, wait

TOP = os.path.dirname(os.path.dirname(os.path.abspath(__file__)))
PROCESSORS = len(os.sched_getaffinity(0))
# The most memory that a check takes.
BYTES_A_CHECK = 2_500_000_000
# The time that a check takes before its first function, as the size of code that takes as long.
BYTES_TO_BEGIN = 10_000
# The prover's allocator is told to keep the memory that it frees. By default it returns that memory
# to the system after a second, and a third to a half of a check's page faults are for memory that
# it takes back.
ALLOCATOR_SETTINGS = {"MIMALLOC_PURGE_DELAY": "-1"}
# The place of builds in a crate's folder. rt allows built libraries in out/rlib only, and rt ci
# restores that folder.
KEPT = "out/rlib/build"


@functools.cache
def find_kit():
    """Returns the folder of the toolchain, which holds the page that `rt doc` names."""
    said = subprocess.run(["rt", "doc"], check=True, stdout=subprocess.PIPE, text=True)
    return os.path.dirname(said.stdout.strip())


@functools.cache
def kit_identity():
    with open(f"{find_kit()}/KIT-ID", encoding="utf-8") as file:
        return file.read()


@functools.cache
def read_lines():
    """Returns the lines of crates.txt that name a crate, by its name."""
    with open(f"{TOP}/crates.txt", encoding="utf-8") as file:
        lines = [line.split("#")[0].strip() for line in file]
    return {line.split()[0].rstrip(":"): line for line in lines if line}


def uses(name):
    """Returns the libraries that a crate's line names, of this repository and of the toolchain."""
    return read_lines()[name].split(":")[1].split()


def crates_of(name):
    """Returns the crates of this repository that a crate uses."""
    return [it for it in uses(name) if it in read_lines()]


@functools.cache
def below(name):
    """Returns all crates that a crate uses, directly or not, each after those that it uses."""
    ordered = []
    for use in crates_of(name):
        ordered += [it for it in [*below(use), use] if it not in ordered]
    return ordered


def files_of(name):
    """Returns the paths of a crate's sources, definitions and proofs."""
    parts = [f"{TOP}/crates/{name}/{part}" for part in ("src", "specs", "proofs")]
    return sorted(f"{at}/{it}" for part in parts for at, _, names in os.walk(part) for it in names)


def weight_of(name):
    """Estimates how long a check takes, in bytes of code. The size of proofs says less about it."""
    code = f"{TOP}/crates/{name}/src/"
    return BYTES_TO_BEGIN + sum(os.path.getsize(it) for it in files_of(name) if it.startswith(code))


def weights(names):
    """Returns for each crate the greatest sum of weights on a way from it up to the program."""
    found = {}
    for name in reversed(names):
        above = [found[it] for it in found if name in crates_of(it)]
        found[name] = weight_of(name) + max(above, default=0)
    return found


def is_program(name):
    return os.path.exists(f"{TOP}/crates/{name}/src/main.rt")


def built(name):
    """Returns the path of a crate's build: a library, or the object file of a program."""
    return f"{TOP}/crates/{name}/{KEPT}/{name}{'.o' if is_program(name) else '.rlib'}"


def stamp_file(name):
    return f"{TOP}/crates/{name}/{KEPT}/stamp"


def stamp_of(name, stamps):
    """Returns a hash of all that a crate is built from, the stamps of its crates included."""
    parts = [kit_identity(), read_lines()[name], *[stamps[it] for it in crates_of(name)]]
    for path in files_of(name):
        with open(path, "rb") as file:
            parts += [os.path.relpath(path, TOP), hashlib.sha256(file.read()).hexdigest()]
    return hashlib.sha256(repr(parts).encode()).hexdigest()


def is_kept(name, stamp):
    """Returns true if the stored build of a crate was made from what this stamp sums up."""
    if not os.path.exists(stamp_file(name)) or not os.path.exists(built(name)):
        return False
    with open(stamp_file(name), encoding="utf-8") as file:
        return file.read() == stamp


def keep(name, new, stamp):
    """Stores a crate's new build. At no moment is a stamp stored beside a build of other inputs."""
    if os.path.exists(stamp_file(name)):
        os.remove(stamp_file(name))
    shutil.rmtree(built(name), ignore_errors=True)
    os.replace(new, built(name))
    with open(stamp_file(name), "w", encoding="utf-8") as file:
        file.write(stamp)


def library_words(name):
    """Returns the words by which a check finds the libraries that a crate uses."""
    crates, kit = crates_of(name), f"{find_kit()}/rlibs"
    of_kit = ["std", *[it for it in uses(name) if it not in crates]]
    found = {it: f"{kit}/{it}.rlib" for it in of_kit} | {it: built(it) for it in crates}
    folders = [kit, *[os.path.dirname(built(it)) for it in below(name)]]
    externs = [word for it in found for word in ("--extern", f"{it}={found[it]}")]
    return externs + [word for it in folders for word in ("-L", f"dependency={it}")]


def proof_words(name, jobs, to):
    """Returns the command that proves and builds a crate. Storing proofs, too, would slow it."""
    kit = find_kit()
    by_llvm = ["--toolchain", f"{kit}/toolchain", "--backend", "llvm"]
    return [
        *(f"{kit}/bin/rattle", "build", "--crate-name", name),
        *("src/main.rt" if is_program(name) else "src/lib.rt", *library_words(name)),
        *("--antt-project", f"{kit}/rattle/logic/antt-project.json"),
        *("--logic-built", f"{kit}/logic_built", "--jobs", str(jobs), "--links", f"{name}="),
        *(by_llvm if is_program(name) else ["--statements"]),
        *("-o", to),
    ]


def link_words(name, to):
    """Returns the command that links a program."""
    kit = find_kit()
    return [
        *(f"{kit}/bin/rattle-link", "--target", "x86_64-unknown-linux-gnu"),
        *("--toolchain", f"{kit}/toolchain", "-o", to),
        *(built(name), f"{kit}/c/libos_c.a", f"{kit}/c/liblibc_c.a"),
    ]


def run(words, name, log, nice=0):
    """Runs a command of the toolchain in a crate's folder, and returns its status."""
    with open(log, "ab") as out:
        done = subprocess.run(
            ["nice", "-n", str(nice), *words],
            cwd=f"{TOP}/crates/{name}",
            env={**ALLOCATOR_SETTINGS, **os.environ},
            stdin=subprocess.DEVNULL,
            stdout=out,
            stderr=subprocess.STDOUT,
        )
    return done.returncode


def prove(name, stamps, log, jobs, nice):
    """Proves a crate. Returns what went wrong, or None after its build was stored."""
    stamp, new = stamp_of(name, stamps), f"{built(name)}.new"
    shutil.rmtree(new, ignore_errors=True)
    os.makedirs(os.path.dirname(new), exist_ok=True)
    status = run(proof_words(name, jobs, new), name, log, nice)
    if status == -signal.SIGKILL and jobs > 1:
        # It was most likely killed for lack of memory, and one job takes less.
        status = run(proof_words(name, 1, new), name, log, nice)
    if status != 0:
        return f"{name} could not be proved: see {log}"
    if stamp_of(name, stamps) != stamp:
        return f"{name} changed while it was proved: run this again"
    keep(name, new, stamp)
    stamps[name] = stamp
    return None


def available_bytes():
    """Returns the memory that checks can have, including what cached files take for now."""
    with open("/proc/meminfo", encoding="utf-8") as file:
        kilobytes = dict(line.split()[:2] for line in file)
    return int(kilobytes["MemAvailable:"]) * 1024


def checks_at_once():
    """Returns one more than the number of processors, or what memory allows if that is less."""
    return max(1, min(PROCESSORS + 1, available_bytes() // BYTES_A_CHECK))


def ready(waiting, running):
    """Returns the crates that can be begun, since all crates that they use are built."""
    to_do = {*waiting, *running}
    return [it for it in waiting if to_do.isdisjoint(crates_of(it))]


def jobs_for(name, others, weight):
    """Returns the number of jobs of a check, while other checks run or can be begun.

    Two jobs cost a third more processor time than one, and more jobs cost still more. So a check
    gets two only if the others have too little work for the rest of the processors, and gets all
    processors only if no other check runs or can be begun.
    """
    if not others:
        return PROCESSORS
    part = weight[name] / sum(weight[it] for it in [name, *others])
    return max(1, min(PROCESSORS // 2, round(1.5 * PROCESSORS * part)))


def niceness(name, to_do, weight):
    """Returns how much a check yields to others, by the length of its way to the program."""
    return round(19 * (1 - weight[name] / max(weight[it] for it in to_do)))


def begin(name, waiting, running, weight):
    """Returns the jobs and the niceness of a check that begins now, before those that wait."""
    others = [*ready(waiting, [name, *running]), *running]
    return jobs_for(name, others, weight), niceness(name, [name, *waiting, *running], weight)


def prove_all(names, stamps, scratch):
    """Returns true if all crates were proved. After one that was not, no more are begun."""
    weight, running, at_once, is_well = weights(names), {}, checks_at_once(), True
    waiting = sorted(names, key=lambda it: -weight[it])
    with ThreadPoolExecutor(at_once) as pool:
        while waiting or running:
            for name in ready(waiting, running.values())[: at_once - len(running)]:
                waiting.remove(name)
                say(f"proving {len(names) - len(waiting)} of {len(names)}: {name}")
                jobs, nice = begin(name, waiting, running.values(), weight)
                task = pool.submit(prove, name, stamps, f"{scratch}/{name}.log", jobs, nice)
                running[task] = name
            for ended in wait(running, return_when=FIRST_COMPLETED).done:
                del running[ended]
                if ended.result():
                    say(ended.result())
                    waiting, is_well = [], False
    return is_well


def prove_changed(names, scratch):
    """Proves the crates whose stored build is missing or outdated. Returns true if all are."""
    stamps = {}
    for name in names:
        stamps[name] = stamp_of(name, stamps)
    return prove_all([it for it in names if not is_kept(it, stamps[it])], stamps, scratch)


def link(program, began, scratch):
    """Links the program, dated to the start of the build, so that later edits are newer than it.

    Returns true if it was linked.
    """
    made, log = f"{TOP}/crates/{program}/out/{program}", f"{scratch}/{program}.log"
    if run(link_words(program, f"{made}.new"), program, log) != 0:
        say(f"{program} could not be linked: see {log}")
        return False
    os.utime(f"{made}.new", (began, began))
    os.replace(f"{made}.new", made)
    return True


def take_turn(names):
    """Waits for the locks of these crates, which rt takes too, and holds them until the end."""
    held = [os.open(f"{TOP}/crates/{name}", os.O_RDONLY) for name in sorted(names)]
    if not all(map(lock, held)):
        say("waiting for another build or another command of rt in these crates to end")
    for folder in held:
        fcntl.flock(folder, fcntl.LOCK_EX)


def lock(folder):
    """Locks a folder and returns true, or returns false if something else has its lock."""
    try:
        fcntl.flock(folder, fcntl.LOCK_EX | fcntl.LOCK_NB)
    except BlockingIOError:
        return False
    return True


def say(text):
    print(text, file=sys.stderr, flush=True)


def main():
    program = sys.argv[1]
    names = [*below(program), program]
    take_turn(names)
    began, scratch = time.time(), tempfile.mkdtemp(prefix=".build-", dir=TOP)
    try:
        is_well = prove_changed(names, scratch) and link(program, began, scratch)
    except KeyboardInterrupt:
        shutil.rmtree(scratch)
        raise
    if is_well:
        shutil.rmtree(scratch)
    return 0 if is_well else 1


if __name__ == "__main__":
    try:
        sys.exit(main())
    except KeyboardInterrupt:
        sys.exit(130)
