"""Copies of the checkout in which crates are proved side by side, where they do not stand on each other.

Each crate is proved by `rt lib` as soon as all that it stands on is proved; the crate with most work above it gets a job for each
processor, so that little waits for a long chain of crates. `rt` lets one command at a time into a checkout's crate and those below it, so
each of them works in a copy of the sources of its own. What it leaves stands in that copy's crates/NAME/out/ alone: the library (out/rlib,
which `rt` takes wherever the sources are the same) is put into the other copies and into the checkout, and what later checks of the crate
take (out/incremental) is moved into the checkout. What the checkout has of both is put into the copies first. A line is said as each crate
begins, and what rt says of it, with its seconds and processor seconds, as it ends.
"""
import concurrent.futures
import os
import queue
import shutil
import subprocess
import sys
import time

TOP = os.path.dirname(os.path.dirname(os.path.abspath(__file__)))
# The program that works in the copies, as it names itself where it says something.
TOOL = os.path.basename(sys.argv[0])


def layers():
    """Gives each crate of crates.txt with the crates of this repository that its line names."""
    with open(os.path.join(TOP, "crates.txt"), encoding="utf-8") as lines:
        parts = [line.split(":") for line in lines if ":" in line and not line.startswith("#")]
    uses = {name.strip(): used.split() for name, used in parts}
    return {name: [it for it in used if it in uses] for name, used in uses.items()}


def all_below(uses, names):
    """The crates that these crates stand on, each with those that it stands on."""
    below, left = {}, [it for name in names for it in uses[name]]
    while left:
        name = left.pop()
        if name not in below:
            below[name] = uses[name]
            left.extend(uses[name])
    return below


def size(name):
    """The bytes of a crate's sources, which tell how long its proof takes beside others."""
    folder = os.path.join(TOP, "crates", name)
    found = (os.path.join(at, file) for at, _, files in os.walk(folder) for file in files if file.endswith((".rt", ".antt")))
    return sum(os.path.getsize(file) for file in found)


def work_above(uses):
    """For each crate, the work of the longest chain of crates that begins with it and stands on it."""
    above = {}

    def chain(name):
        if name not in above:
            above[name] = size(name) + max((chain(it) for it in uses if name in uses[it]), default=0)
        return above[name]

    return {name: chain(name) for name in uses}


def link(source, to):
    """Makes a file a second time, without its bytes where the folders are of one file system."""
    try:
        os.link(source, to)
    except OSError:
        shutil.copy2(source, to)


def put(way, source, to, name, part):
    """Puts a part of a crate's out/, by `shutil.copytree` or `shutil.move`, from one copy of the sources into another, where it is there."""
    source, to = (os.path.join(it, "crates", name, "out", part) for it in (source, to))
    if os.path.isdir(source):
        shutil.rmtree(to, ignore_errors=True)
        os.makedirs(os.path.dirname(to), exist_ok=True)
        way(source, to, copy_function=link)


def copies(room, count, names):
    """So many copies of the sources, with the libraries of these crates that the checkout has, and with nothing else that was made."""
    made = [os.path.join(room, str(number)) for number in range(count)]
    for copy in made:
        shutil.copytree(os.path.join(TOP, "crates"), os.path.join(copy, "crates"), ignore=shutil.ignore_patterns("out"))
        for file in ("crates.txt", "HANDLES"):
            shutil.copy(os.path.join(TOP, file), copy)
        for name in names:
            put(shutil.copytree, TOP, copy, name, "rlib")
    return made


def prove(name, jobs, free, everywhere):
    """Proves a crate in a copy that is free, puts its library everywhere else, and gives its name, the exit status and what was said."""
    start, copy = time.monotonic(), free.get()
    try:
        put(shutil.move, TOP, copy, name, "incremental")
        command = ["rt", "lib", "--jobs", str(jobs)]
        ran = subprocess.Popen(command, cwd=os.path.join(copy, "crates", name), stdin=subprocess.DEVNULL, stdout=subprocess.PIPE, stderr=subprocess.STDOUT)
        said = ran.stdout.read().decode(errors="replace")
        _, ended, usage = os.wait4(ran.pid, 0)
        ran.returncode = os.waitstatus_to_exitcode(ended)
        for other in everywhere if ran.returncode == 0 else ():
            if other != copy:
                put(shutil.copytree, copy, other, name, "rlib")
    finally:
        put(shutil.move, copy, TOP, name, "incremental")
        free.put(copy)
    took = f"{time.monotonic() - start:.0f} s, {usage.ru_utime + usage.ru_stime:.0f} processor seconds"
    return name, ran.returncode, f"{said}{TOOL}: {name} took {took}\n"


def prove_all(uses, processors, made):
    """Proves these crates in these copies, and gives the first status that is not 0, or 0."""
    free = queue.SimpleQueue()
    for copy in made:
        free.put(copy)
    left, proved, running = sorted(uses, key=work_above(uses).get, reverse=True), set(), set()
    with concurrent.futures.ThreadPoolExecutor(processors) as pool:
        while left or running:
            ready = [name for name in left if proved.issuperset(uses[name])][: processors - len(running)]
            for name in ready:
                jobs = processors if name == left[0] else max(1, processors // (len(ready) + len(running)))
                left.remove(name)
                running.add(pool.submit(prove, name, jobs, free, [TOP, *made]))
                # (one text, so that no other thread's line comes between this one and its end)
                print(f"{TOOL}: proves {name}\n", end="", flush=True)
            ended, running = concurrent.futures.wait(running, return_when=concurrent.futures.FIRST_COMPLETED)
            for name, status, said in (it.result() for it in ended):
                print(said, end="", flush=True)
                if status:
                    return status
                proved.add(name)
    return 0
