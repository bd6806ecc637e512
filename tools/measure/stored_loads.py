"""Times what a desk in a file does at each line, for `./benchmark --stored`.

A command on a set of 100 bugs beside one on a bug by itself; a message with an id beside the same
without; a file by the versions of its packages; the first write on 20,000 nodes beside the second;
and one command in words on desks of several sizes.
Where Python's sqlite3 can do the same on the same tables, its figure stands beside.
Each figure is the best of three runs, of nine for the first write.
"""

import json
import os
import shutil
import socket
import subprocess
import sys
import tempfile
import time
import urllib.request

from .stored_benchmark import connect, make, run

TIMES = 3
FIRST_TIMES = 9
SET_SIZE = 100
SETS = 10
CHANGES = 1_000
MESSAGES = (1_000, 4_000)
VERSIONS = (2, 10, 50, 200)
BUGS = 2_000
NODES = 20_000
SIZES = (1_000, 10_000, 50_000)
SEVERITIES = ("grave", "minor")


def best(program, store, script):
    """The least seconds of a run; each begins with a copy of the file."""
    least = None
    for _ in range(TIMES):
        with tempfile.TemporaryDirectory(dir=os.path.dirname(store)) as place:
            copy = os.path.join(place, "copy")
            shutil.copy(store, copy)
            seconds, answers = run(program, copy, script)
            if any(line.startswith(b"NO ") for line in answers):
                raise SystemExit("benchmark: a line was refused")
            least = seconds if least is None else min(least, seconds)
    return least


def desk(program, folder, name, script):
    """A desk that a script made."""
    store = os.path.join(folder, name)
    make(program, store)
    run(program, store, script)
    return store


def changes(count, step):
    """So many changes of severity, each of the next bug in steps, round and round."""
    severity = [SEVERITIES[place // SETS % 2] for place in range(count)]
    return ["@from ann"] + [
        f"severity {1 + place % SETS * step} {severity[place]}" for place in range(count)
    ]


def update(store, count, step):
    """The seconds of these changes by Python's sqlite3: one finds the set, and one changes it."""
    connection = connect(store)
    began = time.perf_counter()
    for place in range(count):
        number = 1 + place % SETS * step
        connection.execute("BEGIN IMMEDIATE")
        (key,) = connection.execute(
            "SELECT set_key FROM bugs WHERE number = ?", (number,)
        ).fetchone()
        severity = 2 + place // SETS % 2
        connection.execute("UPDATE sets SET severity = ? WHERE set_key = ?", (severity, key))
        connection.execute("COMMIT")
    seconds = time.perf_counter() - began
    connection.close()
    return seconds


def time_sets(program, folder):
    """A change of a set of 100 beside one of a bug by itself."""
    bugs = ["@from ann"] + ["@report foo 1.0-1 normal does not start"] * (SETS * SET_SIZE)
    merges = [
        "merge " + " ".join(str(bug) for bug in range(first, first + SET_SIZE))
        for first in range(1, SETS * SET_SIZE, SET_SIZE)
    ]
    told = {}
    for name, script in (("alone", bugs), ("sets", bugs + merges)):
        store = desk(program, folder, name, script)
        opened = best(program, store, [])
        taken = best(program, store, changes(CHANGES, SET_SIZE)) - opened
        told[name] = (taken / CHANGES, update(store, CHANGES, SET_SIZE) / CHANGES)
    (one, one_row), (many, many_row) = told["alone"], told["sets"]
    print(
        f"a change of a set of {SET_SIZE}: {many * 1e6:.0f} us ({many_row * 1e6:.0f} by Python),"
        f" of a bug by itself {one * 1e6:.0f} us ({one_row * 1e6:.0f}): {many / one:.2f} times",
        flush=True,
    )


def send(program, store, message, more):
    """The seconds of one message over HTTP."""
    with socket.socket() as free:
        free.bind(("127.0.0.1", 0))
        port = free.getsockname()[1]
    words = [program, f"--store={store}", f"--port={port}", "--count=1", "serve"]
    with subprocess.Popen(words, stdout=subprocess.PIPE, text=True) as server:
        server.stdout.readline()
        body = json.dumps({"from": "ann", "message": message} | more).encode()
        request = urllib.request.Request(
            f"http://127.0.0.1:{port}/control", data=body, method="POST"
        )
        began = time.perf_counter()
        with urllib.request.urlopen(request) as answer:
            said = json.load(answer)
        seconds = time.perf_counter() - began
    if said["end"] != "all" or "\nNO " in said["transcript"]:
        raise SystemExit("benchmark: a line was refused")
    return seconds


def time_messages(program, folder):
    """A message of many lines with an id beside the same without."""
    reports = ["@from ann"] + ["@report foo 1.0-1 normal does not start"] * 1_000
    for count in MESSAGES:
        lines = [
            f"{'reopen' if place // 1_000 % 2 else 'close'} {1 + place % 1_000}"
            for place in range(count)
        ]
        message = "".join(f"{line}\n" for line in lines)
        least = {}
        for turn in range(TIMES):
            for name, more in (("without", {}), ("with", {"id": "measured"})):
                store = desk(program, folder, f"message-{count}-{turn}-{name}", reports)
                seconds = send(program, store, message, more)
                least[name] = min(least.get(name, seconds), seconds)
        print(
            f"a message of {count} lines: {least['without']:.3f} s,"
            f" with an id {least['with']:.3f} s: {least['with'] / least['without']:.2f} times",
            flush=True,
        )


def branch(package, versions):
    """A branch of so many versions."""
    names = [f"{package}/{1 + at // 10}.{at % 10}-1" for at in range(versions - 1, -1, -1)]
    return "@branch " + " ".join(names)


def peak(program, store):
    """The most memory of a run that only opens, in megabytes."""
    code = (
        "import resource, subprocess, sys;"
        "subprocess.run(sys.argv[1:], stdin=subprocess.DEVNULL, stdout=subprocess.DEVNULL);"
        "print(resource.getrusage(resource.RUSAGE_CHILDREN).ru_maxrss)"
    )
    words = [sys.executable, "-S", "-c", code, program, f"--store={store}", "run"]
    return int(subprocess.run(words, check=True, capture_output=True).stdout) / 1024


def time_versions(program, folder):
    """Files of 2,000 bugs by the versions of their packages."""
    for versions in VERSIONS:
        script = ["@from ann"]
        for place in range(BUGS // 20):
            script += [branch(f"package-{place}", versions)]
            script += [f"@report package-{place} 1.0-1 normal does not start"] * 20
        store = desk(program, folder, f"versions-{versions}", script)
        size = os.path.getsize(store) / 2**20
        print(
            f"{BUGS} bugs in packages of {versions} versions: {size:.1f} MB,"
            f" opened in {best(program, store, []):.3f} s with {peak(program, store):.0f} MB",
            flush=True,
        )


def answered(program, store, lines):
    """The seconds of each of these lines, each a message, from its writing to its answer."""
    taken = []
    with subprocess.Popen(
            [program, f"--store={store}", "run"], stdin=subprocess.PIPE,
            stdout=subprocess.PIPE) as running:
        for line in lines:
            began = time.perf_counter()
            running.stdin.write(f"{line}\n@from ann\n".encode())
            running.stdin.flush()
            answer = running.stdout.readline() + running.stdout.readline()
            taken.append(time.perf_counter() - began)
            if not answer.startswith(f"> {line}\nOK".encode()):
                raise SystemExit("benchmark: a line was refused")
    return taken


def time_first(program, folder):
    """The first write on many nodes beside the second, where marks stay and where one comes.

    A line before them waits until the desk is open.
    """
    script = ["@from ann"]
    script += [branch(f"package-{place}", 100) for place in range(NODES // 100)]
    script += ["@report package-0 1.0-1 normal does not start"] * SETS
    store = desk(program, folder, "nodes", script)
    for name in ("severity", "found"):
        least = [None, None]
        for turn in range(FIRST_TIMES):
            words = (SEVERITIES[turn % 2], f"{2 + turn}.0-1")[name == "found"]
            lines = ["severity 1 wishlist"] + [f"{name} {bug} {words}" for bug in (2, 3)]
            taken = answered(program, store, lines)
            for place, seconds in enumerate(taken[1:3]):
                least[place] = min(least[place] or seconds, seconds)
        print(
            f"{name} on {NODES} nodes: first {least[0] * 1e3:.2f} ms,"
            f" the second {least[1] * 1e3:.2f} ms",
            flush=True,
        )


def update_once(store):
    """The seconds of one change by a process of Python's sqlite3."""
    code = (
        "import sqlite3, sys; c = sqlite3.connect(sys.argv[1], isolation_level=None);"
        "c.execute('PRAGMA synchronous = FULL'); c.execute('BEGIN IMMEDIATE');"
        "c.execute('UPDATE sets SET severity = ? WHERE set_key ="
        " (SELECT set_key FROM bugs WHERE number = 5)', (int(sys.argv[2]),));"
        "c.execute('COMMIT')"
    )
    taken = []
    for turn in range(TIMES):
        began = time.perf_counter()
        subprocess.run([sys.executable, "-S", "-c", code, store, str(2 + turn % 2)], check=True)
        taken.append(time.perf_counter() - began)
    return min(taken)


def time_words(program, folder):
    """One command in words on desks of several sizes."""
    for count in SIZES:
        script = ["@from ann"] + [
            f"@report package-{bug // 20} 1.0-1 normal does not start" for bug in range(count)
        ]
        store = desk(program, folder, f"words-{count}", script)
        taken = []
        for turn in range(TIMES):
            change = ["severity", "5", SEVERITIES[turn % 2]]
            words = [program, f"--store={store}", "--from=ann", *change]
            began = time.perf_counter()
            subprocess.run(words, check=True, stdout=subprocess.DEVNULL)
            taken.append(time.perf_counter() - began)
        print(
            f"one command in words on {count} bugs: {min(taken):.3f} s"
            f" ({update_once(store):.3f} by Python)",
            flush=True,
        )


def main(program, folder):
    """Prints all figures."""
    for part in (time_sets, time_messages, time_versions, time_first, time_words):
        with tempfile.TemporaryDirectory(dir=folder) as place:
            part(program, place)
    return 0
