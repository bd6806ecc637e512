"""Times the program over desks in files, for `./benchmark --stored`.

First commits a second: each line that changes the desk is one, in a script of reports and commands.
Then the seconds in which a desk of so many bugs is opened, and what a list of 20 bugs and a page
take on it, opening left out.
Beside them stand the figures of Python's sqlite3 on the same tables, with a log and full syncs.
Each is the best of five runs, which take turns.
"""

import collections
import os
import shutil
import sqlite3
import subprocess
import tempfile
import time

SIZES = (1_000, 10_000, 50_000)
PER_PACKAGE = 20
QUESTIONS = 5_000
TIMES = 5
MEMORY = "/dev/shm"


def run(program, store, script):
    """The seconds of a run on a script, and the lines that it wrote."""
    with tempfile.TemporaryFile() as given, tempfile.TemporaryFile() as taken:
        given.write("".join(f"{line}\n" for line in script).encode())
        given.seek(0)
        began = time.perf_counter()
        words = [program, f"--store={store}", "run"]
        subprocess.run(words, stdin=given, stdout=taken, check=True)
        seconds = time.perf_counter() - began
        taken.seek(0)
        return seconds, taken.read().splitlines()


def quickest(program, store, script):
    """The least seconds of a run on a script that changes nothing."""
    return min(run(program, store, script)[0] for _ in range(TIMES))


def make(program, store):
    """Makes a desk."""
    subprocess.run(
        [program, f"--store={store}", "init"], check=True, stdout=subprocess.DEVNULL
    )


# The program.


def time_commits(program, folder, script):
    """Commits a second of a script: a line that changes nothing has none."""
    store = os.path.join(folder, "lines")
    make(program, store)
    opened = quickest(program, store, [])
    seconds, answers = run(program, store, script)
    if any(line.startswith(b"NO ") for line in answers):
        raise SystemExit("benchmark: a line was refused")
    commits = sum(line.startswith(b"OK") and line != b"OK, no change." for line in answers)
    return commits / (seconds - opened)


def reports(count):
    """A script that reports so many bugs, 20 a package, each package with a branch."""
    yield "@from ann"
    for bug in range(count):
        package = f"package-{bug // PER_PACKAGE}"
        if bug % PER_PACKAGE == 0:
            yield f"@branch {package}/2.0-1 {package}/1.0-1"
        yield f"@report {package} 1.0-1 normal does not start"


def desk_of(program, folder, count):
    """The file of a desk of so many bugs, made in memory and copied."""
    with tempfile.TemporaryDirectory(dir=MEMORY) as place:
        store = os.path.join(place, "desk")
        make(program, store)
        run(program, store, list(reports(count)))
        return shutil.copy(store, os.path.join(folder, f"desk-{count}"))


def time_questions(program, store, count):
    """The seconds to open a desk of so many bugs, and those of a list and a page on it."""
    packages = [place * (count // PER_PACKAGE) // QUESTIONS for place in range(QUESTIONS)]
    lists = [f"@list package-{package} 2.0-1" for package in packages]
    pages = [f"@show {1 + place * count // QUESTIONS}" for place in range(QUESTIONS)]
    opened = quickest(program, store, [])
    told = [(quickest(program, store, script) - opened) / QUESTIONS for script in (lists, pages)]
    return opened, *told


# Python's sqlite3 beside it.


def connect(store):
    """A connection to the tables of a desk, whose commits are synced."""
    connection = sqlite3.connect(store, isolation_level=None)
    connection.execute("PRAGMA journal_mode = WAL")
    connection.execute("PRAGMA synchronous = FULL")
    return connection


def write_report(connection, number, package):
    """A report, as rows."""
    connection.execute("BEGIN IMMEDIATE")
    connection.execute(
        "INSERT INTO sets VALUES (?, ?, 4, 0, NULL, NULL, 0, 0)", (number, package)
    )
    connection.execute(
        "INSERT INTO bugs VALUES (?, ?, 'does not start', 'ann')", (number, number)
    )
    connection.execute(
        "INSERT INTO marks VALUES (?, 0, ?, '1.0-1')", (number, package)
    )
    connection.execute("UPDATE meta SET next = ? WHERE id = 1", (number + 1,))
    connection.execute("COMMIT")


def write_severity(connection, number, severity):
    """A change of severity, as the desk writes it: bugs and marks stay, and the rest is put anew."""
    connection.execute("BEGIN IMMEDIATE")
    (key,) = connection.execute(
        "SELECT set_key FROM bugs WHERE number = ?", (number,)
    ).fetchone()
    kept = {
        table: connection.execute(f"SELECT * FROM {table} WHERE set_key = ?", (key,)).fetchall()
        for table in ("sets", "blocks", "affects")
    }
    kept["sets"] = [(*row[:2], severity, *row[3:]) for row in kept["sets"]]
    for table, rows in kept.items():
        connection.execute(f"DELETE FROM {table} WHERE set_key = ?", (key,))
        for row in rows:
            values = ", ".join("?" * len(row))
            connection.execute(f"INSERT INTO {table} VALUES ({values})", row)
    connection.execute("COMMIT")


def time_rows(program, folder, count):
    """Commits a second of a quarter of reports and changes of them, by Python's sqlite3."""
    store = os.path.join(folder, "rows")
    make(program, store)
    connection = connect(store)
    bugs = count // 4
    began = time.perf_counter()
    for number in range(1, bugs + 1):
        write_report(connection, number, f"package-{(number - 1) // PER_PACKAGE}")
    for place in range(count - bugs):
        write_severity(connection, 1 + place % bugs, place % 7)
    seconds = time.perf_counter() - began
    connection.close()
    return count / seconds


LIST = """SELECT number, severity, title FROM sets JOIN bugs USING (set_key)
    LEFT JOIN nearest ON nearest.set_key = sets.set_key
      AND nearest.source = ?1 AND nearest.version = '2.0-1'
    WHERE package = ?1 AND archived = 0
      AND coalesce(kind, EXISTS (SELECT 1 FROM marks
        WHERE marks.set_key = sets.set_key AND marks.kind = 0)) = 0
    ORDER BY severity, number"""


def time_list(store, count):
    """The seconds of a list, by Python's sqlite3."""
    connection = connect(store)
    packages = [place * (count // PER_PACKAGE) // QUESTIONS for place in range(QUESTIONS)]
    began = time.perf_counter()
    for package in packages:
        rows = connection.execute(LIST, (f"package-{package}",)).fetchall()
        if len(rows) != PER_PACKAGE:
            raise SystemExit("benchmark: a list of other bugs")
    seconds = time.perf_counter() - began
    connection.close()
    return seconds / QUESTIONS


def most_commits(programs, folder, script):
    """The most commits a second of some programs and of Python's sqlite3, which take turns."""
    most = collections.Counter()
    for _ in range(TIMES):
        for name in [*programs, "Python's sqlite3"]:
            with tempfile.TemporaryDirectory(dir=folder) as own:
                if name in programs:
                    commits = time_commits(name, own, script)
                else:
                    commits = time_rows(programs[0], own, len(script))
            most[name] = max(most[name], commits)
    return most


def main(programs, folder, script):
    """Prints the lines a second of some programs, and all figures of the first."""
    program = programs[0]
    with tempfile.TemporaryDirectory(dir=folder) as place:
        for name, commits in most_commits(programs, place, script).items():
            print(f"{name}: {commits:.0f} commits a second", flush=True)
        for count in SIZES:
            store = desk_of(program, place, count)
            opened, listed, shown = time_questions(program, store, count)
            size = os.path.getsize(store) / 2**20
            print(
                f"{count} bugs, {size:.1f} MB: opened in {opened:.3f} s,"
                f" a list in {listed * 1e6:.0f} us ({time_list(store, count) * 1e6:.0f} by Python),"
                f" a page in {shown * 1e6:.0f} us",
                flush=True,
            )
    return 0
