"""What tests share: the program, desks in files, servers, and runs of commands."""

import contextlib
import os
import pathlib
import socket
import subprocess
import sys
import tempfile
import threading

COMMANDS = pathlib.Path(__file__).resolve().parent.parent
ROOT = COMMANDS.parent
PROGRAM = ROOT / "crates/bts/out/bts"
TIME_LIMIT = 300
# How often a server is begun that could not be at the port it was given.
TRIES = 5

# The release day of the manual, up to the upload that closes bug 1.
RELEASE_DAY = """@from ann
@branch foo/2.0-1 foo/1.0-2 foo/1.0-1
@report foo 1.0-1 grave crashes at start
@report foo 1.0-2 important loses the last line
@report foo - wishlist needs a manual
close 1 2.0-1
"""
# The same with other packages, and the packages of two suites.
DAY = RELEASE_DAY + """@report bar 3 serious eats <b>all</b> & more
@report zed 7 critical burns
"""
STABLE = "bar 2\nfoo 1.0-2\n"
TESTING = "bar 3\nfoo 2.0-1\nzed 7\n"


def program():
    """The program, which has to be there."""
    if not PROGRAM.is_file():
        raise AssertionError(f"{PROGRAM} is not there: run ./bts or rt ci first")
    return str(PROGRAM)


def run(words, given="", status=0):
    """The output and the error output of a run, which has to end with this status."""
    ran = subprocess.run(
        [str(word) for word in words], input=given if isinstance(given, bytes) else given.encode(),
        capture_output=True, timeout=TIME_LIMIT)
    output, errors = ran.stdout.decode(), ran.stderr.decode()
    if ran.returncode != status:
        raise AssertionError(f"status {ran.returncode} and not {status}: {output}{errors}")
    return output, errors


def command(name):
    """The words that run a command, which leaves nothing in the checkout."""
    return [sys.executable, "-B", str(COMMANDS / name)]


def release(*words, given="", status=0):
    """A run of `release` with the program."""
    return run([*command("release"), f"--program={program()}", *words], given, status)


def make_desk(folder, script, name="desk.db"):
    """The file of a new desk that has taken a script, each line of which has to be good."""
    store = pathlib.Path(folder, name)
    run([program(), f"--store={store}", "init"])
    run([program(), f"--store={store}", "run"], script)
    return store


def written(folder, name, content):
    """A new file with this content."""
    path = pathlib.Path(folder, name)
    path.write_bytes(content if isinstance(content, bytes) else content.encode())
    return path


@contextlib.contextmanager
def folder():
    """A folder that is removed in the end."""
    with tempfile.TemporaryDirectory() as place:
        yield place


def free_port():
    """A port that is free just now."""
    with socket.create_server(("127.0.0.1", 0)) as server:
        return server.getsockname()[1]


def begun_server(store, options):
    """A server of a desk that has told its port, at a port that nobody took meanwhile."""
    for _ in range(TRIES):
        port = free_port()
        words = [program(), f"--port={port}", f"--store={store}", *options, "serve"]
        server = subprocess.Popen(words, stdout=subprocess.PIPE, stderr=subprocess.DEVNULL)
        if server.stdout.readline():
            return port, server
        server.wait()
        server.stdout.close()
    raise AssertionError(f"no server of {store} after {TRIES} tries")


@contextlib.contextmanager
def server_of(store, *options):
    """A server of a desk, which ends with the block: its port, and its process."""
    port, server = begun_server(store, options)
    try:
        yield port, server
    finally:
        server.terminate()
        server.wait()
        server.stdout.close()


@contextlib.contextmanager
def served(store, *options):
    """The port of a server of a desk, which ends with the block."""
    with server_of(store, *options) as (port, _):
        yield port


def hand_on(source, target):
    """Hands on all bytes of a socket to another."""
    with contextlib.suppress(OSError):
        while data := source.recv(65_536):
            target.sendall(data)
        target.shutdown(socket.SHUT_WR)


def serve_socket(server, port):
    """Hands on each connection of a Unix socket to a port, one after another."""
    with contextlib.suppress(OSError):
        while True:
            client = server.accept()[0]
            with client, socket.create_connection(("127.0.0.1", port)) as desk:
                back = threading.Thread(target=hand_on, args=(client, desk), daemon=True)
                back.start()
                hand_on(desk, client)
                with contextlib.suppress(OSError):
                    client.shutdown(socket.SHUT_RDWR)
                back.join()


@contextlib.contextmanager
def over_socket(store):
    """The port of a server of a desk, and a Unix socket that leads to it."""
    with folder() as place, served(store) as port, socket.socket(socket.AF_UNIX) as server:
        path = os.path.join(place, "desk.socket")
        server.bind(path)
        server.listen()
        thread = threading.Thread(target=serve_socket, args=(server, port), daemon=True)
        thread.start()
        yield port, path
        server.shutdown(socket.SHUT_RDWR)
        thread.join()


@contextlib.contextmanager
def answering(answer):
    """The port of something that answers each connection with these bytes, or not at all.

    A function is called for the bytes of each answer.
    """
    with socket.create_server(("127.0.0.1", 0)) as server:
        thread = threading.Thread(target=answer_all, args=(server, answer), daemon=True)
        thread.start()
        try:
            yield server.getsockname()[1]
        finally:
            server.shutdown(socket.SHUT_RDWR)
            thread.join()


def answer_all(server, answer):
    """Answers connections until the server is shut down; keeps those open that get no answer."""
    kept = []
    with contextlib.suppress(OSError):
        while True:
            connection = server.accept()[0]
            kept.append(connection)
            if answer is not None:
                connection.recv(10_000)
                connection.sendall(answer() if callable(answer) else answer)
                connection.close()
    for connection in kept:
        connection.close()
