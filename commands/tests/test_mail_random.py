"""Tests of `mail` over random and mutated mails, beside a plain reading of what was accepted.

MAILS, which the environment sets, says how many, and SEED which.
Mails of clients, those of Python's own tests where they are installed, and made ones are cut,
joined and changed; each is given to a random address of one desk.
What the journal says was accepted is then sent by hand to another desk, which has to be the same.
"""

import json
import os
import pathlib
import random
import sqlite3
import unittest

import desks
from mail_runs import DAY, MAILS, Gateway, folder, read

COUNT = int(os.environ.get("MAILS", "30"))
SEED = int(os.environ.get("SEED", "3"))
ADDRESSES = ("submit", "bugs", "control", "1", "2-done", "3-quiet", "4", "2-forwarded", "1-close",
             "nobody", "99", "5-submitter", "3+x", "1-maintonly", "")
LINES = (
    "Package: foo", "Package: bar\nVersion: 1.0-2", "Version: 2.0-1", "Severity: grave",
    "Tags: patch help", "Owner: !", "Control: clone -1 -2\nControl: retitle -2 x",
    "Control: tags -1 + help", "Forwarded: a@b", "Affects: bar", "severity 1 minor",
    "close 2 2.0-1", "found 2 3", "merge 1 2", "block 1 by 2, 3", "clone 3 -1\nretitle -1 y",
    "owner 2 !", "@list foo 1", "archive 1", "thanks", "--", "", "-- ", "It does.", "reopen 2 =",
    "tags 1, patch", "\u00e9\u202e",
    "submitter 3 Bob <bob@example.org>", "retitle 3 a, b,", "run", ".", "forwarded 2 x y")
HEADERS = (
    "From: Ann <ann@example.org>", "From: =?utf-8?b?w6k=?= <bob@example.org>", "Subject: crash",
    "Subject: =?iso-8859-1?q?=e9?= x", "Message-ID: <same@example.org>", "MIME-Version: 1.0",
    "Content-Type: text/plain; charset=utf-8", "Content-Type: text/html", "Content-Type: a/b/c;;=",
    "Content-Transfer-Encoding: quoted-printable", "Content-Transfer-Encoding: base64",
    "Content-Type: multipart/mixed; boundary=b", "To: x@example.net, 1@bugs.example",
    "Auto-Submitted: auto-generated", "Return-Path: <>", "References: <a@b> <c@d>", " folded",
    "X-Debbugs-No-Ack: yes", "Precedence: list")


def mails_of_python():
    """The mails of Python's own tests, where they are installed."""
    try:
        import test.test_email
    except ImportError:
        return []
    place = pathlib.Path(test.test_email.__file__).parent / "data"
    return [path.read_bytes() for path in sorted(place.glob("msg_*.txt"))]


def made(chance):
    """A mail of random headers and lines."""
    head = [chance.choice(HEADERS[:2]), chance.choice(HEADERS[2:4])]
    head += chance.sample(HEADERS, chance.randrange(0, 4))
    body = [chance.choice(LINES) for _ in range(chance.randrange(1, 9))]
    return "\n".join([*head, "", *body]).encode()


def mutated(chance, mails):
    """A mail with some bytes or lines cut, moved, doubled or changed."""
    data = bytearray(chance.choice(mails) if chance.random() < 0.6 else made(chance))
    for _ in range(chance.choice((0, 0, 1, 2, 5))):
        start = chance.randrange(len(data) + 1)
        end = min(len(data), start + chance.choice((1, 3, 20, 200)))
        kind = chance.randrange(6)
        if kind == 0:
            del data[start:end]
        elif kind == 1:
            data[start:start] = data[start:end] * chance.choice((1, 9))
        elif kind == 2:
            data[start:end] = bytes(chance.randrange(256) for _ in range(end - start))
        elif kind == 3:
            data[start:start] = f"\n{chance.choice(LINES + HEADERS)}\n".encode()
        elif kind == 4:
            other = made(chance)
            data[start:start] = other[:chance.randrange(len(other))]
        else:
            data[:] = data.replace(b"\n", b"\r\n") if chance.random() < 0.5 else data[:start]
    return bytes(data)


def taken_rows(gateway):
    """The mails that were carried out, by their keys: the bug and the plan of each.

    One that was refused may be carried out when it comes again, so the order is that of the
    deliveries and not that in which the journal first saw them.
    """
    connection = sqlite3.connect(gateway.folder / "journal.db")
    try:
        found = connection.execute(
            "SELECT key, bug, plan FROM mails WHERE state = 'taken'").fetchall()
    finally:
        connection.close()
    return {key: (bug, json.loads(plan)) for key, bug, plan in found}


def by_hand(bug, plan):
    """The script of a mail: its report, and its lines, none of which begins with @."""
    lines = [f"@from {plan['sender']}"]
    if plan["report"]:
        _, *words = plan["report"]
        lines.append("@report " + " ".join(word or "-" for word in words))
    is_taken = False
    for line in plan["lines"]:
        words = line.split()
        if bug is not None and not is_taken and words[1:2] in (["-1"], ["#-1"]):
            line = line.replace(words[1], str(bug), 1)
        is_taken = is_taken or (words[:1] == ["clone"] and "-1" in words[2:])
        lines.append("x" if line.startswith("@") else line)
    return lines


class Random(unittest.TestCase):
    """Mails of all kinds."""

    def test_random(self):
        """Each ends with 0 and without a word, and the desk is as the accepted ones leave it."""
        chance = random.Random(SEED)
        mails = [path.read_bytes() for path in sorted(MAILS.glob("*.eml"))] + mails_of_python()
        kinds, accepted = {}, {}
        with folder() as place, folder() as other:
            gateway = Gateway(place)
            with desks.served(gateway.store) as port:
                gateway.where = f"--port={port}"
                for number in range(COUNT):
                    data, to = mutated(chance, mails), chance.choice(ADDRESSES[:-1])
                    sender = chance.choice(("ann@example.org", f"p{number}@example.org", ""))
                    status, output, errors = gateway.give(data, to, sender=sender)
                    self.assertEqual((status, errors), (0, ""), (SEED, number, to, data))
                    kind = output.partition(":")[0].partition(" ")[0].strip()
                    kinds[kind] = kinds.get(kind, 0) + 1
                    if kind == "taken":
                        accepted |= {
                            key: row for key, row in taken_rows(gateway).items()
                            if key not in accepted}
            gateway.where = f"--store={gateway.store}"
            self.assert_same(gateway, accepted.values(), other)
            self.assert_answers(gateway)
        if "MAILS" in os.environ:
            print(f"of {COUNT} mails: {dict(sorted(kinds.items()))}")
        self.assertTrue({"taken", "refused", "held"} <= set(kinds), kinds)

    def assert_same(self, gateway, accepted, place):
        """The desk is the same as another that took the accepted lines by hand."""
        script = DAY
        for bug, plan in accepted:
            script += "\n".join(by_hand(bug, plan)) + "\n"
        store = desks.make_desk(place, DAY)
        path = desks.written(place, "script", script.removeprefix(DAY))
        os.system(f"{desks.program()} --store={store} run <{path} >{place}/answers")
        hand = Gateway.__new__(Gateway)
        hand.store, hand.where = store, f"--store={store}"
        self.assertEqual(gateway.pages(), hand.pages(), SEED)

    def assert_answers(self, gateway):
        """Each answer goes to one address and has no header that a mail gave it."""
        names = {"From", "To", "Subject", "Reply-To", "Date", "Message-ID", "In-Reply-To",
                 "References", "Auto-Submitted", "Precedence", "X-Boxhumilwa", "Content-Type",
                 "Content-Transfer-Encoding", "MIME-Version"}
        for path in (gateway.folder / "out").glob("*.eml"):
            answer = read(path)
            self.assertLessEqual(set(answer.keys()), names)
            self.assertEqual(len(answer["to"].addresses), 1)
            self.assertTrue(path.read_bytes().isascii())


if __name__ == "__main__":
    unittest.main()
