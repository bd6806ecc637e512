"""Tests of `mail`: what each address means, what is kept, and what is answered."""

import contextlib
import email.utils
import json
import mailbox
import os
import pathlib
import subprocess
import unittest

import desks
from mail_runs import ANN, DAY, DOMAIN, Gateway, fixture, folder, forked, written

REPORT = """Package: foo
Version: 1.0-2
Severity: serious
Tags: patch, upstream
Owner: bob@example.org
Forwarded: https://upstream.example/7
Affects: bar
Control: retitle -1 loses both lines
Control: clone -1 -1
Control: severity -1 minor

It loses them.
"""
# Each address, the lines of its mail, and what the page of bug 1 says then.
ADDRESSES = (
    ("1", "It does.", {"State": "open", "Forwarded": "-"}),
    ("1-quiet", "Control: severity -1 minor\n\nIt does.", {"Severity": "minor"}),
    ("1-maintonly", "Control: tags -1 + help\n\nIt does.", {"Tags": "help"}),
    ("1-submitter", "Control: owner -1 !\n\nIt does.", {"Owner": f"Ann Maintainer <{ANN}>"}),
    ("1-forwarded", "Please look.", {"Forwarded": "upstream@example.net, bob@example.org"}),
    ("1-done", "Version: 2.0-1\n\nMended.", {"State": "done", "Fixed": "foo/2.0-1"}),
    ("1-close", "Mended.", {"State": "done", "Fixed": "foo/2.0-1"}),
    ("1+any-thing", "It does.", {"State": "done"}),
)
SENDER = "Ann Maintainer <ann@example.org>"


class Case(unittest.TestCase):
    """A test with a desk and a gateway of its own."""

    def setUp(self):
        place = folder()
        self.gateway = Gateway(place.name)
        self.addCleanup(place.cleanup)

    def assert_page(self, number, wanted):
        """The page of a bug says this."""
        page = self.gateway.page(number)
        self.assertEqual({name: page.get(name) for name in wanted}, wanted)


class Taken(Case):
    """Mails that are carried out."""

    def test_report(self):
        """A report is a bug with what its pseudo-headers say, once however often it comes."""
        data = written(SENDER, "foo: loses the last line", REPORT, "m1")
        self.assertEqual(self.gateway.take(data, "submit"), "taken: bug 4")
        self.assert_page(4, {
            "Title": "loses both lines", "Package": "foo", "Severity": "serious",
            "Submitter": SENDER, "Owner": "bob@example.org", "Tags": "patch upstream",
            "Forwarded": "https://upstream.example/7", "Affects": "bar", "Found": "foo/1.0-2"})
        self.assert_page(5, {"Title": "loses both lines", "Severity": "minor"})
        self.assertEqual(self.gateway.said(4), (1, 1))
        self.assertEqual(self.gateway.said(5), (1, 1))
        for to in ("submit", "bugs", "SUBMIT+x@BUGS.EXAMPLE"):
            self.assertEqual(self.gateway.take(data, to), "taken before")
        self.assertEqual((self.gateway.count(), self.gateway.said(4)), (5, (1, 1)))

    def test_answer(self):
        """The answer goes to the envelope's sender alone, and says what was done."""
        data = written(SENDER, "foo: loses it", REPORT, "m1", "References: <a@b>",
                       "Reply-To: eve@example.org")
        self.gateway.take(data, "submit", sender="envelope@example.org")
        answer = self.gateway.answer()
        wanted = {
            "To": "envelope@example.org", "Subject": "Bug#4: foo: loses it",
            "Reply-To": f"4@{DOMAIN}", "In-Reply-To": "<m1@example.org>",
            "References": "<a@b> <m1@example.org>", "Auto-Submitted": "auto-replied",
            "Precedence": "bulk", "Cc": None, "Bcc": None}
        self.assertEqual({name: answer[name] for name in wanted}, wanted)
        self.assertTrue(answer.get_content().startswith(
            "Bug 4 is reported in foo.\n\n> tags 4 + patch upstream\nOK 4\n"))
        self.assertIsNotNone(email.utils.parsedate(answer["Date"]))

    def test_addresses(self):
        """Each address of a bug means what the manual says, and its mail is kept."""
        head = ("To: upstream@example.net, 1-forwarded@bugs.example, Bob <bob@example.org>",)
        for place, (to, text, wanted) in enumerate(ADDRESSES, 1):
            told = self.gateway.take(written(SENDER, "x", text, f"m{place}", *head), to)
            self.assertEqual(told, "taken: bug 1", to)
            self.assert_page(1, wanted)
            self.assertEqual(self.gateway.said(1)[0], place)
        self.assertEqual(len(self.gateway.answers()), 1)
        reply = written("up@example.net", "Re: x", "No.", "r1", f"To: {ANN}")
        self.gateway.take(reply, "1-forwarded")
        self.assert_page(1, {"Forwarded": "upstream@example.net, bob@example.org"})

    def test_control(self):
        """Commands are carried out up to the word that ends them, and kept with what they changed.
        """
        text = ("# none\n\nseverity 1 minor\nmerge 2 3\nnonsense\n tags 2 + help \nThank You\n"
                "close 1\n")
        data = written(SENDER, "hello", text, "m1")
        self.assertEqual(self.gateway.take(data, "control"), "taken")
        wanted = ["> severity 1 minor", "OK 1", "> merge 2 3", "NO bug 3 differs in severity",
                  "> nonsense", "NO unknown command", "> tags 2 + help", "OK 2",
                  "> Thank You", "Stopped."]
        answer = self.gateway.answer()
        self.assertEqual(answer.get_content().split("\n")[1:len(wanted) + 1], wanted)
        self.assertEqual(answer["subject"], "Re: hello")
        self.assertEqual([self.gateway.said(it) for it in (1, 2, 3)], [(1, 1), (1, 1), (0, 0)])
        (transcript,) = (it for it in self.gateway.kept(2) if it["x-boxhumilwa"])
        text = transcript.get_payload(decode=True).decode()
        self.assertEqual(text.split("\n")[0], f"{SENDER} to control@:")
        self.assertEqual(text.split("\n")[2:len(wanted) + 2], wanted)

    def test_both(self):
        """A mail to a bug with a copy to control does both, and each once."""
        data = written(SENDER, "x", "Control: tags -1 + help\nseverity 1 minor\nthanks\n", "m1")
        for _ in range(2):
            self.gateway.take(data, "1")
            self.gateway.take(data, "control")
        self.assert_page(1, {"Severity": "minor", "Tags": "help"})
        self.assertEqual(self.gateway.said(1), (1, 2))

    def test_identity(self):
        """A copied Message-ID silences nobody, and a mail without one comes once."""
        text = "severity 1 minor\n"
        self.gateway.take(written("eve@example.org", "x", text, "same"), "control")
        self.gateway.take(written(SENDER, "x", "tags 1 help\n", "same"), "control")
        self.gateway.take(written("bob@example.org", "x", "tags 1 + patch\n", "same"), "control")
        self.assert_page(1, {"Severity": "minor", "Tags": "help patch"})
        report = written(SENDER, "again", "Package: foo\n\nx\n")
        self.assertEqual(self.gateway.take(report, "submit"), "taken: bug 4")
        windows = report.replace(b"\n", b"\r\n") + b"\r\n"
        self.assertEqual(self.gateway.take(windows, "submit"), "taken before")
        other = written(SENDER, "again", "Package: foo\n\ny\n")
        self.assertEqual(self.gateway.take(other, "submit"), "taken: bug 5")

    def test_served(self):
        """Over a port and a socket the same is done as over a file."""
        data = written(SENDER, "foo: loses it", REPORT, "m1")
        control = written(SENDER, "x", "retitle 1 a, b,\n-1\n.\nrun\nseverity 1 minor,\n", "m2")
        pages = []
        for kind in range(3):
            with folder() as place:
                gateway = Gateway(place)
                with desks.over_socket(gateway.store) as (port, path):
                    if kind:
                        gateway.where = [f"--port={port}", f"--socket={path}"][kind - 1]
                        gateway.take(data, "submit"), gateway.take(control, "control")
                if not kind:
                    gateway.take(data, "submit"), gateway.take(control, "control")
                gateway.where = f"--store={gateway.store}"
                texts = sorted(it.get_content() for it in gateway.answers().values())
                pages.append((gateway.pages(), texts,
                              gateway.rows("SELECT * FROM messages ORDER BY id")))
        self.assertEqual(pages[0], pages[1])
        self.assertEqual(pages[0], pages[2])
        self.assertEqual(len(pages[0][1]), 2)
        wanted = ">  retitle 1 a, b, \nOK 1\n>  -1 \nNO unknown command\n"
        self.assertIn(wanted, "".join(pages[0][1]))

    def test_clients(self):
        """Mails of reportbug, mutt, swaks and a signed one are read as they were meant."""
        packages = desks.written(
            self.gateway.place, "packages", "foo 1.0-1 foo 1.0-1\nbash 5.2.15-2+b8 bash 5.2.15-2\n")
        given = (
            ("reportbug.eml", "submit", {"Package": "bash", "Found": "bash/5.2.15-2",
             "Severity": "important", "Tags": "patch", "Affects": "bar",
             "Title": "loses the last line", "Submitter": "Ann M\u00fcller <ann@desk.internal>"}),
            ("reportbug-attached.eml", "submit", {
                "Title": "eats the first line: \u00e9t\u00e9", "Severity": "grave"}),
            ("swaks-attached.eml", "submit", {"Submitter": "bob@example.org",
             "Found": "foo/1.0-2", "Severity": "minor"}),
            ("mutt-done.eml", "2-done", {"State": "done", "Fixed": "foo/2.0-1"}),
            ("mutt-attached.eml", "1", {"State": "open"}),
            ("signed-control.eml", "control", {"Severity": "serious", "Tags": "help"}),
        )
        numbers = (4, 5, 6, 2, 1, 1)
        for (name, to, wanted), number in zip(given, numbers):
            self.gateway.take(fixture(name), to, f"--packages={packages}")
            self.assert_page(number, wanted)
            self.assertEqual(self.gateway.said(number)[0], 2 if to == "control" else 1, name)
        shown = self.gateway.job("show", "1")[1]
        self.assertIn("\nHere is the log.\n", shown)
        self.assertIn("Part: 'attached.txt', text/plain, 10 bytes\n", shown)
        self.assertIn("Part: '../../etc/passwd', text/plain, 10 bytes",
                      self.gateway.job("show", "6")[1])
        outside = [it for it in self.gateway.place.rglob("*") if "passwd" in it.name]
        self.assertEqual(outside, [])

    def test_bts(self):
        """Each of bts(1)'s commands does what its lines do to another desk."""
        script = DAY + "".join(f"@report foo 1.0-1 normal bug {it}\n" for it in range(4, 7))
        script += "@report foo 1.0-1 normal archived\nclose 7\nfixed 7 1.0-1\n"
        path = desks.written(self.gateway.place, "bts.mbox", fixture("bts.mbox"))
        with contextlib.closing(mailbox.mbox(path)) as box:
            mails = list(box)
        with folder() as place, folder() as other:
            gateway = Gateway(place, script)
            lines = []
            with desks.served(gateway.store) as port:
                gateway.where = f"--port={port}"
                for it in mails:
                    gateway.take(it.as_bytes(), "control")
                    lines += it.get_payload().partition("\nthanks")[0].split("\n")
            self.assertEqual(len({line.split()[0] for line in lines}), 24)
            store = desks.make_desk(other, script)
            sent = "\n".join(["@from Ann Maintainer <ann@example.org>", *lines, ""])
            answers = subprocess.run(
                [desks.program(), f"--store={store}", "run"], input=sent.encode(),
                capture_output=True, check=False).stdout.decode()
            self.assertGreater(answers.count("\nOK"), 20)
            gateway.where = f"--store={gateway.store}"
            by_hand = Gateway.__new__(Gateway)
            by_hand.store, by_hand.where = store, f"--store={store}"
            self.assertEqual(gateway.pages(), by_hand.pages())
            self.assertEqual(len(gateway.pages()), 8)


class Shown(Case):
    """What is kept, as it is shown."""

    def test_mbox(self):
        """Another reader has the same mails of the mbox, whatever they say."""
        text = "From here on.\n>From there on.\n\x1b[2J\n"
        self.gateway.take(written(SENDER, "\u202ex", text, "m1"), "1")
        self.gateway.take(written(SENDER, "y", "severity 1 minor\n", "m2"), "control")
        status, output, _ = self.gateway.job("mbox", "1")
        path = pathlib.Path(self.gateway.place, "mbox")
        path.write_text(output)
        with contextlib.closing(mailbox.mbox(path)) as box:
            mails = list(box)
        self.assertEqual((status, len(mails)), (0, 3))
        self.assertEqual(
            mails[0].get_payload(), ">From here on.\n>>From there on.\n\x1b[2J\n")
        self.assertEqual([it["subject"] for it in mails[1:]], ["y", "What a mail changed"])
        self.assertIn("OK 1\n", mails[2].get_payload())

    def test_show(self):
        """Nothing that is shown steers a terminal."""
        text = "a \x1b[2J \u202e b\n"
        self.gateway.take(written(SENDER, "\u202ex\x9b", text, "m1"), "1")
        status, output, errors = self.gateway.job("show", "1")
        self.assertEqual((status, errors), (0, ""))
        self.assertTrue(output.replace("\n", "").isprintable())
        self.assertIn("a \\x1b[2J \\u202e b\n", output)
        told = json.loads(self.gateway.job("--json", "show", "1")[1])
        self.assertEqual(told["text"], text)

    def test_none(self):
        """A bug with which nothing is kept has the status of a refusal."""
        self.gateway.take(written(SENDER, "x", "it does", "m1"), "1")
        for words, status in ((("show", "2"), 1), (("mbox", "#3"), 1), (("show",), 2),
                              (("show", "../1"), 2), (("check", "1"), 2), (("mbox", "0"), 2),
                              (("show", "1", "--frob"), 2), (("check",), 0), (("show", "1"), 0)):
            found, output, errors = self.gateway.job(*words)
            self.assertEqual((found, errors.count("\n")), (status, 1 if status else 0), words)
            self.assertEqual(bool(output), status == 0)
        self.assertEqual(forked(["--folder=/none", "check"])[0], 3)

    def test_entry(self):
        """The command itself takes its recipient and its sender from the environment."""
        words = [*desks.command("mail"), self.gateway.where, f"--program={desks.program()}",
                 f"--folder={self.gateway.folder}"]
        data = written(SENDER, "x", "severity 1 minor", "m1")
        for variables, status in (
            ({}, 75), ({"RECIPIENT": f"control@{DOMAIN}", "SENDER": "ann@example.net"}, 0),
        ):
            ran = subprocess.run(
                words, input=data, capture_output=True, env=os.environ | variables, check=False)
            self.assertEqual((ran.returncode, ran.stderr.count(b"\n")), (status, status // 75))
        self.assertEqual(self.gateway.answer()["to"], "ann@example.net")


if __name__ == "__main__":
    unittest.main()
