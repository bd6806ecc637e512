"""Tests of `mail` over mails that are wrong, hostile or too big, and over mails of machines.

Each ends with 0 or 75, in one line at most, and is answered with what to do, or held whole.
"""

import os
import pathlib
import sqlite3
import unittest
import unittest.mock

import desks
from mail_runs import DAY, DOMAIN, Gateway, folder, forked, written

SENDER = "Ann Maintainer <ann@example.org>"
GOOD = "Package: foo\n\nIt breaks.\n"
NESTED = "".join(
    f"Content-Type: multipart/mixed; boundary=b{it}\n\n--b{it}\n" for it in range(100))
TOO_DEEP = NESTED + "".join(
    f"Content-Type: multipart/mixed; boundary=c{it}\n\n--c{it}\n" for it in range(300))
PARAMETERS = "Content-Type: multipart/mixed; x=\"" + ";" * 200_000 + "\"; boundary=b"
PLAIN = "Content-Type: text/plain; charset="


def mail(*headers, text=GOOD, sender=SENDER, title="x"):
    """The bytes of a mail whose first headers are a sender and a title, where it has them."""
    first = [f"From: {sender}"] if sender is not None else []
    first += [f"Subject: {title}"] if title is not None else []
    lines = "\n".join([*first, *headers, "", text])
    return lines.encode(errors="surrogateescape")


# A mail, its recipient, and a piece of the answer.
REFUSED = (
    (mail(sender=None), "submit", "Its From is missing"),
    (mail(sender="ann"), "submit", "Its From is missing, or is no address"),
    (mail(sender="(" * 5_000 + "a@b"), "submit", "Its From is missing, or is no address"),
    (mail(sender="<" + "a" * 300 + "@example.org>"), "control", "is no address"),
    (mail(text="It breaks.\n"), "submit", "no line `Package:`"),
    (mail(text="Package: foo bar\n\nx\n"), "submit", "'foo bar' is no package's name"),
    (mail(text="Package: ../../etc\n\nx\n"), "submit", "is no package's name"),
    (mail(text="Package: -\n\nx\n"), "submit", "is no package's name"),
    (mail(title=None), "submit", "It has no Subject"),
    (mail(title="=?utf-8?q?=0a?="), "submit", "It has no Subject"),
    (mail("Content-Type: text/html", text="<p>Package: foo"), "submit", "plain text"),
    (mail("Content-Type: text/html", text="<p>close 1"), "control", "plain text"),
    (mail("Content-Type: text/html", text="<p>done"), "1-done", "The bug was not closed."),
    (mail("Content-Type: image/png", text="x"), "submit", "no plain text"),
    (mail(text=""), "submit", "no plain text"),
    (mail(text="\n\n# nothing\n"), "control", "no command in it"),
    (mail(text=TOO_DEEP), "submit", "no line `Package:`"),
    (b"From: ann@example.org\nSubject: x\n" + TOO_DEEP.encode(), "submit", "too many parts"),
    (mail(text=GOOD), "9", "There is no bug 9 here"),
    (mail(text=GOOD), "999999999-done", "There is no bug 999999999 here"),
    (mail(text=GOOD), "nobody", "There is no such address here"),
    (mail(text=GOOD), "../../1", "There is no such address here"),
    (mail(text=GOOD), "1-frobbed", "There is no such address here"),
    (mail(text=GOOD), "0", "There is no such address here"),
    (mail(text=GOOD), "1@x@bugs.example", "There is no such address here"),
    (mail(text="Package: foo\n" + "Control: close -1\n" * 101), "submit", "101 lines Control"),
    (mail(text="Control: close -1\n" * 101), "1", "101 lines Control"),
    (mail(text="retitle 1 " + "x" * 70_000), "control", "may have 65,536"),
    (mail(text="retitle 1 \"\n" * 5_300), "control", "too long"),
    (mail(text="Package: foo\nOwner: " + "\\" * 65_000), "submit", "too long"),
    (mail(text="x" * 10_000_000), "submit", "longer than 10,000,000 bytes"),
    (mail(text="Package: foo\n\n" + "x\n" * 6_000_000), "1", "longer than 10,000,000 bytes"),
)
# A mail, its recipient, and a piece of the answer; it is carried out.
TAKEN = (
    (mail(text=f"Package: foo\n\n{'x' * 1_000_000}\n"), "submit", "Bug 4 is reported in foo."),
    (mail("To: " + ", ".join(f"a{it}@example.net" for it in range(10_000))), "1-forwarded",
     "> forwarded 1 a0@example.net, a1@example.net"),
    (mail(f"{PLAIN}nonsense", text="Package: foo\n\n\udcff\n"), "submit",
     "In its text bytes that are no text were replaced."),
    (mail(f"{PLAIN}unicode_escape", text="retitle 1 \\u0041\n"), "control",
     "> retitle 1 \\u0041\n"),
    (mail(f"{PLAIN}hex", text="severity 1 minor\n"), "control", "OK 1"),
    (mail(f"{PLAIN}a\0b", text="retitle 1 a\x01b\0c\n"), "control", "> retitle 1 a\ufffdb\ufffdc"),
    (mail(f"{PLAIN}utf-7", text="retitle 1 +2AA- x\n"), "control", "OK 1"),
    (mail(title="=?utf-8?q?a=0d=0aBcc:_eve@example.org=0a=0ab?="), "submit", "Bug "),
    (mail(title="=?x?q?" + "=?utf-8?b?" * 3_000), "submit", "The title is cut"),
    (mail(title="\udce9t\udce9 " + "\u00e9" * 200), "submit", "The title is cut"),
    (mail(sender="=?utf-8?q?A=0aBcc=3a_eve=40example.org?= <ann@example.org>"), "submit", "Bug "),
    (mail(sender="\u00e9" * 200 + " <ann@example.org>"), "submit", "Bug "),
    (mail(text="Package: src:Foo\nSeverity: wicked\nVersion: 1_0 x\n\nx\n"), "submit",
     "There is no severity 'wicked'; the bug is normal."),
    (mail(text="Package: foo\nVersion: 1_0\n\nx\n"), "submit",
     "1_0 is no version, and is left out."),
    (mail(text="Package: foo\nOwner: " + "x" * 201), "submit", "NO text too long"),
    (mail(text="Package: foo\nFrob: 1\nX-Debbugs-CC: a@b\n\nx"), "submit",
     "These lines at its beginning mean nothing here: frob.\nCopies"),
    (b"From: ann@example.org\nSubject: x\n" + NESTED.encode() + b"Content-Type: text/plain\n\n"
     b"severity 1 important\n", "control", "OK 1"),
    (mail(PARAMETERS, text="--b\n\nseverity 1 serious\n"), "1", "no plain text"),
    (mail("Content-Type: text/html", text="<p>It breaks"), "1", "plain text"),
    (mail(text="a\n" * 4_990_000), "1", "Your mail is kept with bug 1."),
    (mail("Content-Transfer-Encoding: base64", text="!" * 5_000), "1", "no plain text"),
    (mail("Content-Transfer-Encoding: x-uuencode", text="begin 644 \nM!!"), "1", "bug 1"),
    (mail("X: " + "x" * 1_000_000, "Y\udcc0: \udcff", text="severity 1 grave"), "control", "OK 1"),
)
# Headers of mails that no person sent.
SILENT = ("Auto-Submitted: auto-replied", "Auto-Submitted: auto-generated; x=y", "Precedence: bulk",
          "precedence:  JUNK ", "Precedence: list", "X-Boxhumilwa: answer")


class Case(unittest.TestCase):
    """A test with a desk and a gateway of its own."""

    def setUp(self):
        place = folder()
        self.gateway = Gateway(place.name, DAY)
        self.addCleanup(place.cleanup)

    def give(self, data, to, *options, sender="ann@example.net"):
        """The output of a delivery, which has to end with 0 and tell nothing."""
        status, output, errors = self.gateway.give(data, to, *options, sender=sender)
        self.assertEqual((status, errors), (0, ""), (to, data[:200], errors))
        return output


class Wrong(Case):
    """Mails that are wrong, or hostile."""

    def test_refused(self):
        """Each is answered with what to do, and nothing is done."""
        with desks.served(self.gateway.store) as port:
            self.gateway.where = f"--port={port}"
            for data, to, told in REFUSED:
                self.assertTrue(self.give(data, to).startswith("refused: "), (to, data[:100]))
                answer = self.gateway.answer()
                self.assertIn(told, answer.get_content(), (to, data[:100]))
                self.assertEqual((answer["to"], answer["cc"]), ("ann@example.net", None))
        self.assertEqual(self.gateway.rows("SELECT count(*) FROM messages"), [(0,)])
        self.assertEqual((self.gateway.count(), self.gateway.held()), (3, []))
        self.assertFalse((self.gateway.folder / "bugs").exists())

    def test_taken(self):
        """Each is carried out, as far as it can be read, and answered without a header of its own.
        """
        with desks.served(self.gateway.store) as port:
            self.gateway.where = f"--port={port}"
            for place, (data, to, told) in enumerate(TAKEN):
                data = f"Message-ID: <m{place}@example.org>\n".encode() + data
                given = self.give(data, to)
                self.assertTrue(given.startswith("taken"), (given, to, data[:100]))
                self.assertEqual(len(self.gateway.answers()), 1, (given, data[:100]))
                answer = self.gateway.answer()
                self.assertIn(told, answer.get_content(), (to, data[:100]))
                self.assertEqual((answer["to"], answer["bcc"]), ("ann@example.net", None))
        for number, title in self.gateway.rows("SELECT number, title FROM bugs"):
            self.assertTrue(0 < len(title.encode()) <= 200, number)
        senders = {it for it, in self.gateway.rows("SELECT DISTINCT submitter FROM bugs")}
        self.assertIn("A Bcc: eve@example.org <ann@example.org>", senders)
        self.assertIn("ann@example.org", senders)

    def test_archived(self):
        """What is said about an archived bug is kept, and its sender hears what to do."""
        script = "close 1 2.0-1\nfixed 1 1.0-2\narchive 1\n"
        desks.run([desks.program(), self.gateway.where, "run"], "@from ann\n" + script)
        self.assertEqual(self.give(mail(text="Version: 2.0-1\n\nx"), "1-done"), "taken: bug 1\n")
        text = self.gateway.answer().get_content()
        self.assertIn("send `unarchive 1` to control@ first", text)
        self.assertIn("\nNO bug 1 is archived\n", text)
        self.assertEqual(self.gateway.said(1)[0], 1)

    def test_allow(self):
        """Where addresses are listed, others can say something, and change nothing."""
        allow = desks.written(self.gateway.place, "allow", "# us\n ANN@example.org\n")
        words = f"--allow={allow}"
        eve = "Eve <eve@example.org>"
        self.assertIn("refused", self.give(mail(sender=eve, text="close 1"), "control", words))
        text = "Control: close -1\nPackage: foo\n\nx\n"
        for to in ("1", "1-done", "1-forwarded", "submit"):
            self.assertIn("taken", self.give(
                mail("To: b@example.net", sender=eve, text=text), to, words))
        told = [it.get_content() for it in self.gateway.answers().values()]
        self.assertTrue(all("may send no commands" in it for it in told))
        self.assertEqual(self.gateway.rows("SELECT count(*) FROM messages"), [(0,)])
        self.assertEqual(self.gateway.said(1), (1, 0))
        self.give(mail(text="close 1"), "control", words)
        self.assertEqual(self.gateway.page(1)["State"], "done")


class Silent(Case):
    """Mails that get no answer."""

    def test_machines(self):
        """Mails of machines are held where they are refused, and else taken without an answer."""
        for place, header in enumerate(SILENT):
            self.assertIn("held: ", self.give(mail(header, text=f"x{place}"), "submit"))
            self.assertIn("taken", self.give(mail(header, text=f"{place}"), "1"))
        for sender in ("", "<>", "MAILER-DAEMON", "mailer-daemon@example.org", "no address",
                       f"1-done@{DOMAIN}", "a@b\nBcc: c@d"):
            self.assertIn("held: ", self.give(mail(text=f"x{sender}"), "submit", sender=sender))
        self.assertEqual(self.gateway.answers(), {})
        self.assertEqual(len(self.gateway.held()), len(SILENT) + 7)
        self.assertEqual(self.gateway.said(1), (len(SILENT), 0))
        status, output, _ = self.gateway.job("check")
        self.assertEqual((status, output.count("held: ")), (1, len(SILENT) + 7 + 1))
        self.assertIn("There is no line `Package:` at the beginning of its text. "
                      "(its return path is empty)", output)

    def test_held_whole(self):
        """A mail that is too big and can't be answered is held whole, and once."""
        data = mail(text="y" * 10_500_000)
        for _ in range(2):
            self.assertIn("held", self.give(data, "submit", sender=""))
        (held,) = (self.gateway.folder / "held/new").iterdir()
        self.assertEqual(held.read_bytes(), data)
        self.assertIn("refused", self.give(data, "submit"))
        self.assertEqual(self.gateway.held(), [])
        status, output, errors = self.gateway.give(
            mail(text="z" * 10_500_000), "submit", "--room=10450000", sender="")
        self.assertEqual((status, output, errors.count("\n")), (75, "", 1))
        self.assertIn("make room", errors)

    def test_rate(self):
        """The 51st mail of an hour is kept, and not answered; later ones are again."""
        self.give(mail(text="1"), "1")
        copy = ("INSERT INTO mails SELECT key || ?, state, time - ?, recipient, sender, next, bug, "
                "plan FROM mails LIMIT 1")
        connection = sqlite3.connect(self.gateway.folder / "journal.db")
        with connection:
            connection.executemany(copy, [(place, place) for place in range(48)])
            connection.executemany(copy, [(100 + place, 3_600 + place) for place in range(48)])
        connection.close()
        for text in ("50", "51"):
            self.give(mail(text=text), "1")
        self.give(mail(text="by another"), "1", sender="bob@example.org")
        answers = list((self.gateway.folder / "out").glob("*.eml"))
        self.assertEqual((len(answers), self.gateway.said(1)), (3, (4, 0)))

    def test_return_path(self):
        """Without a sender the answer goes to Return-Path, and to nobody where that is missing."""
        words = self.gateway.words("submit")[:-1]
        variables = {name: value for name, value in os.environ.items() if name != "SENDER"}
        with unittest.mock.patch.dict(os.environ, variables, clear=True):
            for data, told in ((mail("Return-Path: <r@example.org>"), "taken: bug 4\n"),
                               (mail(text="x"), "held: ")):
                status, output, _ = forked(words, data)
                self.assertEqual((status, output[:len(told)]), (0, told))
        self.assertEqual(self.gateway.answer()["to"], "r@example.org")


class Faults(Case):
    """What is no fault of a mail: it is tried again, and nothing is lost."""

    def test_faults(self):
        """No desk, no program, a wrong command line and a wrong folder end with 75 and one line."""
        store = f"--program={desks.program()}"
        there = f"--folder={self.gateway.folder}"
        to, sender = f"--to=submit@{DOMAIN}", "--sender=ann@example.org"
        file = desks.written(self.gateway.place, "file", "x")
        for place, words in enumerate((
            [f"--store={self.gateway.place}/none", store, there, to, sender],
            [f"--port={desks.free_port()}", there, to, sender],
            ["--socket=/none", there, to, sender],
            [self.gateway.where, "--program=/none", there, to, sender],
            [self.gateway.where, "--program=/bin/false", there, to, sender],
            [self.gateway.where, store, f"--folder={file}", to, sender],
            [self.gateway.where, store, f"--folder={file}/x", to, sender],
            [self.gateway.where, store, there, to, sender, "--allow=/none"],
            [self.gateway.where, store, there, to, sender, "--packages=/none"],
            [self.gateway.where, store, there, to, sender, "--room=100"],
            [self.gateway.where, store, there, sender],
            [self.gateway.where, store, there, to, sender, "--frob"],
            [self.gateway.where, store, there, to, sender, "frob"],
            [self.gateway.where, store, to, sender], [], ["take", "1"],
        )):
            data = mail(text=f"Package: foo\nVersion: 1\n\n{place}")
            status, output, errors = forked(words, data)
            self.assertEqual((status, output, errors.count("\n")), (75, "", 1), (words, errors))
        self.assertEqual(self.gateway.count(), 3)
        self.assertEqual(self.give(data, "submit"), "taken: bug 4\n")

    def test_own_fault(self):
        """A bug of ours is one line and 75, and the mail is taken once that is mended."""
        def begin():
            from boxhumilwa import mail_answers
            mail_answers.answer = None

        status, output, errors = self.gateway.give(mail(), "submit", begin=begin)
        self.assertEqual((status, output, errors.count("\n")), (75, "", 1))
        self.assertIn("a fault of this command: TypeError in mail_taking.py:", errors)
        self.assertEqual(self.give(mail(), "submit"), "taken: bug 4\n")
        self.assertEqual((self.gateway.count(), self.gateway.said(4)), (4, (1, 0)))

    def test_lock(self):
        """Of two deliveries one waits, and is tried again where it waits too long."""
        from boxhumilwa import mail_journal

        with mail_journal.locked(str(self.gateway.folder), 1):
            status, _, errors = self.gateway.give(mail(), "submit", "--wait=1")
        self.assertEqual((status, errors.count("\n")), (75, 1))
        self.assertIn("another delivery has it", errors)

    def test_journal(self):
        """A journal that is none, or of a later version, is left alone."""
        self.gateway.folder.mkdir()
        path = pathlib.Path(self.gateway.folder, "journal.db")
        path.write_bytes(b"no database, but long enough to be looked at" * 100)
        status, _, errors = self.gateway.give(mail(), "submit")
        self.assertEqual((status, errors.count("\n"), self.gateway.count()), (75, 1, 3))
        path.unlink()
        self.give(mail(), "submit")
        desks.run(["python3", "-c", "import sqlite3, sys; c = sqlite3.connect(sys.argv[1]); "
                   "c.execute('PRAGMA user_version = 9')", path])
        self.assertEqual(self.gateway.give(mail(text="x"), "1")[0], 75)


class Names(Case):
    """Versions as people have them."""

    def test_versions(self):
        """A binary's version is its source's, and one that no branch knows is told."""
        packages = desks.written(
            self.gateway.place, "packages", "foo-utils 1.0-1 foo 1.0-1\nfoo 1:3 foo 1.0-2\n")
        index = desks.written(self.gateway.place, "Packages", (
            "Package: foo-utils\nVersion: 1.0-1+b1\nSource: foo (1.0-1)\n\n"
            "Package: foo\nVersion: 1:3\nSource: foo (1.0-2)\n"))
        wanted = (
            ("foo-utils", "1.0-1+b1", "foo", "foo/1.0-1"), ("foo", "1:3", "foo", "foo/1.0-2"),
            ("foo-utils", "1.0-1", "foo", "foo/1.0-1"), ("foo", "2.0-1", "foo", "foo/2.0-1"),
            ("foo", "1.0-1+b7", "foo", "foo/1.0-1"), ("foo", "1.5", "foo", "foo/1.5"),
            ("foo-utils", "9", "foo", "foo/9"), ("bar", "1+b1", "bar", "bar/1+b1"))
        number = 3
        for file in (packages, index):
            for place in range(len(wanted)) if file == packages else (0, 1):
                package, version, source, mark = wanted[place]
                number += 1
                text = f"Package: {package}\nVersion: {version}\n\n{file}"
                self.give(mail(text=text), "submit", f"--packages={file}")
                page = self.gateway.page(number)
                self.assertEqual((page["Package"], page["Found"]), (source, mark))
                answer = self.gateway.answer().get_content()
                near = {5: "nearest that is known is 1.0-2", 6: "nearest that is known is 2.0-1",
                        7: "No branch of the desk has the version 1+b1"}.get(place)
                self.assertEqual("so no list" in answer, near is not None, answer)
                self.assertIn(near or "", answer.replace("\n", " "))

    def test_unknown(self):
        """Without a file the desk's branches are asked, and over a server nothing can be said."""
        self.give(mail(text="Package: foo\nVersion: 1.0-2+b1\n\n1"), "submit")
        self.assertIn("is of the source foo 1.0-2.", self.gateway.answer().get_content())
        self.give(mail(text="Package: foo\nVersion: 0.5\n\n2"), "submit")
        self.assertIn("nearest that is known is 1.0-1.", self.gateway.answer().get_content())
        self.give(written(SENDER, "x", "Package: foo-x\nVersion: 1\n\n3"), "submit")
        with desks.served(self.gateway.store) as port:
            self.gateway.where = f"--port={port}"
            self.give(mail(text="Package: foo\nVersion: 0.5\n\n4"), "submit")
        self.assertTrue(any(
            it.get_content().startswith("Bug 7 is reported in foo.\n\nThis answers")
            for it in self.gateway.answers().values()))


if __name__ == "__main__":
    unittest.main()
