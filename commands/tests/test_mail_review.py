"""Tests of `mail` over what one mail could do to others: to its answer, and to later mails."""

import contextlib
import email
import email.policy
import sqlite3
import unittest

import desks
from boxhumilwa import mail_answers, mail_flowed, mail_reading
from mail_runs import ANN, Gateway, folder, written

SENDER = "Ann Maintainer <ann@example.org>"
GOOD = "Package: foo\nTags: patch\n\nIt breaks.\n"
# Words that are decoded once become these, and twice a header of their own.
TWICE = "=?utf-8?q?hi=0D=0ABcc:_victim@x.org=0D=0A=0D=0Abody?="
HEADERS = {"from", "to", "subject", "reply-to", "date", "message-id", "in-reply-to", "references",
           "auto-submitted", "precedence", "x-boxhumilwa", "content-type",
           "content-transfer-encoding", "mime-version"}


def encoded(text):
    """A text as one encoded word."""
    return "=?utf-8?q?" + "".join(f"={it:02X}" for it in text.encode()) + "?="


class Case(unittest.TestCase):
    """A test with a desk and a gateway of its own."""

    def setUp(self):
        place = folder()
        self.gateway = Gateway(place.name)
        self.addCleanup(place.cleanup)

    def texts(self):
        """The bytes of all that the gateway wrote itself."""
        paths = [*(self.gateway.folder / "out").glob("*.eml"),
                 *self.gateway.folder.glob("bugs/*/*/new/*transcript*")]
        return [path.read_bytes() for path in paths]


class Headers(Case):
    """What a mail says in its headers, in the mails that are written."""

    def test_twice(self):
        """What is an encoded word once it is decoded stays what it is, in every header."""
        given = (
            (encoded(TWICE), "<m1@example.org>", SENDER),
            ("x", "<=?utf-8?q?=0D=0ABcc:victim@x.org?=>", SENDER),
            ("x", "<a=?utf-8?b?" + "DQpCY2M6IHZpY3RpbUB4Lm9yZw==" + "?=@x>", SENDER),
            ("y", "<m2@example.org>", f"{encoded(TWICE)} <ann@example.org>"),
            ("y", "<m3@example.org>", "<=?utf-8?q?=0D=0ABcc=3Avictim@x.org>"),
            ("z\rBcc: victim@x.org\x0bX: y\x85Bcc: z\u2028Bcc: z", "<m4@example.org>", SENDER),
            (encoded("\ud7ff" + TWICE * 20), "<m5@example.org>", SENDER),
        )
        for title, identity, sender in given:
            data = written(sender, title, GOOD, "", f"Message-ID: {identity}",
                           f"References: {identity} <b@c>")
            self.gateway.take(data, "submit")
            self.gateway.take(data, "1-frobbed")
        texts = self.texts()
        self.assertGreater(len(texts), 2 * len(given))
        for data in texts:
            for policy in (email.policy.default, email.policy.compat32):
                read = email.message_from_bytes(data, policy=policy)
                self.assertLessEqual({name.lower() for name in read.keys()}, HEADERS, data)
                self.assertNotIn("victim", str(read["message-id"]) + str(read["references"]))
            self.assertTrue(data.isascii())
        titles = [title for title, in self.gateway.rows("SELECT title FROM bugs")]
        self.assertIn(TWICE, titles)
        subjects = list(self.gateway.answers())
        self.assertTrue(any("=?utf-8?q?hi=0D=0ABcc:_victim" in it for it in subjects), subjects)

    def test_broken_words(self):
        """A title of broken encoded words is answered once its bug is made."""
        for place, title in enumerate((
            b"x\xc3\xa9;=?utf-8?b?=0A?==?us-ascii?q?", b"=?utf-8?b?=0A?=\xff", b"=?=?=?q?=",
            b"=?us-ascii?q?=E9=E9?= \xed\xa0\x80", b"\xf0\x9f\x98\x80" * 60 + b"=?utf-8?q?",
        ), 4):
            data = b"From: ann@example.org\nMessage-ID: <%d@x>\nSubject: " % place + title
            data += b"\n\n" + GOOD.encode()
            self.assertEqual(self.gateway.take(data, "submit"), f"taken: bug {place}")
            self.assertEqual(len(self.texts()), 2 * (place - 3))

    def test_fault(self):
        """Where an answer can't be written, it is written without what it takes from the mail."""
        real = mail_answers.message

        def begin():
            def message(text, headers):
                if "odd" in text + str(headers):
                    raise UnicodeEncodeError("ascii", "x", 0, 1, "odd")
                return real(text, headers)
            mail_answers.message = message

        data = written(SENDER, "odd", GOOD, "odd")
        status, output, errors = self.gateway.give(data, "submit", begin=begin)
        self.assertEqual((status, output, errors), (0, "taken: bug 4\n", ""))
        self.assertEqual((self.gateway.answer()["to"], self.gateway.said(4)), (ANN, (1, 1)))


class Answers(Case):
    """How many answers one sender gets."""

    def noted(self, script):
        """Changes the journal."""
        with contextlib.closing(sqlite3.connect(self.gateway.folder / "journal.db")) as journal:
            journal.executescript(script)

    def test_again(self):
        """A refused mail that comes again is answered 50 times in an hour, and then held."""
        data = b"From: auto@example.org\nContent-Type: text/html\n\n<p>I am away"
        self.assertIn("refused", self.gateway.take(data, "control"))
        self.noted("INSERT INTO answers SELECT sender, time FROM answers, json_each("
                   f"'{[0] * 48}'); INSERT INTO answers SELECT sender, time - 3600 FROM answers")
        self.assertIn("refused", self.gateway.take(data, "control"))
        self.assertEqual(self.gateway.answer()["to"], ANN)
        for _ in range(2):
            self.assertIn("held: ", self.gateway.take(data, "control"))
        self.assertEqual((self.gateway.answers(), len(self.gateway.held())), ({}, 1))
        self.assertIn("refused", self.gateway.take(data, "control", sender="bob@example.org"))
        self.assertEqual(self.gateway.answer()["to"], "bob@example.org")
        self.noted("UPDATE answers SET time = time - 3600")
        self.assertIn("refused", self.gateway.take(data, "control"))
        self.assertEqual(self.gateway.held(), [])

    def test_machines(self):
        """What no person sent gets no answer, by its sender or by any of its headers."""
        senders = ("owner-list", "list-request", "list-bounces", "List-Bounce", "list-owner",
                   "MAILER-DAEMON", "list-bounces+ann=example.org")
        headers = ("List-Id: <a.b>", "X-Auto-Response-Suppress: All", "Precedence: bulk (x)",
                   "Precedence: auto_reply", "Precedence: Junk; x",
                   "Precedence: x\nPrecedence: list", "Auto-Submitted: No, yes",
                   "Auto-Submitted: no\nAuto-Submitted: auto-replied",
                   "Auto-Submitted: auto-generated (x)")
        for place, sender in enumerate(senders):
            data = written(SENDER, "x", "x", f"s{place}")
            told = self.gateway.take(data, "submit", sender=f"{sender}@example.org")
            self.assertIn("held: ", told, sender)
        for place, header in enumerate(headers):
            told = self.gateway.take(written(SENDER, "x", "x", f"h{place}", header), "submit")
            self.assertEqual(told.startswith("held: "), "No, yes" not in header, header)
        for place, sender in enumerate(("owner", "request", "bouncer-x", "no-requests")):
            data = written(SENDER, "x", "x", f"p{place}", "Auto-Submitted: no (by hand)")
            told = self.gateway.take(data, "submit", sender=f"{sender}@example.org")
            self.assertIn("refused: ", told, sender)

    def test_older_journal(self):
        """A journal in which no answers are counted yet is gone on with."""
        data = written(SENDER, "x", GOOD, "m1")
        self.gateway.take(data, "submit")
        self.noted("DROP TABLE answers; PRAGMA user_version = 1")
        self.assertEqual(self.gateway.take(data, "submit"), "taken before")
        self.assertEqual(self.gateway.take(written(SENDER, "x", "y", "m2"), "1"), "taken: bug 1")
        self.assertEqual((len(self.gateway.answers()), self.gateway.count()), (2, 4))


class Read(Case):
    """What a mail is read as."""

    def test_without_message_id(self):
        """Mails of another Subject or Date are others, and the same one comes once."""
        given = [written(SENDER, title, GOOD, "", *headers) for title, headers in (
            ("crash at start", ()), ("crash at end", ()), ("crash at end", ("Date: Mon",)),
            ("crash at end", ("Date: Tue",)))]
        for place, data in enumerate(given, 4):
            self.assertEqual(self.gateway.take(data, "submit"), f"taken: bug {place}")
        folded = given[0].replace(b"crash at", b"crash\n at").replace(b"\n", b"\r\n")
        for data in (*given, folded):
            self.assertEqual(self.gateway.take(data, "submit"), "taken before")
        for date in "12":
            self.gateway.take(written(SENDER, "ping", "Any news?", "", f"Date: {date}"), "1")
        self.assertEqual(self.gateway.said(1), (2, 0))

    def test_parts(self):
        """An attachment is not carried out, and an empty part hides no other one."""
        part = "Content-Type: text/plain\n{}\n{}\n--b\n"
        attached = "Content-Disposition: ATTACHMENT; filename=x\n"
        head = "Content-Type: multipart/mixed; boundary=b"
        given = (
            (part.format(attached, "severity 1 minor"), "refused", "grave"),
            (part.format("", " \n") + part.format(attached, "severity 1 minor"), "refused",
             "grave"),
            (part.format("", " \n") + part.format("", "severity 1 normal"), "taken", "normal"),
            (part.format(attached, "severity 1 minor") + part.format("", "severity 1 serious"),
             "taken", "serious"),
        )
        for place, (text, told, severity) in enumerate(given):
            data = written(SENDER, "x", f"--b\n{text}", f"m{place}", head)
            self.assertTrue(self.gateway.take(data, "control").startswith(told), text)
            self.assertEqual(self.gateway.page(1)["Severity"], severity, text)
        data = b"From: a@example.org\n" + attached.encode() + b"\nseverity 1 minor\n"
        self.assertIn("refused", self.gateway.take(data, "control"))

    def test_blank_lines(self):
        """A byte order mark and blank lines before the first line hide it not."""
        signed = "-----BEGIN PGP SIGNED MESSAGE-----\nHash: SHA512\n\n"
        for place, start in enumerate(("\ufeff", "\ufeff\n", " \n\t\n\n", "\n\ufeff", "\r\n \r\n",
                                       f"\ufeff \n{signed} \n"), 4):
            data = written(SENDER, "x", f"{start}{GOOD}", f"b{place}",
                           "Content-Type: text/plain; charset=utf-8")
            self.assertEqual(self.gateway.take(data, "submit"), f"taken: bug {place}", start)

    def test_flowed(self):
        """A command that a client has broken over lines is one again."""
        for text, delsp, wanted in (
            ("a \nb \n c\nd \n\ne", False, "a b c\nd \ne"), ("a  \nb", True, "a b"),
            ("a \n> q \n> r\n  b \n-- \nx", False, "a \n> q \n> r\n b \n-- \nx"),
            (" >x \n From y", False, ">x From y"), ("", False, ""), ("\n\n", True, "\n\n"),
        ):
            self.assertEqual(mail_flowed.unflowed(text, delsp), wanted, text)
        head = "Content-Type: text/plain; charset=us-ascii; format={}; delsp={}"
        for place, (shape, delsp, title) in enumerate((
            ("Flowed", "no", "loses both lines"), ("flowed", "Yes", "loses bothlines"),
            ("fixed", "no", "loses both"),
        )):
            data = written(SENDER, "x", "retitle 1 loses both \nlines\n", f"f{place}",
                           head.format(shape, delsp))
            self.gateway.take(data, "control")
            self.assertEqual(self.gateway.page(1)["Title"], title)

    def test_raw_beside_encoded(self):
        """Bytes that are UTF-8 stay what they are beside an encoded word, and a backslash too."""
        for raw, wanted in (
            ("\u00c5ngstr\u00f6m =?utf-8?q?=C3=A9t=C3=A9?=", "\u00c5ngstr\u00f6m \u00e9t\u00e9"),
            ("\u20ac \U0001f600 =?utf-8?q?a?= \u4e2d", "\u20ac \U0001f600 a \u4e2d"),
            (r"C:\users\u0041 =?utf-8?q?a\b?= \N{x} \U99", r"C:\users\u0041 a\b \N{x} \U99"),
            (r"C:\users\u0041 \U99", r"C:\users\u0041 \U99"),
            ("=?a\n \\u?q?x?= =?utf-8?q?y?= \\u12", None),
            ("=??q?x?= \u00e9", "x \u00e9"),
        ):
            found = mail_reading.header_text(
                raw.encode().decode("ascii", errors="surrogateescape"))
            self.assertTrue(found == wanted if wanted else found.encode(), (raw, found))
        sender = "J\u00f6rg =?utf-8?q?=C3=A9?= <ann@example.org>"
        self.gateway.take(written(sender, "\u00e9 =?utf-8?q?=C3=A9?=", GOOD), "submit")
        page = self.gateway.page(4)
        self.assertEqual((page["Title"], page["Submitter"]),
                         ("\u00e9 \u00e9", "J\u00f6rg \u00e9 <ann@example.org>"))


class Versions(Case):
    """Versions as senders write them."""

    def test_report(self):
        """A version may have its package before it."""
        self.gateway.take(written(SENDER, "x", "Package: Foo\nVersion: foo/1.0-2\n\nx"), "submit")
        self.assertEqual(self.gateway.page(4)["Found"], "foo/1.0-2")
        self.assertTrue(self.gateway.answer().get_content().startswith(
            "Bug 4 is reported in foo.\n\nThis answers"))

    def test_done(self):
        """A version that closes is one of the bug's package, where the mail names no other."""
        packages = desks.written(self.gateway.place, "packages", "foo-utils 1:3 foo 2.0-1\n")
        for number, text, fixed, told in (
            (1, "Version: 1.0-2+b1", "foo/1.0-2", "is of the source foo 1.0-2."),
            (2, "Version: 9", "foo/9", "nearest that is known is 2.0-1."),
            (3, "Version: foo-utils/1:3", "foo/2.0-1", "is of the source foo 2.0-1."),
        ):
            self.gateway.take(written(SENDER, "x", text, f"m{number}"), f"{number}-done",
                              f"--packages={packages}")
            page = self.gateway.page(number)
            self.assertEqual((page["State"], page["Fixed"]), ("done", fixed))
            self.assertIn(told, self.gateway.answer().get_content().replace("\n", " "))


if __name__ == "__main__":
    unittest.main()
