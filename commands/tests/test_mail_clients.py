"""Tests of `mail` with clients that write mails: bts, mutt, swaks and reportbug.

The gate has what they wrote once, in mails/; here they are run, where CLIENTS is set, and their
mails come by a small server of SMTP.
"""

import os
import pathlib
import shutil
import socketserver
import subprocess
import threading
import unittest

import desks
from mail_runs import DAY, DOMAIN, Gateway, folder

ANN = "Ann Maintainer <ann@example.org>"
# A command of bts, and the line that it stands for.
COMMANDS = tuple(tuple(line.split(" = ")) for line in """
affects 1 + bar = affects 1 + bar
block 1 by 2 = block 1 by 2
unblock 1 by 2 = unblock 1 by 2
clone 2 -1 , retitle -1 another title = clone 2 -1|retitle -1 another title
close 3 2.0-1 = close 3 2.0-1
found 4 2.0-1 = found 4 2.0-1
notfound 4 2.0-1 = notfound 4 2.0-1
fixed 4 2.0-1 = fixed 4 2.0-1
notfixed 4 2.0-1 = notfixed 4 2.0-1
merge 5 6 = merge 5 6
unmerge 5 = unmerge 5
forcemerge 5 6 = forcemerge 5 6
forwarded 1 https://upstream.example/1 = forwarded 1 https://upstream.example/1
notforwarded 1 = notforwarded 1
owner 1 ! = owner 1 !
noowner 1 = noowner 1
reassign 6 bar 3 = reassign 6 bar 3
reopen 3 = reopen 3
retitle 1 a new title = retitle 1 a new title
severity 1 serious = severity 1 serious
submitter 1 bob@example.org = submitter 1 bob@example.org
tags 1 + patch pending = tags 1 + patch pending
tag 1 - pending = tag 1 - pending
archive 7 = archive 7
unarchive 7 = unarchive 7
""".strip().split("\n"))
SCRIPT = DAY + "".join(f"@report foo 1.0-1 normal bug {it}\n" for it in range(4, 7)) + \
    "@report foo 1.0-1 normal archived\nclose 7\nfixed 7 1.0-1\n"
DRAFT = f"""From: {ANN}
To: 2-done@{DOMAIN}
Subject: Re: Bug#2: loses the last line

Version: 2.0-1

It is mended: \u00e9t\u00e9.
"""
MUTT = ("set ssl_starttls=no; set ssl_force_tls=no; set copy=no; set use_from=yes; "
        "set hostname=example.org; set envelope_from_address=ann@example.org; ")


class Server(socketserver.StreamRequestHandler):
    """Takes mails by SMTP, as far as these clients need it."""

    def say(self, line):
        """Answers a line."""
        self.wfile.write(f"{line}\r\n".encode())

    def handle(self):
        """One client."""
        self.say("220 sink")
        self.sender, self.recipients = "", []
        while line := self.rfile.readline().decode(errors="replace").strip():
            word, _, rest = line.partition(" ")
            if word.upper() == "QUIT":
                return self.say("221 bye")
            if word.upper() == "DATA":
                self.say("354 go on")
                self.take()
            self.note(word.upper(), rest)
            self.say("250 good")

    def note(self, word, rest):
        """Notes the envelope."""
        address = rest.partition(":")[2].split(" ")[0].strip("<>")
        if word == "MAIL":
            self.sender, self.recipients = address, []
        if word == "RCPT":
            self.recipients.append(address)

    def take(self):
        """One mail, for each of its recipients at the desk."""
        lines = []
        while (line := self.rfile.readline()) not in (b".\r\n", b""):
            lines.append(line[1:] if line.startswith(b".") else line)
        for address in self.recipients:
            if address.endswith(DOMAIN):
                self.server.told.append(self.server.gateway.take(
                    b"".join(lines), address, sender=self.sender))


class Clients(unittest.TestCase):
    """Clients whose mails a desk takes."""

    def setUp(self):
        place = folder()
        self.addCleanup(place.cleanup)
        self.home = pathlib.Path(place.name, "home")
        self.home.mkdir()
        self.gateway = Gateway(place.name, SCRIPT)
        self.server = socketserver.TCPServer(("127.0.0.1", 0), Server)
        self.server.gateway, self.server.told = self.gateway, []
        thread = threading.Thread(target=self.server.serve_forever, daemon=True)
        thread.start()
        self.addCleanup(thread.join)
        self.addCleanup(self.server.server_close)
        self.addCleanup(self.server.shutdown)
        self.port = self.server.server_address[1]

    def client(self, *words, given=""):
        """Runs a client, which has to end with 0."""
        variables = os.environ | {
            "HOME": str(self.home), "DEBEMAIL": "ann@example.org", "LC_ALL": "C.UTF-8",
            "DEBFULLNAME": "Ann Maintainer", "EMAIL": "ann@example.org", "TERM": "dumb"}
        ran = subprocess.run(
            words, input=given.encode(), capture_output=True, env=variables, check=False,
            timeout=desks.TIME_LIMIT)
        self.assertEqual(ran.returncode, 0, (words, ran.stdout, ran.stderr))

    def bts(self):
        """Each command of bts does what its lines do to another desk."""
        lines = ["@from " + ANN]
        for words, line in COMMANDS:
            self.client("bts", "--no-conf", f"--smtp-host=127.0.0.1:{self.port}",
                        f"--bts-server=http://{DOMAIN}", "--no-interactive", *words.split(" "))
            lines += [*line.split("|"), f"@from {ANN}"]
        self.assertEqual(self.server.told, ["taken"] * 25)
        with folder() as place:
            hand = Gateway(place, SCRIPT)
            subprocess.run([desks.program(), hand.where, "run"], check=False,
                           input="\n".join([*lines, ""]).encode(), stdout=subprocess.DEVNULL)
            self.assertEqual(self.gateway.count(), 8)
            self.assertEqual(self.gateway.pages(), hand.pages())

    def mutt(self):
        """A mail of mutt closes a bug, and one with two attachments is kept."""
        draft, attached = self.home / "draft", self.home / "attached"
        draft.write_text(DRAFT)
        attached.write_bytes(os.urandom(3_000))
        mutt = ["mutt", "-n", "-e", MUTT + f'set smtp_url="smtp://127.0.0.1:{self.port}"']
        self.client(*mutt, "-H", str(draft), "-a", str(attached), str(draft))
        self.assertEqual(self.server.told, ["taken: bug 2"])
        self.assertEqual(self.gateway.page(2)["Fixed"], "foo/2.0-1")
        shown = self.gateway.job("show", "2")[1]
        self.assertIn("It is mended: \u00e9t\u00e9.", shown)
        self.assertIn("Part: 'attached', application/octet-stream, 3,000 bytes", shown)

    def swaks(self):
        """A mail of swaks is a report."""
        self.client(
            "swaks", "--server", f"127.0.0.1:{self.port}", "--from", "bob@example.org", "--to",
            f"submit@{DOMAIN}", "--h-Subject", "eats a byte", "--body",
            "Package: foo\nVersion: 1.0-2\nSeverity: minor\n\nIt does.\n", "--attach",
            "../../../etc/hostname")
        self.assertEqual(self.server.told, ["taken: bug 8"])
        page = self.gateway.page(8)
        self.assertEqual((page["Title"], page["Found"]), ("eats a byte", "foo/1.0-2"))

    def reportbug(self):
        """A report of reportbug, which no user of the system's own may write, names its package."""
        self.home.parent.chmod(0o755)
        self.home.chmod(0o777)
        output = self.home / "report"
        user = ["setpriv", "--reuid=65534", "--regid=65534", "--clear-groups"]
        self.client(
            *(user if os.geteuid() == 0 else []), "reportbug", "-O", "-b", "-q",
            "--email=ann@desk.internal", "--realname=Ann", "--no-check-available",
            "--no-query-bts", "--no-debconf", "--no-cc-menu", "--no-tags-menu",
            "--no-bug-script", f"--output={output}", "--subject=loses a line",
            "--severity=important", "--tag=patch", "--body=It does.", "bash")
        self.assertEqual(self.gateway.take(output.read_bytes(), "submit"), "taken: bug 8")
        page = self.gateway.page(8)
        self.assertEqual(
            (page["Package"], page["Severity"], page["Tags"], page["Submitter"]),
            ("bash", "important", "patch", "Ann <ann@desk.internal>"))

    if "CLIENTS" in os.environ:
        def test_clients(self):
            """Each client that is installed."""
            for name in ("bts", "mutt", "swaks", "reportbug"):
                if shutil.which(name):
                    with self.subTest(name):
                        self.doCleanups()
                        self.setUp()
                        getattr(self, name)()
                else:
                    print(f"{name} is not installed")


if __name__ == "__main__":
    unittest.main()
