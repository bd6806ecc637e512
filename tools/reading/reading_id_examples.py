"""Messages with ids, and the answers that they must have by the rules.

A step is a directive of ann's and its answer, or a message: its id, sender, text and answers.
The answers are those of its lines, without the echoes.
A number after them cuts the message: so many lines are carried out before the program ends.
"""

from reading_ids import IN_USE, NO_ID

A_BUG = ("@report foo 1 normal a", "OK 1")
B_BUG = ("@report foo 1 normal b", "OK 2")
CLONES = "clone 1 -1\nretitle -1 x"
NO_BUG_2 = ("@show 2", "NO no such bug 2")
NO_BUG_3 = ("@show 3", "NO no such bug 3")
UNKNOWN = "NO unknown command"
NO_IDS = ("", " ", "a b", " a", "a ", "a\n", "\n", "i" * 101, "\x7f", "é", "\x00", "a\t")
FIVE = (UNKNOWN,) * 5 + ("Too many unreadable lines.",)

ID_EXAMPLES = {
    "the clone of the manual is made once": (
        A_BUG,
        ("m1", "ann", CLONES, ("OK 2", "OK 2")),
        ("m1", "ann", CLONES, ("OK 2", "OK 2")),
        NO_BUG_3,
    ),
    "without an id each time acts anew": (
        A_BUG,
        (None, "ann", CLONES, ("OK 2", "OK 2")),
        (None, "ann", CLONES, ("OK 3", "OK 3")),
    ),
    "another id acts anew": (
        A_BUG,
        ("m1", "ann", CLONES, ("OK 2", "OK 2")),
        ("m2", "ann", CLONES, ("OK 3", "OK 3")),
        ("m1", "ann", CLONES, ("OK 2", "OK 2")),
        ("M1", "ann", CLONES, ("OK 4", "OK 4")),
    ),
    "another text is refused": (
        A_BUG,
        ("m1", "ann", "severity 1 grave", ("OK 1",)),
        ("m1", "ann", "severity 1 minor", IN_USE),
        ("m2", "ann", "severity 1 grave", ("OK, no change.",)),
    ),
    "another sender is refused, though the text names none": (
        A_BUG,
        ("m1", "ann", "severity 1 grave", ("OK 1",)),
        ("m1", "bob", "severity 1 grave", IN_USE),
        ("m1", "ann ann", "severity 1 grave", IN_USE),
        ("m1", "ann", "severity 1 grave", ("OK 1",)),
    ),
    "a text that differs in blanks, case or ends is another": (
        A_BUG,
        ("m1", "ann", "severity 1 grave", ("OK 1",)),
        ("m1", "ann", "severity 1 grave\n", IN_USE),
        ("m1", "ann", "severity  1 grave", IN_USE),
        ("m1", "ann", "Severity 1 grave", IN_USE),
        ("m1", "ann", "severity 1 grave\r", IN_USE),
        ("m1", "ann", "# x\nseverity 1 grave", IN_USE),
    ),
    "a front or a longer text is another": (
        A_BUG,
        ("m1", "ann", "close 1\nreopen 1", ("OK 1", "OK 1")),
        ("m1", "ann", "close 1", IN_USE),
        ("m1", "ann", "close 1\nreopen 1\nclose 1", IN_USE),
        ("m1", "ann", "", IN_USE),
        ("@list foo 1", "Bugs in foo at foo/1: 1\n        1  normal     open  a"),
    ),
    "a refused line stays refused": (
        A_BUG,
        ("m1", "ann", "close 2", ("NO no such bug 2",)),
        B_BUG,
        ("m1", "ann", "close 2", ("NO no such bug 2",)),
        ("m2", "ann", "close 2", ("OK 2",)),
    ),
    "what comes between stays": (
        A_BUG,
        ("m1", "ann", "severity 1 grave", ("OK 1",)),
        ("m2", "ann", "severity 1 minor", ("OK 1",)),
        ("m1", "ann", "severity 1 grave", ("OK 1",)),
        ("@list foo 1", "Bugs in foo at foo/1: 1\n        1  minor      open  a"),
    ),
    "no change is kept": (
        A_BUG,
        ("m1", "ann", "severity 1 normal", ("OK, no change.",)),
        (None, "ann", "severity 1 grave", ("OK 1",)),
        ("m1", "ann", "severity 1 normal", ("OK, no change.",)),
        (None, "ann", "severity 1 grave", ("OK, no change.",)),
    ),
    "a stop is kept": (
        A_BUG,
        ("m1", "ann", "thanks\nclose 1", ("Stopped.",)),
        ("m1", "ann", "thanks\nclose 1", ("Stopped.",)),
        ("m1", "ann", "thanks", IN_USE),
        ("m1", "ann", "thanks\nclose 2", IN_USE),
        (None, "ann", "close 1", ("OK 1",)),
    ),
    "the fifth unreadable line is kept": (
        A_BUG,
        ("m1", "ann", "x\n" * 5 + "close 1", FIVE),
        ("m1", "ann", "x\n" * 5 + "close 1", FIVE),
        (None, "ann", "close 1", ("OK 1",)),
    ),
    "no line, no outcome, and no known id": (
        A_BUG,
        ("m1", "ann", "", ()),
        ("m1", "ann", "# close 1\n\n \t\n", ()),
        ("m1", "bob", "#", ()),
        ("m1", "bob", "close 1", ("OK 1",)),
        ("m1", "bob", "#", IN_USE),
    ),
    "a refusal alone makes an id known": (
        ("m1", "ann", "close 1", ("NO no such bug 1",)),
        ("m1", "ann", "close 2", IN_USE),
    ),
    "an unreadable line alone makes an id known": (
        ("m1", "ann", "x", (UNKNOWN,)),
        ("m1", "bob", "x", IN_USE),
    ),
    "blank lines and comments are not counted": (
        A_BUG,
        ("m1", "ann", "\n# x\nclose 1\n\nclone 1 -1\n", ("OK 1",), 1),
        NO_BUG_2,
        ("m1", "ann", "\n# x\nclose 1\n\nclone 1 -1\n", ("OK 1", "OK 2")),
        ("m1", "ann", "\n# x\nclose 1\n\nclone 1 -1\n", ("OK 1", "OK 2")),
        NO_BUG_3,
    ),
    "a cut message goes on at its first line without an outcome": (
        A_BUG,
        ("m1", "ann", CLONES, ("OK 2",), 1),
        ("m1", "ann", CLONES, ("OK 2", "OK 2")),
        ("@list foo 1", "Bugs in foo at foo/1: 2\n"
         "        1  normal     open  a\n        2  normal     open  x"),
    ),
    "a message that is cut before its first line is not known": (
        A_BUG,
        ("m1", "ann", CLONES, (), 0),
        NO_BUG_2,
        ("m1", "bob", "close 1", ("OK 1",)),
    ),
    "a message that is cut after its first line is known": (
        A_BUG,
        ("m1", "ann", CLONES, ("OK 2",), 1),
        ("m1", "bob", CLONES, IN_USE),
        ("m1", "ann", "clone 1 -1", IN_USE),
        ("m1", "ann", CLONES, ("OK 2", "OK 2")),
    ),
    "a cut message is cut once more": (
        A_BUG,
        ("m1", "ann", "clone 1 -1\nclone 1 -2\nclone 1 -3", ("OK 2",), 1),
        ("m1", "ann", "clone 1 -1\nclone 1 -2\nclone 1 -3", ("OK 2", "OK 3"), 1),
        ("m1", "ann", "clone 1 -1\nclone 1 -2\nclone 1 -3", ("OK 2", "OK 3", "OK 4")),
    ),
    "names stand for the same bugs, though others got numbers between": (
        A_BUG,
        ("m1", "ann", "clone 1 -2 -1\nretitle -1 x\nclone 1 -3\nclone 1 -1", ("OK 2 3",), 1),
        ("@report foo 1 normal d", "OK 4"),
        ("m1", "ann", "clone 1 -2 -1\nretitle -1 x\nclone 1 -3\nclone 1 -1",
         ("OK 2 3", "OK 3", "OK 5", "NO name -1 is taken")),
        ("m2", "ann", "retitle -1 y", ("NO no such name -1",)),
    ),
    "a name whose clone was refused is free": (
        A_BUG,
        ("m1", "ann", "clone 2 -1\nclone 1 -1\nclose -1", ("NO no such bug 2",), 1),
        B_BUG,
        ("m1", "ann", "clone 2 -1\nclone 1 -1\nclose -1", ("NO no such bug 2", "OK 3", "OK 3")),
    ),
    "unreadable lines are counted from the first one": (
        A_BUG,
        ("m1", "ann", "x\n" * 6, (UNKNOWN,) * 4, 4),
        ("m1", "ann", "x\n" * 6, FIVE),
        ("m1", "ann", "x\n" * 6, FIVE, 0),
    ),
    "malformed lines count with unknown ones, refused ones do not": (
        ("m1", "ann", "close\nx\nclose 9\nclose x\n\nx\ny\nx",
         ("NO malformed command", UNKNOWN, "NO no such bug 9"), 3),
        ("m1", "ann", "close\nx\nclose 9\nclose x\n\nx\ny\nx",
         ("NO malformed command", UNKNOWN, "NO no such bug 9", "NO malformed command", UNKNOWN,
          UNKNOWN, "Too many unreadable lines.")),
    ),
    "a stop after a cut": (
        A_BUG,
        ("m1", "ann", "close 1\nquit\nclose 1", ("OK 1",), 1),
        (None, "ann", "reopen 1", ("OK 1",)),
        ("m1", "ann", "close 1\nquit\nclose 1", ("OK 1", "Stopped.")),
        ("@list foo 1", "Bugs in foo at foo/1: 1\n        1  normal     open  a"),
    ),
    "the desk between is that of the lines that are left": (
        A_BUG,
        B_BUG,
        ("m1", "ann", "severity 1 grave\nmerge 1 2\nclose 2", ("OK 1",), 1),
        (None, "bob", "severity 2 grave", ("OK 2",)),
        ("m1", "ann", "severity 1 grave\nmerge 1 2\nclose 2", ("OK 1", "OK 1 2", "OK 1 2")),
    ),
    "the sender stands for himself after a cut": (
        A_BUG,
        ("m1", "bob", "severity 1 grave\nsubmitter 1 !\nowner 1 !", ("OK 1",), 1),
        (None, "zed", "submitter 1 !", ("OK 1",)),
        ("m1", "bob", "severity 1 grave\nsubmitter 1 !\nowner 1 !", ("OK 1", "OK 1", "OK 1")),
        (None, "ann", "submitter 1 bob\nowner 1 bob", ("OK, no change.", "OK, no change.")),
    ),
    "ids at their limits": (
        ("!", "ann", "x", (UNKNOWN,)),
        ("~", "ann", "y", (UNKNOWN,)),
        ("<a@b.c>", "ann", "y", (UNKNOWN,)),
        ('"\\#%', "ann", "y", (UNKNOWN,)),
        ("i" * 100, "ann", "x", (UNKNOWN,)),
        ("i" * 100, "ann", "y", IN_USE),
        ("i" * 99, "ann", "y", (UNKNOWN,)),
    ),
    "what is no id": (
        A_BUG,
        *((word, "ann", "close 1", NO_ID) for word in NO_IDS),
        ("a", "ann", "close 1", ("OK 1",)),
    ),
    "a line that begins as a directive is one of the message": (
        ("m1", "ann", "@report foo 1 normal a", (UNKNOWN,)),
        ("m1", "ann", "@report foo 1 normal a", (UNKNOWN,)),
        ("@show 1", "NO no such bug 1"),
    ),
    "a carriage return before a line feed is dropped from a line, and the text keeps it": (
        A_BUG,
        ("m1", "ann", "retitle 1 z\r\nclose 1\r", ("OK 1", "OK 1")),
        ("m1", "ann", "retitle 1 z\nclose 1\r", IN_USE),
        ("m1", "ann", "retitle 1 z\r\nclose 1\r", ("OK 1", "OK 1")),
    ),
    "a branch after the message does not undo its refusal": (
        ("@branch foo/2 foo/1", "OK"),
        A_BUG,
        ("m1", "ann", "close 1 3\narchive 1", ("OK 1", "NO still found in foo/2")),
        ("@branch foo/3 foo/2", "OK"),
        ("m1", "ann", "close 1 3\narchive 1", ("OK 1", "NO still found in foo/2")),
        ("m2", "ann", "archive 1", ("OK 1",)),
        ("m2", "ann", "archive 1", ("OK 1",)),
    ),
}
