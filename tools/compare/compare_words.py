"""The words, texts and lines of which random scripts are made, and how often each is chosen."""

SHORT_KINDS = ("mixed", "versions", "merges", "affects", "malformed", "bytes")
KINDS = SHORT_KINDS + ("hundred", "long")

PACKAGES = ("foo", "bar", "g++", "0ad", "libfoo-1.0", "aa")
BAD_PACKAGES = (
    "f", "Foo", "+x", "foo_1", "fóo", "x" * 101, "src:", "src:src:foo", "SRC:foo", "-oo", "foo,",
    "foo/1", ".a", "fo\u00a0o", "é",
)
LONGEST_PACKAGE = "p" * 100
# What may precede a package, mostly wrongly.
PREFIXES = ("SRC:", "Src:", "src:src:", "src:+", "src:,", "src", ":", "src :")
SIGNS = ("+", "-", "=")

# Each row holds versions that are equal in the order.
VERSION_ROWS = (
    ("~~", "~~-0", "0:~~"),
    ("~~a",),
    ("~", "~-0"),
    ("0", "0-0", "00", "0:0"),
    ("0.5", "0.05", "00.5-0"),
    ("0.9~",),
    ("1~~", "1~~-0"),
    ("1~rc1", "01~rc1", "1~rc01"),
    ("1", "1-0", "01", "0:1", "1-00", "00:01-000"),
    ("1-1~",),
    ("1-1", "1-01", "0:1-1"),
    ("1-1+b1", "1-1+b01"),
    ("1.0~rc1", "1.0~rc01", "1.0~rc1-0"),
    ("1.0", "1.0-0", "0:1.00", "1.00", "01.0", "1.000-0"),
    ("1.0-1", "1.00-1", "0:1.0-01"),
    ("1.0-1-1", "1.00-1-1"),
    ("1.0A", "1.0A-0"),
    ("1.0a", "1.00a"),
    ("1.0aa",),
    ("1.0+b1", "1.0+b01"),
    ("1.0.", "1.0.0", "1.0.-0"),
    ("1+s", "1+s0", "1+s-0"),
    ("2", "2-0", "02", "0:2"),
    ("2-1", "2-01"),
    ("3", "3-0"),
    ("3-0+",), ("3-+", "3-+0"),
    ("4",), ("5",), ("6",), ("7",), ("10", "010"), ("a", "a0", "a-0"), ("A",), ("+",), (".",),
    ("-~-~",), ("--0",), ("1:0", "01:0", "1:0-0"), ("1:1:2", "1:01:2"), ("1:2:3-4",), ("2:1",),
    ("9" * 50 + ":1",), ("9" * 100,), ("0" * 99 + "1",), ("1." + "0" * 98,),
)
BAD_VERSIONS = (
    ":1", "1.0-", "1:", "1:-1", "-1", "a:1", "1.0_2", "1:1-1:1", "1" * 101, "é", "1/2", "foo/",
    "/1", "Foo/1", "f/1", "src:foo/1", "foo/1/2", "foo/1_0", "-", "1,", "1:2:3-4:5", "+1:0", "/",
    "#1", "1\u00a00", "\u0661", "foo//1", "1~é", "-1:1", "foo/:1", "fo_o/1", "=",
)
BAD_SEVERITIES = (
    "bogus", "normal,", "\u017ferious", "-", "m\u0131nor", "cr\u0131tical", "#1",
)
BAD_TAGS = ("bogus", "fixed", "++patch", "patch+help", "", "-", "pending.", "\u212a")
COMMENTS = (
    "", "", " ", "\t", "# x", "#", "  # severity 1 grave", "#1", "#\x07", "\t#\x00é", "##",
)
SENDERS = ("ann", "bob", "nobody", "Zed <zed@example.org>", "a  b", "é", "!", "=")
BAD_BUGS = (
    "0", "#0", "##1", "1000000000", "0000000001", "1,", "+1", "-0", "--1", "#--1", "1a", "\uff11",
    "\u22121", "x", "#", "-", "#-0", "1.", "-1000000000", "-0000000001", "1-", "2,3", "!",
    "1\u00a0",
)
TEXTS = (
    "a", "b", "foo crashes", "!", "=", "= x", "! x", "x !", "a  b\tc", "é", "#1", "@x", "-", "OK 1",
    "a\u00a0b", "\u00a0", "a\u2028b", "a\u0085b", "\ufeffx", "NO such bug 1", "> x", "thanks", "𝕏",
    "'\"\\", "=\u00a0", "!!", ",", "x,", "a,b", "\u00a0x\u2003", "%s{}", "Stopped.",
)
STOPS = (
    "quit", "stop", "thank", "thanks", "thankyou", "thank you", "thank  \t you", "--", "THANKS",
    "Quit", "Thank YOU", "  stop ", "\tThankYou\t",
)
NO_STOPS = (
    "thanks a lot", "thank you all", "quit now", "---", "-- x", "stop.", "thanks\x07",
    "thank\u017f", "than\u212as", "\u017ftop", "thank\u00a0you", "-", "thank,you", "thanks,",
    "thank y0u", "quit\x0c",
)
UNKNOWN = (
    "a", "affect 1 foo", "user ann", "usertags 1 x", "limit", "summary 1 x", "outlook 1 x",
    "noack", "debug 1", "package foo", "severity\u00a01 grave", "sever1ty 1 grave", "help", "tags,",
    "\u017feverity 1 grave", "bloc\u212a 1 by 2", "\x0b", "\r", "\x00", "1 severity grave",
    " @from ann", "\t@list foo 1", "\ufeff@from x", "> severity 1 grave", "close:1", "!", "it",
    "notowner 1", "merges 1 2", "reopen1", "\x7f", "\u00a0", "noforwarded 1", "found,1",
)
DIRECTIVES = (
    "@", "@from", "@from ", "@FROM ann", "@From x", "@from\u00a0x", "@report", "@report foo 1",
    "@report foo", "@Report foo 1 normal a", "@branchfoo/1", "@list", "@list foo", "@list foo 1 2",
    "@list  ", "@show", "@show 0", "@show -1", "@show 1 2", "@show x", "@show #", "@show ##1",
    "@show 0000000001", "@shows 1", "@ from ann", "@@from ann", "@severity 1 grave", "@thanks",
    "@list foo\t", "@SHOW 1", "@show 1\x07", "@from a\x07", "@from \x7f", "@from a\rb", "@é",
    "@show 1000000000", "@list foo 1 ", "@show \uff11", "@run", "@#", "@from,ann",
)
CONTROL = "\x00\x01\x07\x08\x0b\x0c\r\x1b\x1f\x7f"
STRANGE = (
    CONTROL
    + "\t\t   ,,,##--@!=+:~/"
    + "éßk𝕏\u0080\u0085\u00a0\u2028\u200b\u212a\u017f\u0130\uff11\uffff"
)
WRONG_BYTES = (
    b"\xff", b"\xfe", b"\x80", b"\xc3", b"\xc0\xaf", b"\xe2\x82", b"\xed\xa0\x80",
    b"\xf4\x90\x80\x80", b"\xf0\x9f\x98", b"\xf8\x88\x80\x80\x80", b"\xe0\x80\xaf",
)
LINE_LIMIT = 65_536

# How often each command is chosen, by kind.
COMMANDS = {
    "found": 8, "notfound": 4, "fixed": 7, "notfixed": 4, "close": 9, "reopen": 4, "severity": 4,
    "tags": 4, "tag": 2, "retitle": 3, "submitter": 3, "reassign": 4, "merge": 9, "forcemerge": 5,
    "unmerge": 5, "clone": 6, "block": 7, "unblock": 4, "forwarded": 2, "notforwarded": 2,
    "owner": 4, "noowner": 2, "archive": 6, "unarchive": 5, "affects": 8,
}
MARKS = {
    "found": 14, "notfound": 7, "fixed": 12, "notfixed": 7, "close": 12, "reopen": 4, "archive": 6,
    "unarchive": 5, "reassign": 4, "merge": 3, "unmerge": 1, "clone": 1, "affects": 4,
}
SETS = {
    "merge": 14, "forcemerge": 10, "unmerge": 10, "clone": 8, "block": 10, "unblock": 5, "owner": 4,
    "severity": 3, "close": 4, "reopen": 4, "retitle": 2, "submitter": 2, "found": 2, "fixed": 2,
    "reassign": 1, "tags": 2, "archive": 1, "unarchive": 1, "noowner": 1, "forwarded": 1,
    "notforwarded": 1, "affects": 6,
}
LISTS = {
    "affects": 30, "found": 8, "fixed": 6, "close": 8, "archive": 7, "unarchive": 6,
    "reassign": 4, "merge": 5, "forcemerge": 3, "unmerge": 3, "clone": 4, "severity": 2,
}
# What a command follows so that it changes something.
FOLLOWS = {
    "notfound": ("found", "found", "@report"), "notfixed": ("fixed", "close"),
    "unblock": ("block",), "unmerge": ("merge", "forcemerge"), "reopen": ("close",),
    "archive": ("close", "close", "fixed"), "unarchive": ("archive",), "noowner": ("owner",),
    "notforwarded": ("forwarded",), "found": ("close", "fixed", "close", "found"),
    "affects": ("affects", "affects", "close", "archive", ""),
}
# How often each sort of line is chosen, by kind.
SORTS = {
    "mixed": {
        "command": 150, "report": 10, "branch": 7, "list": 9, "show": 8, "from": 4, "comment": 2,
        "stop": 1, "broken": 6, "bad directive": 1,
    },
    "versions": {
        "command": 80, "report": 8, "branch": 30, "list": 40, "show": 8, "from": 1, "broken": 1,
    },
    "merges": {"command": 150, "report": 5, "show": 20, "list": 5, "from": 6, "broken": 1},
    "affects": {"command": 120, "report": 8, "branch": 10, "list": 40, "show": 8, "from": 1},
    "malformed": {
        "command": 20, "report": 4, "from": 6, "branch": 3, "list": 2, "show": 2, "broken": 40,
        "bad directive": 8, "comment": 4, "stop": 3,
    },
    "hundred": {
        "command": 200, "report": 4, "branch": 10, "list": 8, "show": 10, "from": 6, "stop": 1,
        "broken": 2,
    },
    "bytes": {
        "command": 50, "report": 8, "from": 4, "branch": 3, "list": 3, "show": 3, "broken": 8,
        "comment": 4, "stop": 1, "bad directive": 1,
    },
}
