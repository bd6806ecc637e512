"""Random scripts for the desk: every directive and command, well and badly written.

Most lines name bugs, packages and versions of small pools, so that they meet each other.
"""

import random

from compare_choices import WordMaker
from compare_words import (
    BAD_BUGS,
    BAD_PACKAGES,
    BAD_VERSIONS,
    COMMANDS,
    COMMENTS,
    DIRECTIVES,
    FOLLOWS,
    LINE_LIMIT,
    LISTS,
    MARKS,
    NO_STOPS,
    SENDERS,
    SETS,
    SHORT_KINDS,
    SORTS,
    STOPS,
    STRANGE,
    TEXTS,
    UNKNOWN,
    WRONG_BYTES,
)
from reading_desk import report
from reading_lines import Refused, lower_case
from reading_records import new_desk


class ScriptMaker(WordMaker):
    """Makes one random script."""

    def __init__(self, seed, kind="mixed"):
        super().__init__(seed, kind)
        self.past = {}
        special = {"versions": MARKS, "merges": SETS, "affects": LISTS}
        self.commands = special.get(kind, COMMANDS)
        self.line_end = self.pick(("\n",) * 8 + ("\r\n",))

    # Commands.

    def command_words(self):
        """The words of a command, which may be about what an earlier command was about."""
        word = self.pick_weighted(self.commands)
        earlier = self.past.get(self.pick(FOLLOWS.get(word, ("",))))
        if earlier and self.odds(0.6):
            words = self.following_words(word, self.pick(earlier[-6:]))
        else:
            words = self.new_words(word)
        self.past.setdefault(word, []).append(words)
        return [self.any_case(word)] + words

    def following_words(self, word, earlier):
        """The words after a command word that make the command follow an earlier one."""
        if word in ("notfound", "notfixed"):
            return earlier[:2] if len(earlier) > 1 else earlier + [self.version_word()]
        if word == "unblock":
            return earlier
        if word == "unmerge":
            return [self.pick(earlier)]
        if word == "reopen":
            return earlier[:1] + self.pick(([], ["="], [self.who()], [self.who()]))
        if word == "found":
            return earlier[:1] + [self.version_word()]
        if word == "affects":
            return earlier if self.odds(0.2) else earlier[:1] + self.affected_words()
        return earlier[:1]

    def new_words(self, word):
        """The words after a command word."""
        bug = self.bug()
        if word in ("notfound", "fixed", "notfixed"):
            return [bug, self.version_word()]
        if word in ("found", "close"):
            with_version = self.odds(0.85 if word == "found" else 0.6)
            return [bug] + ([self.version_word()] if with_version else [])
        if word == "reopen":
            return [bug] + self.pick(([], ["="], [self.who()], [self.who()]))
        if word == "severity":
            return [bug, self.severity()]
        if word in ("tags", "tag"):
            return [bug] + self.tag_words()
        if word == "affects":
            return [bug + ("," if self.odds(0.005) else "")] + self.affected_words()
        if word in ("retitle", "forwarded"):
            return [bug, self.text()]
        if word in ("submitter", "owner"):
            return [bug, self.who()]
        if word == "reassign":
            package = self.pick(("", "", "src:")) + self.package()
            return [bug, package] + ([self.version_word()] if self.odds(0.5) else [])
        if word in ("merge", "forcemerge"):
            return self.several_bugs(2)
        if word == "clone":
            return [bug] + self.new_names()
        if word in ("block", "unblock"):
            by = self.any_case(self.pick(("by", "by", "with")))
            return [bug, by] + self.comma(self.several_bugs(1))
        return [bug]

    def new_names(self):
        """Names for `clone`."""
        names = [self.name() for _ in range(self.pick((1, 1, 1, 2, 2, 3)))]
        self.names = (self.names + names)[-8:]
        self.bugs += len(names) if self.odds(0.3) else 0
        return names

    def spell(self, words):
        """The words of a line with blanks between and around them."""
        line = words[0]
        for word in words[1:]:
            line += self.pick(("\t", "  ", " \t ", "\t\t")) if self.odds(self.oddity) else " "
            line += word
        if self.odds(self.oddity / 2):
            line = self.pick((" ", "\t", "   ", "\t ")) + line
        if self.odds(self.oddity / 2):
            line += self.pick((" ", "\t", "   ", " \t"))
        return line

    # Lines.

    def command_line(self):
        """A command."""
        return self.spell(self.command_words())

    def broken_line(self):
        """A line that is mostly no command, or badly written."""
        if self.odds(0.3):
            return self.pick(self.pick((UNKNOWN, UNKNOWN, NO_STOPS)))
        words = self.command_words()
        place = self.chance.randrange(len(words))
        way = self.chance.randrange(9)
        if way == 0:
            del words[place]
        elif way == 1:
            words.insert(place + 1, self.pick(("x", "1", "now", ",", "by", "-1", "#1", "+", "é")))
        elif way == 2:
            words[place] = self.pick(self.pick((BAD_BUGS, BAD_VERSIONS, BAD_PACKAGES, TEXTS)))
        elif way == 3:
            words[place] += self.pick(STRANGE)
        elif way == 4:
            words[place] = self.pick(STRANGE) + words[place]
        elif way == 5:
            words = words[: self.chance.randrange(1, len(words) + 1)]
        elif way == 6 and len(words) > 1:
            words[1] = self.pick(BAD_BUGS)
        elif way == 7:
            cut = self.chance.randrange(len(words[place]) + 1)
            words[place] = words[place][:cut] + self.pick(STRANGE) + words[place][cut:]
        else:
            self.chance.shuffle(words)
        return self.spell(words) if words else ""

    def report_line(self):
        """A report."""
        version = "-" if self.odds(0.15) else self.version()
        words = ["@report", self.package(), version, self.severity()]
        words += [] if self.odds(0.02) else [self.text()]
        if self.is_good_report(words[1:]):
            self.bugs += 1
            self.past.setdefault("@report", []).append([str(self.bugs), version, words[1]])
        return self.directive(words)

    def is_good_report(self, words):
        """Whether a report with these words after `@report` is taken."""
        package, version, severity, title = (words + [""])[:4]
        version = None if version == "-" else version
        try:
            report(new_desk(), "ann", package, version, lower_case(severity), title.strip(" \t"))
        except Refused:
            return False
        return True

    def branch_line(self):
        """A changelog branch, mostly of one package and downward in the order of the pool."""
        if self.odds(0.01):
            count = self.pick((199, 200, 200, 201, 202))
            nodes = [f"{self.packages[0]}/{number}" for number in range(count, 0, -1)]
            nodes += [nodes[self.pick((0, 5, 50))]] if self.odds(0.2) else []
            return self.directive(["@branch"] + nodes)
        count = self.pick((0, 1, 1, 2, 2, 2, 2, 3, 3, 3, 4, 5))
        if self.odds(0.5):
            count = min(count, len(self.versions))
            places = sorted(self.chance.sample(range(len(self.versions)), count), reverse=True)
            package = self.pick(self.packages) if self.odds(0.2) else self.packages[0]
            return self.directive(
                ["@branch"] + [f"{package}/{self.versions[place]}" for place in places]
            )
        return self.directive(["@branch"] + [self.node() for _ in range(count)])

    def list_line(self):
        """A question for a list, sometimes of an affected package at a version of another one."""
        if self.odds(0.7 if self.kind == "affects" else 0.3):
            return self.directive(["@list", self.pick(self.affected), self.reported_node()])
        package = self.packages[0] if self.odds(0.6) else self.package()
        return self.directive(["@list", package, self.version_word()])

    def reported_node(self):
        """A source and a version, those of a report where there is one with a version."""
        nodes = [f"{source}/{version}" for _, version, source in self.past.get("@report", [])]
        nodes = [node for node in nodes if not node.endswith("/-")]
        return self.pick(nodes) if nodes else self.node()

    def show_line(self):
        """A question for a page."""
        return self.directive(["@show", self.number()])

    def from_line(self):
        """A sender."""
        sender = self.pick(SENDERS) if self.odds(0.9) else self.text()
        return self.directive(["@from", sender])

    def directive(self, words):
        """A directive, which ends the message."""
        self.names = []
        return self.spell(words).lstrip(" \t")

    def bad_directive_line(self):
        """A directive that is mostly badly written."""
        if self.odds(0.6):
            return self.directive([self.pick(DIRECTIVES)])
        line = self.pick((self.report_line, self.branch_line, self.list_line, self.show_line))()
        cut = self.chance.randrange(1, len(line) + 1)
        return line[:cut] + self.pick(STRANGE) + line[cut:]

    def comment_line(self):
        """A comment or a blank line."""
        return self.pick(COMMENTS)

    def stop_line(self):
        """A stop line."""
        return self.pick(STOPS)

    def long_line(self):
        """A line of as many bytes as a script's line may have, or one more."""
        length = self.pick((LINE_LIMIT - 1, LINE_LIMIT, LINE_LIMIT, LINE_LIMIT + 1))
        start, rest = self.pick(
            (
                ("#", "x"), ("retitle 1 ", "x"), ("", " "), ("merge 1", " 1"), ("tags 1", " patch"),
                ("@branch", " foo/1"), ("@from ", "x"), ("@report foo 1 normal ", "é"), ("y", "y"),
                ("clone 1", " -1"), ("block 1 by ", "2,"), ("thanks", " "), ("@show 1", " "),
                ("affects 1", " foo"), ("affects 1 -", "bar,"),
            )
        )
        text = start + rest * ((length - len(start)) // len(rest.encode()))
        return text + " " * (length - len(text.encode()))

    def line(self):
        """A line of some sort, without its end."""
        if self.odds(0.0004):
            return self.long_line()
        sort = self.pick_weighted(SORTS[self.kind]).replace(" ", "_")
        return getattr(self, f"{sort}_line")()

    # Whole scripts.

    def opening(self):
        """The lines with which a script begins: a sender, branches and reports."""
        lines = [] if self.odds(0.1) else ["@from ann"]
        reports = self.pick((0, 1, 1, 2, 3, 3, 3, 4, 5, 8))
        if self.kind == "hundred":
            reports = self.chance.randint(60, 100)
        lines += [self.branch_line() for _ in range(self.pick((0, 0, 1, 2, 3)))]
        lines += [self.report_line() for _ in range(reports)]
        return lines

    def length(self):
        """How many lines follow the opening."""
        if self.kind == "hundred":
            return self.chance.randint(50, 250)
        return self.pick((0, 1, 2, 4, 8, 15, 20, 30, 40, 60, 80, 100))

    def script(self):
        """The bytes of the script."""
        lines = self.opening() + [self.line() for _ in range(self.length())]
        if self.odds(0.3):
            lines += [f"@show {number}" for number in range(1, min(self.bugs, 12) + 1)]
        script = b""
        for line in lines:
            end = self.line_end
            if self.odds(self.oddity / 10):
                end = self.pick(("\n", "\r\n", "\r\r\n"))
            script += (line + end).encode()
        if self.odds(0.1):
            script = script.rstrip(b"\r\n") + self.pick((b"", b"", b"\r", b"\n\r", b"\n\n", b"\n "))
        if self.kind == "bytes":
            script = self.spoil(script)
        if self.odds(0.01):
            script = self.put_in(script, self.pick(WRONG_BYTES))
        return script

    def put_in(self, script, something):
        """The script with some bytes put in, more often late than early."""
        place = max(self.chance.randint(0, len(script)) for _ in range(2))
        return script[:place] + something + script[place:]

    def spoil(self, script):
        """The script with some bytes put in, taken out or changed."""
        for _ in range(self.pick((1, 1, 2, 3, 5, 10, 20))):
            place = self.chance.randint(0, len(script))
            way = self.chance.randrange(4)
            if way == 0:
                script = script[:place] + script[place + self.pick((1, 1, 2, 5)) :]
            elif way == 1:
                blank = self.pick((b"\n", b"\r\n", b"\r", b" ", b"\t", b"\n@"))
                script = self.put_in(script, blank)
            elif way == 2:
                script = script[:place] + self.pick(STRANGE).encode() + script[place:]
            else:
                lines = script.split(b"\n")
                lines.insert(self.chance.randrange(len(lines) + 1), self.pick(lines))
                script = b"\n".join(lines)
        return script


def make_script(seed, kind):
    """The random script of a seed and a kind; a long one is made of short ones."""
    if kind != "long":
        return ScriptMaker(f"{seed} {kind}", kind).script()
    chance = random.Random(f"{seed} {kind}")
    kinds = [chance.choice(SHORT_KINDS) for _ in range(chance.randint(5, 40))]
    return b"\n".join(
        ScriptMaker(f"{seed} {place}", short).script() for place, short in enumerate(kinds)
    )
