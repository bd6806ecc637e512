"""Random words of scripts: bugs, versions, packages, texts and the other words of commands."""

import random

from compare_words import (
    BAD_BUGS,
    BAD_PACKAGES,
    BAD_SEVERITIES,
    BAD_TAGS,
    BAD_VERSIONS,
    CONTROL,
    LONGEST_PACKAGE,
    PACKAGES,
    PREFIXES,
    SENDERS,
    SIGNS,
    TEXTS,
    VERSION_ROWS,
)
from reading_lines import SEVERITIES, TAGS


class WordMaker:
    """Makes the words of one random script, mostly of small pools."""

    def __init__(self, seed, kind):
        self.chance = random.Random(seed)
        self.kind = kind
        self.bugs = 0
        self.names = []
        self.packages = self.sample(PACKAGES, 1, 2 if kind == "versions" else 3)
        if self.odds(0.02):
            self.packages.append(LONGEST_PACKAGE)
        self.affected = self.packages[:1] + self.sample(PACKAGES, 1, 1)
        rows = self.sample(VERSION_ROWS, 2, 7)
        self.versions = [version for row in rows for version in self.sample(row, 1, 3)]
        self.severities = self.sample(SEVERITIES, 1, 3)
        self.oddity = self.pick((0.0, 0.03, 0.03, 0.15))

    # Choices.

    def odds(self, probability):
        """Whether something of this probability happens."""
        return self.chance.random() < probability

    def pick(self, choices):
        """One of some choices."""
        return self.chance.choice(choices)

    def pick_weighted(self, weights):
        """One of the keys, as often as its weight says."""
        return self.chance.choices(tuple(weights), tuple(weights.values()))[0]

    def sample(self, choices, least, most):
        """Some different choices, in a random order."""
        count = min(self.chance.randint(least, most), len(choices))
        return self.chance.sample(choices, count)

    def any_case(self, word):
        """A word, sometimes in another case."""
        if not self.odds(2 * self.oddity):
            return word
        return self.pick((word.upper(), word.title(), word.swapcase(), word.lower()))

    # Words.

    def number(self):
        """A bug word that is a number, mostly of a bug."""
        last = max(self.bugs, 1)
        number = self.chance.randint(1, last)
        if self.odds(0.02):
            number = self.pick((last + 1, last + 2, 7, 999_999_999, self.chance.randint(1, 200)))
        word = str(number)
        if self.odds(self.oddity):
            word = word.zfill(self.chance.randint(1, 9))
        return "#" + word if self.odds(self.oddity) else word

    def name(self):
        """A new or a known name."""
        if self.names and self.odds(0.3):
            return self.pick(self.names)
        name = self.pick((1, 2, 3, 4, 5, 6, 7, 8, 12, 999_999_999))
        word = str(name)
        if self.odds(self.oddity):
            word = word.zfill(self.chance.randint(1, 9))
        return self.pick(("-", "-", "-", "-", "#-")) + word

    def bug(self):
        """A bug word."""
        if self.odds(0.002):
            return self.pick(BAD_BUGS)
        if self.names and self.odds(0.3):
            return self.pick(self.names)
        return self.name() if self.odds(0.015) else self.number()

    def version(self):
        """A bare version."""
        if self.odds(0.015):
            return self.pick(BAD_VERSIONS)
        if self.odds(0.03):
            letters = "".join(self.chance.choices("0123456789~~+-.:aZ", k=self.pick((1, 2, 3, 5))))
            return letters if self.odds(0.3) else "1" + letters
        return self.pick(self.versions)

    def package(self):
        """A package name."""
        return self.pick(BAD_PACKAGES) if self.odds(0.02) else self.pick(self.packages)

    def node(self):
        """A source and a version."""
        usual = self.odds({"versions": 0.6, "affects": 0.4}.get(self.kind, 0.8))
        package = self.packages[0] if usual else self.package()
        return f"{package}/{self.version()}"

    def version_word(self):
        """A version, bare or with a source."""
        return self.node() if self.odds(0.2) else self.version()

    def severity(self):
        """A severity, mostly of few."""
        if self.odds(0.03):
            return self.pick(BAD_SEVERITIES)
        severity = self.pick(SEVERITIES if self.odds(0.2) else self.severities)
        return self.any_case(severity)

    def text(self):
        """A text, sometimes at its limit of 200 bytes."""
        if self.odds(0.04):
            length = self.pick((199, 200, 200, 201, 201, 202, 400))
            character = self.pick(("x", "é", "€", "𝕏"))
            text = character * (length // len(character.encode()))
            return text + "y" * (length - len(text.encode()))
        if self.odds(0.004):
            return "a" + self.pick(CONTROL) + self.pick(("", "b"))
        return self.pick(TEXTS if self.odds(0.5) else TEXTS[:3])

    def who(self):
        """A text, or the sender."""
        return "!" if self.odds(0.3) else self.pick(SENDERS) if self.odds(0.5) else self.text()

    def comma(self, words):
        """Words of a list, sometimes with commas."""
        if not self.odds(0.3):
            return words
        between = self.pick((",", ", ", " ,", " , ", ",,", ", ,"))
        text = between.join(words)
        if self.odds(0.2):
            text = self.pick((",", ", ")) + text
        if self.odds(0.2):
            text += self.pick((",", " ,", ",,"))
        return text.split(" ")

    def tag_words(self):
        """Words of `tags`."""
        words = []
        for _ in range(self.pick((1, 1, 2, 2, 3, 4, 6))):
            tag = self.any_case(self.pick(TAGS))
            if self.odds(0.02):
                tag = self.pick(BAD_TAGS)
            sign = self.pick(("", "", "", "+", "-", "-", "="))
            words += [sign, tag] if sign and self.odds(0.3) else [sign + tag]
        if self.odds(0.05):
            words += [self.pick(SIGNS + (",",))]
        if self.odds(0.04):
            words = [self.pick(("=", "+", "-", ",", "= =", "-+="))]
        return self.comma([word for word in words if word])

    def affected_package(self):
        """A word for a package of `affects`, mostly of few."""
        package = self.pick(self.affected) if self.odds(0.6) else self.package()
        prefix = "src:" if self.odds(0.2) else ""
        return (self.pick(PREFIXES) if self.odds(0.02) else prefix) + package

    def affected_words(self):
        """Words of `affects`: a sign, packages, both or none, and sometimes a sign too many."""
        words = [self.affected_package() for _ in range(self.pick((1, 1, 1, 2, 2, 3, 5)))]
        if self.odds(0.1):
            words.append(self.pick(words))
        if self.odds(0.04):
            place, sign = self.chance.randrange(len(words)), self.pick(SIGNS)
            words[place : place + 1] = self.pick(([sign + words[place]], [sign, words[place]]))
        sign = self.pick(("", "", "+", "+", "-", "-", "="))
        words = [sign] + words if self.odds(0.5) else [sign + words[0]] + words[1:]
        if self.odds(0.08):
            words = self.pick(([], [], [","], ["="], ["=", ","], ["+"], ["-"], [",", "-"], ["= ="]))
        return self.comma([word for word in words if word])

    def several_bugs(self, least):
        """Some bug words."""
        count = least + self.pick((0, 0, 0, 0, 1, 1, 2, 4))
        if self.kind == "hundred" and self.odds(0.1):
            count += self.chance.randint(1, 20)
        return [self.bug() for _ in range(count)]
