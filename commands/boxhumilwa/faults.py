"""What ends a command before its work is done."""


class Fault(Exception):
    """What ends the command; its text says what, and where."""


class BadWords(Exception):
    """Words that are no order; its text says why, and nothing was sent."""
