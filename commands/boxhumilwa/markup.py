"""Text in HTML: nothing in it is markup, and nothing steers the page round it."""

import html
import re

CONTROL = re.compile("[\x00-\x08\x0b-\x1f\x7f-\x9f]")


def text(words: object) -> str:
    """A text as HTML has it: nothing in it is markup, and no control character is left."""
    return CONTROL.sub(
        lambda found: found[0].encode("unicode_escape").decode(), html.escape(str(words)))


def title(words: str) -> str:
    """A bug's title, whose direction of writing does not reach beyond it."""
    return f"<bdi>{text(words)}</bdi>"
