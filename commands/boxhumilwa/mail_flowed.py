"""Texts of `format=flowed`, in which a line that ends with a blank goes on in the next one."""

SIGNATURE = "-- "


def unflowed(text: str, takes_blank: bool) -> str:
    """A text whose paragraphs are one line each again, without the blanks that were put before.

    A quote stays as it is, since it says nothing that is carried out; `takes_blank` is `delsp=yes`.
    """
    pieces: list[str] = []
    is_open = False
    for line in text.split("\n"):
        is_quoted = line.startswith(">")
        bare = line.removeprefix(" ")
        is_apart = is_quoted or bare == SIGNATURE
        if pieces and (is_apart or not is_open):
            pieces.append("\n")
        is_open = bare.endswith(" ") and not is_apart
        pieces.append(bare[:-1] if is_open and takes_blank else bare)
    return "".join(pieces)
