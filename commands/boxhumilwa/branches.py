"""Writes the @branch lines of Debian changelogs to standard output.

Each version is written as source/version, the newest first, in the order of the changelog.
More than 200 versions give several lines, each beginning with the last version of the line before.
If changelogs share versions, name first the one with more of them: no version can be put between
two that are joined.

Standard error says what is left out, with its file and line:
- lines at the left margin that are not a heading, a comment or an editor's setting;
- bad source names, and versions that Policy 5.6.12 refuses;
- newer entries of a version that appears twice: the oldest one counts;
- UNRELEASED entries above the newest upload, since their versions may still change.
Equal versions that are written differently, such as 1.0 and 1.0-0, are two versions.

The exit status is 0, even if entries are left out; 1 if a changelog can't be read or none of its
entries counts, and the others are still written; 2 for a wrong command line; 3 if output can't be
written.
"""

import json
import sys

from . import changelogs
from .command import DONE, REFUSED, make_parser, run, tell, write_lines
from .terminal import json_text, shown

NAME = "branches"


def read_branches(path: str) -> list[str]:
    """The branches of one changelog; it tells what is left out of them."""
    taken, left_out = changelogs.select(changelogs.read_changelog(path))
    for left in left_out:
        sys.stderr.write(f"{shown(path)}:{left.line}: {left.reason}\n")
    if not taken:
        raise changelogs.ChangelogError(f"{path}: every entry is left out")
    return changelogs.branch_lines([entry.node for entry in taken])


def value_of(path: str, lines: list[str]) -> dict[str, object]:
    """The branches of a changelog, as JSON has them."""
    return {"changelog": path, "branches": [line.split()[1:] for line in lines]}


def write_all(paths: list[str], is_json: bool) -> int:
    """Writes the branches of all changelogs, and answers the exit status."""
    status, values = DONE, []
    for path in paths:
        try:
            lines = read_branches(path)
        except changelogs.ChangelogError as error:
            tell(NAME, error)
            status = REFUSED
            continue
        if is_json:
            values.append(value_of(path, lines))
        else:
            write_lines(lines)
    if is_json:
        write_lines([json_text(json.dumps(values, ensure_ascii=False, indent=1))])
    return status


def work(words: list[str]) -> int:
    """Writes the branches of the changelogs that are named."""
    parser = make_parser(NAME, __doc__, "branches [--json] CHANGELOG ..")
    parser.add_argument("--json", action="store_true", help="write JSON instead of lines")
    parser.add_argument(
        "changelogs", nargs="+", metavar="CHANGELOG",
        help="a changelog, plain or gzipped; - is standard input")
    options = parser.parse_args(words)
    return write_all(options.changelogs, options.json)


def main(words: list[str]) -> int:
    """Writes the branches, and answers the exit status."""
    return run(NAME, work, words)
