"""The report as one static page, which has no script and needs nothing from elsewhere.

The page is written beside its file and then takes its place, so that none is half written.
Bars are drawings without text: a text browser leaves them out, and loses no figure.
"""

import time
from collections.abc import Callable, Iterable, Iterator

from . import files
from .answers import SEVERITIES, Bug
from .markup import text, title
from .report import CRITICAL, Comparison, Suite, at_least
from .report_text import NONE, comparison_parts, listed_title, versions_told
from .report_unseen import is_unseen, unseen_part
from .terminal import capitalized, plural

BAR_WIDTH, BAR_HEIGHT = 120, 12
# A longer table of versions is folded up.
MOST_ROWS = 100
STYLE = """
body { margin: 1.5rem auto; max-width: 76rem; padding: 0 1rem; line-height: 1.4;
  font-family: "DejaVu Sans", Verdana, sans-serif; font-size: 0.95rem;
  color: #222; background: #fff }
h1 { font-size: 1.6rem } h2 { margin-top: 2.5rem; border-bottom: 1px solid #bbb }
h3 { margin-bottom: 0.4rem }
a { color: #0645ad }
table { border-collapse: collapse; margin: 0.5rem 0 }
caption { text-align: left; font-weight: bold; padding: 0.2rem 0 }
th, td { padding: 0.15rem 0.6rem; text-align: left; vertical-align: top }
thead th { border-bottom: 1px solid #bbb }
td.package { background: #eef1f5; font-weight: bold }
td.count, th.count { text-align: right; font-variant-numeric: tabular-nums; white-space: nowrap }
tr.sum td { border-top: 1px solid #bbb; font-weight: bold }
td.text, td.package, th, pre, h1, h2, summary, nav li { overflow-wrap: anywhere }
table.bugs { width: 100%; table-layout: fixed }
table.bugs th.number { width: 6rem } table.bugs th.severity { width: 6rem }
table.bugs th.state { width: 3.5rem }
@media (max-width: 40rem) {
  th, td { padding: 0.15rem 0.3rem } table.bugs th.state { width: 2.5rem }
  table.bugs th.number { width: 3.5rem } table.bugs th.severity { width: 5rem } }
.figures { display: flex; flex-wrap: wrap; gap: 0.5rem 2rem; align-items: start }
pre { white-space: pre-wrap; background: #f6f6f6; padding: 0.6rem; margin: 0.3rem 0 }
svg { display: block; margin-top: 0.3rem }
.critical { fill: #8b0000 } .grave { fill: #c62828 } .serious { fill: #ef6c3a }
.important { fill: #e0a100 } .normal { fill: #4a7fb5 } .minor { fill: #8fb0cf }
.wishlist { fill: #b5b5b5 }
:target { background: #fff6cc } :target pre { background: #fff6cc }
"""


# Figures.


def bar(count: int, most: int, severity: str) -> str:
    """A bar as long as a count is beside the largest one."""
    width = max(1, round(BAR_WIDTH * count / most)) if count else 0
    return (
        f'<svg width="{BAR_WIDTH}" height="{BAR_HEIGHT}" aria-hidden="true">'
        f'<rect class="{severity}" width="{width}" height="{BAR_HEIGHT}"/></svg>')


def figures(suite: Suite, most: int) -> Iterator[str]:
    """The table of a suite's bugs by severity."""
    yield f"<table><caption>{text(suite.name)}: {plural(len(suite.versions), 'package')}</caption>"
    yield '<thead><tr><th>Severity<th class="count">Bugs<th></thead><tbody>'
    for name in SEVERITIES:
        count = suite.count([name])
        yield f'<tr><td>{name}<td class="count">{count:,}<td>{bar(count, most, name)}'
    yield sum_row("release-critical", [suite.count(at_least(CRITICAL))]) + "<td>"
    yield sum_row("all", [suite.count()]) + "<td>"
    yield "</tbody></table>"


def sum_row(name: str, counts: Iterable[int]) -> str:
    """The row of a sum."""
    return f'<tr class="sum"><td>{name}' + "".join(
        f'<td class="count">{count:,}' for count in counts)


def overview(suites: list[Suite]) -> Iterator[str]:
    """The bars of all suites, on one scale."""
    most = max([1, *(suite.count([name]) for suite in suites for name in SEVERITIES)])
    yield '<h2 id="severities">Bugs by severity</h2>'
    yield "<p>Release-critical bugs are those that are critical, grave or serious."
    yield "The bars of all suites have one scale.</p>"
    yield '<div class="figures">'
    for suite in suites:
        yield from figures(suite, most)
    yield "</div>"


# Suites.


def suite_part(place: int, suite: Suite, severity: str) -> Iterator[str]:
    """The part of a suite: its worst packages, and the bugs listed."""
    yield f'<h2 id="suite-{place}">{text(suite.name)}</h2>'
    yield f"<p>{plural(len(suite.versions), 'package')}, {plural(suite.count(), 'bug')}, "
    yield f"{suite.count(at_least(CRITICAL)):,} of them release-critical.</p>"
    if suite.critical:
        yield from most_table(suite)
    yield f'<h3 id="suite-{place}-bugs">{capitalized(listed_title(severity))}</h3>'
    yield from bug_table(
        suite.listed, lambda package: f"{text(package)} {text(suite.versions[package])}")


def most_table(suite: Suite) -> Iterator[str]:
    """The packages with the most release-critical bugs."""
    yield "<h3>Packages with the most release-critical bugs</h3>"
    yield '<table><thead><tr><th>Package<th>Version<th class="count">Bugs</thead><tbody>'
    for package, count in suite.most():
        yield f'<tr><td class="text">{text(package)}<td class="text">'
        yield f'{text(suite.versions[package])}<td class="count">{count:,}'
    yield "</tbody></table>"


def bug_table(bugs: dict[str, list[Bug]], heading: Callable[[str], str]) -> Iterator[str]:
    """The bugs of packages, each package with its heading and each bug linked to its page."""
    if not bugs:
        yield "<p>None.</p>"
        return
    yield '<table class="bugs"><thead><tr><th class="number count">Bug<th class="severity">Severity'
    yield '<th class="state">State<th>Title</thead>'
    for package in sorted(bugs):
        yield f'<tbody><tr><td class="package" colspan="4">{heading(package)}'
        yield from map(bug_row, bugs[package])
        yield "</tbody>"
    yield "</table>"


def bug_row(bug: Bug) -> str:
    """The row of a bug."""
    return (
        f'<tr><td class="count"><a href="#bug-{bug.number}">{bug.number}</a>'
        f'<td>{bug.severity}<td>{bug.state}<td class="text">{title(bug.title)}')


# Two suites.


def comparison_part(comparison: Comparison, severity: str) -> Iterator[str]:
    """The part of two suites that are compared."""
    yield f'<h2 id="comparison">{text(comparison_title(comparison))}</h2>'
    yield from count_table(comparison)
    for place, (words, bugs) in enumerate(comparison_parts(comparison), 1):
        yield f'<h3 id="comparison-{place}">'
        yield f"{text(capitalized(listed_title(severity)))} {text(words)}</h3>"
        yield from bug_table(bugs, lambda package: text(versions_told(comparison, package)))
    yield from differing_table(comparison)


def comparison_title(comparison: Comparison) -> str:
    """The heading of two suites that are compared."""
    return f"{comparison.first.name} and {comparison.second.name} compared"


def count_table(comparison: Comparison) -> Iterator[str]:
    """How many bugs are in one suite alone, and in both."""
    first, second = text(comparison.first.name), text(comparison.second.name)
    yield '<table><thead><tr><th>Severity'
    yield f'<th class="count">{first} alone<th class="count">{second} alone<th class="count">both'
    yield "</thead><tbody>"
    for name in SEVERITIES:
        cells = "".join(f'<td class="count">{count:,}' for count in comparison.counts[name])
        yield f"<tr><td>{name}{cells}"
    totals = [comparison.total(place, at_least(CRITICAL)) for place in range(3)]
    yield sum_row("release-critical", totals)
    yield sum_row("all", [comparison.total(place) for place in range(3)])
    yield "</tbody></table>"


def differing_table(comparison: Comparison) -> Iterator[str]:
    """The packages whose versions differ; many of them are folded up."""
    packages = comparison.differing()
    yield '<h3 id="comparison-versions">Packages whose versions differ</h3>'
    yield f"<details{'' if len(packages) > MOST_ROWS else ' open'}>"
    yield f"<summary>{plural(len(packages), 'package')}</summary><table><thead><tr><th>Package"
    yield f"<th>{text(comparison.first.name)}<th>{text(comparison.second.name)}</thead><tbody>"
    for package in packages:
        cells = "".join(
            f'<td class="text">{text(version or NONE)}'
            for version in comparison.versions_of(package))
        yield f'<tr><td class="text">{text(package)}{cells}'
    yield "</tbody></table></details>"


# The page.


def head(suites: list[Suite]) -> Iterator[str]:
    """The beginning of the page."""
    names = text(", ".join(suite.name for suite in suites))
    made = time.strftime("%Y-%m-%d at %H:%M UTC", time.gmtime())
    yield '<!DOCTYPE html>\n<html lang="en"><head><meta charset="utf-8">'
    yield '<meta name="viewport" content="width=device-width, initial-scale=1">'
    yield f"<title>Bugs of {names}</title><style>{STYLE}</style></head><body>"
    yield f"<h1>Bugs of {names}</h1><p>Made on {made}.</p>"


def contents(suites: list[Suite], comparison: Comparison | None, severity: str) -> Iterator[str]:
    """The contents list."""
    listed = listed_title(severity)
    yield "<nav><h2>Contents</h2><ul>"
    if is_unseen(suites):
        yield '<li><a href="#unseen">What this report can\'t see</a>'
    yield '<li><a href="#severities">Bugs by severity</a>'
    for place, suite in enumerate(suites, 1):
        yield f'<li><a href="#suite-{place}">{text(suite.name)}</a>: '
        yield f'<a href="#suite-{place}-bugs">{listed}</a>'
    if comparison:
        yield from comparison_contents(comparison)
    yield '<li><a href="#bugs">What is known of each bug</a></ul></nav>'


def comparison_contents(comparison: Comparison) -> Iterator[str]:
    """What the contents list has of a comparison."""
    yield f'<li><a href="#comparison">{text(comparison_title(comparison))}</a>: '
    for place, (words, _) in enumerate(comparison_parts(comparison), 1):
        yield f'<a href="#comparison-{place}">{text(words.partition(":")[0])}</a>, '
    yield '<a href="#comparison-versions">packages whose versions differ</a>'


def bug_part(pages: Iterable[tuple[int, str]]) -> Iterator[str]:
    """What the desk tells of each listed bug."""
    yield '<h2 id="bugs">What is known of each bug</h2>'
    is_empty = True
    for number, page in pages:
        is_empty = False
        rest = page.removeprefix(f"Bug {number}\n")
        yield f'<section id="bug-{number}"><h3>Bug {number}</h3><pre>{text(rest)}</pre></section>'
    if is_empty:
        yield "<p>No bug is listed.</p>"


def parts(
    suites: list[Suite], comparison: Comparison | None, severity: str,
    pages: Iterable[tuple[int, str]],
) -> Iterator[str]:
    """All parts of the page."""
    yield from head(suites)
    yield from contents(suites, comparison, severity)
    if is_unseen(suites):
        yield from unseen_part(suites)
    yield from overview(suites)
    for place, suite in enumerate(suites, 1):
        yield from suite_part(place, suite, severity)
    if comparison:
        yield from comparison_part(comparison, severity)
    yield from bug_part(pages)
    yield "</body></html>"


def test_path(path: str) -> None:
    """Tests early that a page can take the place of what is there."""
    files.test_path(path, "the page")


def write_page(
    path: str, suites: list[Suite], comparison: Comparison | None, severity: str,
    pages: Iterable[tuple[int, str]],
) -> None:
    """Writes the page, which is there whole or not at all."""
    lines = parts(suites, comparison, severity, pages)
    files.write_lines(path, lines, "the page")
