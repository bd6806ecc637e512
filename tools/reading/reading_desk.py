"""What one command makes of the desk on whole bug records.

A command that changes a shared field changes the record of every bug of the set.
"""

from reading_lines import KEEP, SENDER, SEVERITIES, Refused, is_text
from reading_records import Record, add_record, change_record, change_set, join, status_at
from reading_versions import compare_versions, is_package_name, is_version, node_for, node_text

LAST_NUMBER = 999_999_999


# The commands.
# Each takes the desk, the sender, the numbers of its bugs in the order written, and what is given.
# Each gives the desk afterwards, or raises Refused.


def do_found(desk, sender, numbers, given):
    """Marks a node found, or without a version empties the fixed marks and opens."""
    bug, record = numbers[0], desk.records[numbers[0]]
    if given is None:
        return change_set(desk, bug, fixed=frozenset(), closed=False)
    node = node_for(record.package, given)
    stays_closed = any(compare_versions(node[1], version) < 0 for _, version in record.fixed)
    return change_set(
        desk,
        bug,
        found=record.found | {node},
        fixed=record.fixed - {node},
        closed=record.closed and stays_closed,
    )


def do_notfound(desk, sender, numbers, given):
    """Takes a node out of the found marks."""
    record = desk.records[numbers[0]]
    return change_set(desk, numbers[0], found=record.found - {node_for(record.package, given)})


def do_fixed(desk, sender, numbers, given):
    """Marks a node fixed, and doesn't close."""
    record = desk.records[numbers[0]]
    node = node_for(record.package, given)
    return change_set(desk, numbers[0], found=record.found - {node}, fixed=record.fixed | {node})


def do_notfixed(desk, sender, numbers, given):
    """Takes a node out of the fixed marks, and doesn't open."""
    record = desk.records[numbers[0]]
    return change_set(desk, numbers[0], fixed=record.fixed - {node_for(record.package, given)})


def do_close(desk, sender, numbers, given):
    """Closes, and with a version marks its node fixed."""
    if given is not None:
        desk = do_fixed(desk, sender, numbers, given)
    return change_set(desk, numbers[0], closed=True)


def do_reopen(desk, sender, numbers, given):
    """Opens a closed bug, empties its fixed marks, and may give the set a submitter."""
    if not desk.records[numbers[0]].closed:
        return desk
    desk = change_set(desk, numbers[0], closed=False, fixed=frozenset())
    if given[0] == KEEP:
        return desk
    return change_set(desk, numbers[0], submitter=given_text(given, sender))


def do_severity(desk, sender, numbers, given):
    """Sets the severity."""
    return change_set(desk, numbers[0], severity=given)


def do_tags(desk, sender, numbers, given):
    """Takes the steps over the set of tags from the left."""
    tags = set(desk.records[numbers[0]].tags)
    for sign, tag in given:
        if sign == "=":
            tags.clear()
        elif sign == "+":
            tags.add(tag)
        else:
            tags.discard(tag)
    return change_set(desk, numbers[0], tags=frozenset(tags))


def do_affects(desk, sender, numbers, given):
    """Adds packages that are affected, takes them away, or puts them in the place of all."""
    sign, packages = given
    affected = desk.records[numbers[0]].affected
    if sign == "+":
        affected = affected | set(packages)
    elif sign == "-":
        affected = affected - set(packages)
    else:
        affected = frozenset(packages)
    return change_set(desk, numbers[0], affected=affected)


def do_retitle(desk, sender, numbers, given):
    """Changes the title of one bug alone."""
    return change_record(desk, numbers[0], title=given_text(given, sender))


def do_submitter(desk, sender, numbers, given):
    """Changes the submitter of one bug alone."""
    return change_record(desk, numbers[0], submitter=given_text(given, sender))


def do_reassign(desk, sender, numbers, given):
    """Gives another package and empties the marks, then marks a version found."""
    bug, (package, version_word) = numbers[0], given
    if package != desk.records[bug].package:
        desk = change_set(desk, bug, package=package, found=frozenset(), fixed=frozenset())
    if version_word is None:
        return desk
    node, record = node_for(package, version_word), desk.records[bug]
    return change_set(desk, bug, found=record.found | {node}, fixed=record.fixed - {node})


def state_of(record):
    """The state of a bug as pages and lists write it."""
    return "done" if record.closed else "open"


def check_equal(desk, numbers, fields):
    """Refuses where a listed bug differs from the first, by the first field that differs."""
    first = desk.records[numbers[0]]
    for number in numbers:
        record = desk.records[number]
        for field in fields:
            name = "closed" if field == "state" else field
            if getattr(record, name) != getattr(first, name):
                raise Refused(f"bug {number} differs in {field}")


def merged(desk, numbers):
    """The sets of the listed bugs as one set, whose bugs agree on the shared fields."""
    first = desk.records[numbers[0]]
    listed_records = [desk.records[number] for number in numbers]
    owners = [record.owner for record in listed_records if record.owner is not None]
    desk = join(desk, numbers)
    new_set = desk.sets[numbers[0]]
    return change_set(
        desk,
        numbers[0],
        closed=first.closed,
        forwarded=first.forwarded,
        severity=first.severity,
        owner=owners[0] if owners else None,
        tags=frozenset().union(*(record.tags for record in listed_records)),
        found=frozenset().union(*(record.found for record in listed_records)),
        fixed=frozenset().union(*(record.fixed for record in listed_records)),
        blockers=frozenset().union(*(record.blockers for record in listed_records)) - new_set,
        affected=frozenset().union(*(record.affected for record in listed_records)),
    )


def do_merge(desk, sender, numbers, given):
    """Merges bugs that are equal in package, state, forwarded address and severity."""
    check_equal(desk, numbers, ("package", "state", "forwarded", "severity"))
    return merged(desk, numbers)


def do_forcemerge(desk, sender, numbers, given):
    """Merges bugs of one package; the first bug's other fields hold for all."""
    check_equal(desk, numbers, ("package",))
    return merged(desk, numbers)


def do_unmerge(desk, sender, numbers, given):
    """Takes one bug out of its set."""
    bug = numbers[0]
    alone, others = frozenset([bug]), desk.sets[bug] - {bug}
    if not others:
        raise Refused(f"bug {bug} is not merged")
    return desk._replace(
        sets={**desk.sets, bug: alone, **{member: others for member in others}}
    )


def do_block(desk, sender, numbers, given):
    """Adds blockers, none of which is in the bug's own set."""
    bug, blockers = numbers[0], numbers[1:]
    for blocker in blockers:
        if blocker in desk.sets[bug]:
            raise Refused(f"bug {blocker} is in the same set")
    return change_set(desk, bug, blockers=desk.records[bug].blockers | set(blockers))


def do_unblock(desk, sender, numbers, given):
    """Takes blockers out."""
    return change_set(
        desk, numbers[0], blockers=desk.records[numbers[0]].blockers - set(numbers[1:])
    )


def do_forwarded(desk, sender, numbers, given):
    """Sets the address to which the bug was forwarded."""
    return change_set(desk, numbers[0], forwarded=given_text(given, sender))


def do_notforwarded(desk, sender, numbers, given):
    """Clears the address to which the bug was forwarded."""
    return change_set(desk, numbers[0], forwarded=None)


def do_owner(desk, sender, numbers, given):
    """Sets the owner."""
    return change_set(desk, numbers[0], owner=given_text(given, sender))


def do_noowner(desk, sender, numbers, given):
    """Clears the owner."""
    return change_set(desk, numbers[0], owner=None)


def do_archive(desk, sender, numbers, given):
    """Archives a closed bug that is found at no head of its package."""
    bug, record = numbers[0], desk.records[numbers[0]]
    if not record.closed:
        raise Refused(f"bug {bug} is open")
    for head in desk.ancestry.heads(record.package):
        if status_at(desk, bug, head) == "Found":
            raise Refused(f"still found in {node_text(head)}")
    return change_set(desk, bug, archived=True)


def do_unarchive(desk, sender, numbers, given):
    """Undoes archiving."""
    if not desk.records[numbers[0]].archived:
        raise Refused(f"bug {numbers[0]} is not archived")
    return change_set(desk, numbers[0], archived=False)


def given_text(given, sender):
    """The text that a line gives, which may be the sender."""
    return sender if given[0] == SENDER else given[1]


ACTIONS = {
    "found": do_found,
    "notfound": do_notfound,
    "fixed": do_fixed,
    "notfixed": do_notfixed,
    "close": do_close,
    "reopen": do_reopen,
    "severity": do_severity,
    "tags": do_tags,
    "affects": do_affects,
    "retitle": do_retitle,
    "submitter": do_submitter,
    "reassign": do_reassign,
    "merge": do_merge,
    "forcemerge": do_forcemerge,
    "unmerge": do_unmerge,
    "block": do_block,
    "unblock": do_unblock,
    "forwarded": do_forwarded,
    "notforwarded": do_notforwarded,
    "owner": do_owner,
    "noowner": do_noowner,
    "archive": do_archive,
    "unarchive": do_unarchive,
}


# The step.


def is_blocker(command, place):
    """Whether the bug word at a place of a command stands for a blocker."""
    return command.word in ("block", "unblock") and place > 0


def numbers_of(desk, names, command):
    """The numbers of the bug words; the first word that names no bug at work refuses."""
    numbers = []
    for place, bug in enumerate(command.bugs):
        number = bug if bug > 0 else names.get(bug)
        if number is None:
            raise Refused(f"no such name {bug}")
        if number not in desk.records:
            raise Refused(f"no such bug {number}")
        may_be_archived = command.word == "unarchive" or is_blocker(command, place)
        if desk.records[number].archived and not may_be_archived:
            raise Refused(f"bug {number} is archived")
        numbers.append(number)
    return numbers


def clone(desk, names, bug, new_names):
    """One copy of a bug for each name, and the names with those that are new."""
    if len(desk.sets[bug]) > 1:
        raise Refused(f"bug {bug} is merged")
    for name in new_names:
        if name in names or new_names.count(name) > 1:
            raise Refused(f"name {name} is taken")
    if desk.next + len(new_names) - 1 > LAST_NUMBER:
        raise Refused("no bug number is left")
    for name in new_names:
        names = {**names, name: desk.next}
        desk = add_record(desk, desk.records[bug])
    return desk, names


def step(desk, names, sender, command):
    """The desk and the names after a command, or Refused."""
    numbers = numbers_of(desk, names, command)
    if command.word == "clone":
        return clone(desk, names, numbers[0], command.names)
    return ACTIONS[command.word](desk, sender, numbers, command.given), names


def report(desk, sender, package, version, severity, title):
    """The desk with a new bug; the version is None where none is given."""
    if not is_package_name(package):
        raise Refused("bad package name")
    if version is not None and not is_version(version):
        raise Refused("bad version")
    if severity not in SEVERITIES:
        raise Refused("unknown severity")
    if not is_text(title):
        raise Refused("bad title")
    if desk.next > LAST_NUMBER:
        raise Refused("no bug number is left")
    found = frozenset() if version is None else frozenset([(package, version)])
    return add_record(desk, Record(title, sender, package, severity, found=found))
