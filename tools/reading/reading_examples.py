"""Scripts, and the answers that they must have by the rules."""

THREE_BUGS = """
@report foo 1 normal a -> OK 1
@report foo 1 normal b -> OK 2
@report foo 1 normal c -> OK 3
"""

# Each line of an example is a line of a script, an arrow, and the answer.
# A line without an arrow continues the answer, without the blank that indents it.
EXAMPLES = {
    "found opens by order": """
@report foo 1 normal a -> OK 1
close 1 1.0 -> OK 1
found 1 1.0-0 -> OK 1
@show 1 -> Bug 1
 Title: a
 Package: foo
 Severity: normal
 State: open
 Archived: no
 Submitter: ann
 Owner: -
 Forwarded: -
 Tags: -
 Affects: -
 Found: foo/1 foo/1.0-0
 Fixed: foo/1.0
 Blocked by: -
 Blocks: -
 Merged with: -
""",
    "closed without a fixed mark": """
@report foo 1 normal a -> OK 1
close 1 -> OK 1
@list foo 1 -> Bugs in foo at foo/1: 0
found 1 0.5 -> OK 1
@list foo 1 -> Bugs in foo at foo/1: 1
         1  normal     open  a
""",
    "merge joins marks and drops blockers": THREE_BUGS + """
found 1 2 -> OK 1
fixed 2 2 -> OK 2
block 1 by 2 -> OK 1
merge 1 2 -> OK 1 2
@list foo 2 -> Bugs in foo at foo/2: 2
         1  normal     open  a
         2  normal     open  b
notfound 1 2 -> OK 1 2
@list foo 2 -> Bugs in foo at foo/2: 0
""",
    "merge of different bugs": THREE_BUGS + """
severity 2 grave -> OK 2
merge 1 2 -> NO bug 2 differs in severity
forcemerge 1 2 -> OK 1 2
merge 1 2 -> OK, no change.
""",
    "unmerge": THREE_BUGS + """
merge 1 2 3 -> OK 1 2 3
unmerge 1 -> OK 1 2 3
severity 2 minor -> OK 2 3
unmerge 1 -> NO bug 1 is not merged
retitle 2 z -> OK 2
""",
    "forced merges": THREE_BUGS + """
severity 3 grave -> OK 3
merge 1 2 3 -> NO bug 3 differs in severity
severity 1 minor -> OK 1
forcemerge 3 1 -> OK 1 3
merge 1 2 -> NO bug 2 differs in severity
forcemerge 2 1 -> OK 1 2 3
merge 1 1 -> OK, no change.
merge 1 -> NO malformed command
@report bar 1 normal d -> OK 4
forcemerge 1 4 -> NO bug 4 differs in package
""",
    "a branch under a branch": """
@branch foo/6 foo/5 -> OK
@report foo 4 normal a -> OK 1
fixed 1 3 -> OK 1
@list foo 6 -> Bugs in foo at foo/6: 0
@branch foo/5 foo/4 foo/3 -> OK
@list foo 4 -> Bugs in foo at foo/4: 1
         1  normal     open  a
@list foo 5 -> Bugs in foo at foo/5: 1
         1  normal     open  a
@list foo 6 -> Bugs in foo at foo/6: 1
         1  normal     open  a
@list foo 3 -> Bugs in foo at foo/3: 0
notfound 1 4 -> OK 1
@list foo 6 -> Bugs in foo at foo/6: 0
notfixed 1 3 -> OK 1
@list foo 3 -> Bugs in foo at foo/3: 1
         1  normal     open  a
@list foo 9 -> Bugs in foo at foo/9: 1
         1  normal     open  a
""",
    "names of clones": """
@report foo 1 normal a -> OK 1
clone 1 -1 -2 -> OK 2 3
retitle -1 x -> OK 2
block 1 by -2 -> OK 1
clone 1 -1 -> NO name -1 is taken
clone 1 -3 -3 -> NO name -3 is taken
clone 1 -3 -4 -4 -3 -> NO name -3 is taken
clone -9 -9 -> NO no such name -9
clone -1 -1 -> NO name -1 is taken
clone 1 #-03 -> OK 4
severity #-3 minor -> OK 4
@from ann ->
retitle -1 y -> NO no such name -1
""",
    "archive": """
@branch foo/2 foo/1 -> OK
@branch foo/1+s foo/1 -> OK
@report foo 1 normal a -> OK 1
archive 1 -> NO bug 1 is open
close 1 2 -> OK 1
archive 1 -> NO still found in foo/1+s
fixed 1 1+s -> OK 1
archive 1 -> OK 1
severity 1 grave -> NO bug 1 is archived
unarchive 1 -> OK 1
unarchive 1 -> NO bug 1 is not archived
""",
    "unreadable lines": THREE_BUGS + """
a -> NO unknown command
b -> NO unknown command
c -> NO unknown command
d -> NO unknown command
severity 1 -> NO malformed command
 Too many unreadable lines.
severity 1 minor ->
""",
    "tags": """
@report foo 1 normal a -> OK 1
tags 1 patch, help -> OK 1
tags 1 + patch -> OK, no change.
tag 1 - help =moreinfo security -> OK 1
tags 1 + bogus patch -> NO unknown tag
tags 1 +patch+help -> NO unknown tag
tags 1 =help =lfs -> OK 1
tags 1 - lfs -> OK 1
tags 1 = -> OK, no change.
tags 1,patch -> NO malformed command
tags 1 , -> NO malformed command
""",
    "owner, forwarded, submitter": """
@report foo 1 normal a -> OK 1
owner 1 ! -> OK 1
forwarded 1 https://x.example/1 -> OK 1
close 1 2 -> OK 1
reopen 1 bob -> OK 1
reopen 1 zed -> OK, no change.
reassign 1 src:bar 7 -> OK 1
notforwarded 1 -> OK 1
noowner 1 -> OK 1
submitter 1 ! -> OK 1
submitter 1 ann -> OK, no change.
noowner 1 -> OK, no change.
owner 1 -> NO malformed command
@show 1 -> Bug 1
 Title: a
 Package: bar
 Severity: normal
 State: open
 Archived: no
 Submitter: ann
 Owner: -
 Forwarded: -
 Tags: -
 Affects: -
 Found: bar/7
 Fixed: -
 Blocked by: -
 Blocks: -
 Merged with: -
""",
    "blockers": THREE_BUGS + """
block 1 by 2 3 -> OK 1
merge 2 3 -> OK 2 3
block 2 by 3 -> NO bug 3 is in the same set
block 1 by 9 -> NO no such bug 9
unblock 1 with 2 -> OK 1
block 1 by,2 -> NO malformed command
""",
    "marks of other sources": """
@report foo 1 normal a -> OK 1
close 1 1.0 -> OK 1
fixed 1 bar/3 -> OK 1
found 1 2 -> OK 1
found 1 0.9~ -> OK 1
found 1 3-0 -> OK 1
close 1 -> OK 1
reopen 1 -> OK 1
reopen 1 -> OK, no change.
found 1 src:foo/1 -> NO bad version
reassign 1 src:src:foo -> NO bad package name
reassign 1 Foo 1_0 -> NO bad package name
""",
    "branches": """
@branch foo/3 foo/2 foo/1 -> OK
@branch foo/2 foo/9 -> NO conflict at 0
@branch -> NO empty branch
@branch foo -> NO bad version
@branch foo/4 foo/4 -> NO repeated version at 1
""",
    "lists": """
@report foo 1 minor a -> OK 1
@report foo 1 grave b -> OK 2
@report foo - grave c -> OK 3
@list foo 1 -> Bugs in foo at foo/1: 3
         2  grave      open  b
         3  grave      open  c
         1  minor      open  a
close 3 -> OK 3
archive 3 -> OK 3
fixed 2 1 -> OK 2
@list foo 1 -> Bugs in foo at foo/1: 1
         1  minor      open  a
@show 9 -> NO no such bug 9
@list Foo 1 -> NO bad package name
@list foo 1_0 -> NO bad version
@list foo -> Bad directive.
""",
    "names, clones and a branch": """
@branch foo/6 foo/5 -> OK
@report foo 4 normal a -> OK 1
@report foo 4 normal b -> OK 2
merge 1 2 -> OK 1 2
fixed 1 3 -> OK 1 2
clone 1 -1 -> NO bug 1 is merged
unmerge 1 -> OK 1 2
clone 1 -1 -> OK 3
retitle -1 x -> OK 3
@branch foo/5 foo/4 foo/3 -> OK
@list foo 6 -> Bugs in foo at foo/6: 3
         1  normal     open  a
         2  normal     open  b
         3  normal     open  x
""",
    "lists of affected packages": """
@branch foo/2 foo/1 -> OK
@report foo 1 minor a -> OK 1
@report foo - normal b -> OK 2
@report bar 1 grave c -> OK 3
affects 1 bar foo -> OK 1
affects 2 bar -> OK 2
affects 3 foo zed -> OK 3
@list foo 1 -> Bugs in foo at foo/1: 2
         2  normal     open  b
         1  minor      open  a
@list bar 1 -> Bugs in bar at bar/1: 2
         3  grave      open  c
         2  normal     open  b
@list bar foo/2 -> Bugs in bar at foo/2: 2
         2  normal     open  b
         1  minor      open  a
@list zed 1 -> Bugs in zed at zed/1: 0
@list zed bar/1 -> Bugs in zed at bar/1: 1
         3  grave      open  c
found 1 bar/1 -> OK 1
close 2 -> OK 2
@list bar 1 -> Bugs in bar at bar/1: 2
         3  grave      open  c
         1  minor      open  a
affects 1 -bar -> OK 1
@list bar 1 -> Bugs in bar at bar/1: 1
         3  grave      open  c
""",
    "merged bugs affect what one of them did": THREE_BUGS + """
affects 1 bar -> OK 1
affects 2 baz bar -> OK 2
merge 1 2 -> OK 1 2
severity 3 grave -> OK 3
affects 3 zed -> OK 3
forcemerge 3 1 -> OK 1 2 3
@list zed foo/1 -> Bugs in zed at foo/1: 3
         1  grave      open  a
         2  grave      open  b
         3  grave      open  c
affects 2 - bar zed -> OK 1 2 3
affects 1 baz -> OK, no change.
unmerge 2 -> OK 1 2 3
affects 2 zed -> OK 2
affects 3 -> OK 1 3
@list bar foo/1 -> Bugs in bar at foo/1: 0
@list baz foo/1 -> Bugs in baz at foo/1: 1
         2  grave      open  b
@list zed foo/1 -> Bugs in zed at foo/1: 1
         2  grave      open  b
merge 1 2 -> OK 1 2 3
@list baz foo/1 -> Bugs in baz at foo/1: 3
         1  grave      open  a
         2  grave      open  b
         3  grave      open  c
""",
    "clones affect what the bug does": """
@report foo 1 normal a -> OK 1
affects 1 bar -> OK 1
clone 1 -1 -2 -> OK 2 3
affects -1 -bar -> OK 2
affects #-02 = baz -> OK 3
affects -3 baz -> NO no such name -3
@list bar foo/1 -> Bugs in bar at foo/1: 1
         1  normal     open  a
@list baz foo/1 -> Bugs in baz at foo/1: 1
         3  normal     open  a
""",
    "archived bugs and their own package's heads": """
@branch bar/2 bar/1 -> OK
@branch foo/2 foo/1 -> OK
@report foo 1 normal a -> OK 1
affects 1 bar -> OK 1
found 1 bar/1 -> OK 1
close 1 -> OK 1
fixed 1 bar/2 -> OK 1
archive 1 -> NO still found in foo/2
notfixed 1 bar/2 -> OK 1
fixed 1 2 -> OK 1
archive 1 -> OK 1
affects 1 baz -> NO bug 1 is archived
affects 1 -> NO bug 1 is archived
affects 1 Baz -> NO bad package name
@list bar 1 -> Bugs in bar at bar/1: 0
unarchive 1 -> OK 1
@list bar 2 -> Bugs in bar at bar/2: 1
         1  normal     done  a
""",
    "reassigned bugs affect what they did": """
@report foo 1 normal a -> OK 1
affects 1 bar zed -> OK 1
reassign 1 bar 3 -> OK 1
@list zed bar/3 -> Bugs in zed at bar/3: 1
         1  normal     open  a
@list bar 3 -> Bugs in bar at bar/3: 1
         1  normal     open  a
reassign 1 foo -> OK 1
@list bar 3 -> Bugs in bar at bar/3: 1
         1  normal     open  a
affects 1 = -> OK 1
@list bar 3 -> Bugs in bar at bar/3: 0
""",
    "unreadable lines of affects": """
@report foo 1 normal a -> OK 1
affects -> NO malformed command
affects 1, bar -> NO malformed command
affects 1 + -> NO malformed command
affects 1 Bar -> NO bad package name
affects x Bar -> NO malformed command
affects 1 - , -> NO malformed command
 Too many unreadable lines.
affects 1 bar ->
""",
    "malformed lines": """
severity 0 grave -> NO malformed command
severity 1000000000 grave -> NO malformed command
severity ##1 grave -> NO malformed command
severity x bogus -> NO malformed command
@from ann ->
block 1 2 -> NO malformed command
block 1 by , -> NO malformed command
clone 1 -> NO malformed command
clone 1 2 -> NO malformed command
@from ann ->
unmerge 1 2 -> NO malformed command
retitle 1 a\x07 -> NO malformed command
foo\x07 -> NO unknown command
thanks a lot -> NO unknown command
close 1 Foo/1 -> NO bad version
""",
}
