# Writes CHANGELOG.md as a changelog of Debian: each entry is a day, and the version 0.YYYYMMDD.
# The variable maintainer is whom each entry names.

# Writes the bullet that was read, in lines of at most 78 bytes.
function write_bullet(    count, index_, line, words) {
    count = split(bullet, words, " ")
    line = "  *"
    for (index_ = 1; index_ <= count; index_++) {
        if (length(line " " words[index_]) > 78) {
            print line
            line = "   "
        }
        line = line " " words[index_]
    }
    if (count) print line
    bullet = ""
}

function end_entry(    command, date) {
    write_bullet()
    if (day == "") return
    command = "LC_ALL=C date --utc --rfc-email --date=" day
    command | getline date
    close(command)
    print "\n -- " maintainer "  " date
}

# A link becomes its text.
{ while (match($0, /\]\([^)]*\)/)) $0 = substr($0, 1, RSTART - 1) substr($0, RSTART + RLENGTH)
  gsub(/\[/, "") }

/^## [0-9]+-[0-9]+-[0-9]+$/ {
    end_entry()
    if (day != "") print ""
    day = version = $2
    gsub(/-/, "", version)
    print "boxhumilwa (0." version ") unstable; urgency=medium\n"
    next
}

day != "" && /^- / { write_bullet(); bullet = substr($0, 3); next }

day != "" { bullet = bullet " " $0 }

END { end_entry() }
