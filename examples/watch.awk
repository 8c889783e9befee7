# Shows a report as it comes. On a terminal one line tells how far the run is, a failure is named as
# it comes, and the rest stands as it is; elsewhere the report is what it was. A line that begins
# with the text `end` has the status to end with: watch.sh adds it.

function clock(    now) {
    "date +%s" | getline now
    close("date +%s")
    return now
}

BEGIN {
    is_terminal = system("test -t 1") == 0
    begun = clock()
}

end != "" && index($0, end) == 1 { exit substr($0, length(end) + 1) }

!is_terminal || in_blocks { print; next }

# The line that tells how far it is gives way to any other.
{ printf "\r\033[K" }

NR == 1 { total = $1 }

/^====/ { in_blocks = 1 }

/^\[[a-z0-9]+\] (PASSED|SKIPPED|FAILED|CRASHED) / {
    done++
    if ($2 == "FAILED" || $2 == "CRASHED") {
        failed++
        printf "\033[31m%s\033[m\n", $0
    }
    printf "%d/%d (%d%%), %d failed, %d s", done, total, 100 * done / total, failed, clock() - begun
    fflush()
    next
}

{ print; fflush() }
