# Makes Markdown tables of what the plugin has counted (first file) and what was timed (second file): see calls.c.

function stop(why) {
    print "bench: " why >"/dev/stderr"
    stopped = 1
    exit 1
}

# The counts come in the order of the calls; the first is that of the marks with nothing between them.
function next_count() {
    if (++taken >= counts) stop("the plugin has counted too few calls")
    return counted[taken + 1] - counted[1]
}

function grouped(n) { return n < 1000 ? n "" : grouped(int(n / 1000)) sprintf(",%03d", n % 1000) }
function share(a, b) { return a == b ? 1 : a / b }

# Columns, and rules under them that set numbers to the right.
function head(title, line) {
    line = sprintf("| %-29s | open desks | instructions |", "call")
    if (sides == 1) line = line " soundness test |   own part | test's share |  best µs | median µs |"
    else line = line "      other | ratio |   own part |      other | ratio |  best µs |    other | ratio |"
    print "\n### " title "\n\n" line
    gsub(/µ/, "u", line)
    gsub(/[^|]/, "-", line)
    gsub(/-\|/, ":|", line)
    sub(/:/, "-", line)
    print line
}

BEGIN { FS = "\t" }
NR == FNR { counted[++counts] = $1; next }
{
    sides = (NF - 4) / 2
    if ($1 != title) head(title = $1)
    for (i = 1; i <= sides; i++) {
        total[i] = next_count()
        test[i] = $4 ? next_count() : 0
        own[i] = total[i] - test[i]
        best[i] = $(2 * i + 3) / 1000
        median[i] = $(2 * i + 4) / 1000
    }
    printf "| %-29s | %10d | %12s |", $2, $3, grouped(total[1])
    if (sides == 1)
        printf " %14s | %10s | %11.1f%% | %8.1f | %9.1f |\n", grouped(test[1]), grouped(own[1]),
            100 * share(test[1], total[1]), best[1], median[1]
    else
        printf " %10s | %5.2f | %10s | %10s | %5.2f | %8.1f | %8.1f | %5.2f |\n", grouped(total[2]),
            share(total[1], total[2]), grouped(own[1]), grouped(own[2]), share(own[1], own[2]), best[1], best[2],
            share(best[1], best[2])
}
END { if (!stopped && taken + 1 != counts) stop("the plugin has counted more calls than were timed") }
