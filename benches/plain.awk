# Makes Markdown tables of the workload's calls (first file), what the plugin has counted (second) and what was timed
# (third): see plain/src/main.rs.

function stop(why) {
    print "bench: " why >"/dev/stderr"
    stopped = 1
    exit 1
}

function grouped(n) {
    if (n < 0) return "-" grouped(-n)
    return n < 1000 ? n "" : grouped(int(n / 1000)) sprintf(",%03d", n % 1000)
}

function per_call(sum, name) { return grouped(sprintf("%.0f", sum / made[name]) + 0) }

function side(title, name, count) {
    if (!(name in best)) stop("no time of " title)
    printf "| %-26s | %14s | %7.1f | %9.1f |\n", title, grouped(count), best[name] / 1e6, median[name] / 1e6
}

BEGIN { FS = "\t" }
FILENAME != file { file = FILENAME; files++ }
files == 1 { calls[n = FNR] = $1; if (!made[$1]++) names[++kinds] = $1 }
# Marks with nothing between them; then a test and a call by turns; then the plain store's calls.
files == 2 { counted = FNR }
files == 2 && FNR == 1 { marks = $1; next }
files == 2 && FNR > 2 * n + 1 { each[calls[FNR - 2 * n - 1]] += $1 - marks; plain += $1 - marks; next }
files == 2 && FNR % 2 == 0 { test = $1; tests += $1 - marks }
files == 2 && FNR % 2 == 1 { own[calls[(FNR - 1) / 2]] += $1 - test; whole += $1 - marks }
files == 3 { best[$1] = $2; median[$1] = $3 }
END {
    if (stopped) exit 1
    if (counted != 3 * n + 1) stop("the plugin has not counted each call of the workload")
    print "\n| side                       |   instructions | best ms | median ms |"
    print "|----------------------------|---------------:|--------:|----------:|"
    side("proved calls, whole", "whole", whole)
    side("their soundness tests", "tests", tests)
    side("proved calls, less tests", "less", whole - tests)
    side("plain Rust", "plain", plain)
    printf "| ratio of the last two      | %14.1f | %7.1f | %9.1f |\n", (whole - tests) / plain,
        best["less"] / best["plain"], median["less"] / median["plain"]
    print "\n| call     |    made | proved, less test | plain Rust |  ratio |"
    print "|----------|--------:|------------------:|-----------:|-------:|"
    for (i = 1; i <= kinds; i++) {
        name = names[i]
        printf "| %-8s | %7s | %17s | %10s | %6.1f |\n", name, grouped(made[name]), per_call(own[name], name),
            per_call(each[name], name), own[name] / each[name]
    }
}
