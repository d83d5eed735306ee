# Reads `objdump -dr` of the archive and prints the most stack that each call takes, in bytes: its own frame with the
# return address, and below it the deepest of what it calls. Functions from outside, as memset, count as nothing.

function number(hex, value, i) {
    for (i = 1; i <= length(hex); i++) value = 16 * value + index("123456789abcdef", substr(hex, i, 1))
    return value
}

function deepest(name, parts, n, i, depth, most) {
    n = split(calls[name], parts, " ")
    for (i = 1; i <= n; i++) {
        depth = parts[i] in frame ? deepest(parts[i]) : 0
        if (depth > most) most = depth
    }
    return frame[name] + most
}

/^[0-9a-f]+ <.*>:$/ { name = substr($2, 2, length($2) - 3); frame[name] = 8 }
$2 == "push" { frame[name] += 8 }
$2 == "sub" && $3 ~ /,%rsp$/ { size = $3; sub(/^\$0x/, "", size); sub(/,.*/, "", size); frame[name] += number(size) }
$2 == "R_X86_64_PLT32" { target = $3; gsub(/^\.text\.|-0x4$/, "", target); calls[name] = calls[name] " " target }

END { for (name in frame) if (name ~ /^hb_/) print name, deepest(name) }
