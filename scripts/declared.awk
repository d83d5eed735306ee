# Prints what a file declares for C, a function or a struct a line, in one form for the proved source (.rt), the crate
# in rust/ (.rs) and the header (.h).

function kind(type) {
    gsub(/ /, "", type)
    if (type in alias) type = alias[type]
    if (type == "&mut[u8]" || type == "*mutu8" || type == "uint8_t*") return "mut"
    if (type == "&[u8]" || type == "*constu8" || type == "constuint8_t*") return "const"
    if (type == "size_t") return "usize"
    if (type == "uint64_t") return "u64"
    type = tolower(type)
    gsub(/_/, "", type)
    return type
}

# The source has other words for some parameters, and a slice of it crosses as a pointer and a length.
function parameter(name, type) {
    if (is_source && name in renamed) name = renamed[name]
    return " " name ":" kind(type) (type ~ /\[u8\]/ ? " " name "_len:usize" : "")
}

# A name and its type, as the language at hand writes them.
function named(part, is_parameter, at, name, type) {
    sub(/^ *(pub )?/, "", part)
    sub(/ *$/, "", part)
    if (part == "") return ""
    if (is_header) {
        at = match(part, /[a-z_]+$/)
        name = substr(part, at)
        type = substr(part, 1, at - 1)
    } else {
        at = index(part, ":")
        name = substr(part, 1, at - 1)
        type = substr(part, at + 1)
    }
    return is_parameter ? parameter(name, type) : " " name ":" kind(type)
}

function all_named(part, opening, ending, comma, is_parameter, parts, n, i, line, from) {
    from = index(part, opening) + 1
    n = split(substr(part, from, index(part, ending) - from), parts, comma)
    for (i = 1; i <= n; i++) line = line named(parts[i], is_parameter)
    return line
}

# The word after the first match, or before it.
function after(part, pattern) { match(part, pattern); return substr(part, RSTART + RLENGTH) }
function before(part, pattern) { match(part, pattern); return substr(part, 1, RSTART - 1) }

function show_function(part, name, type) {
    name = before(part, "\\(")
    sub(/.* /, "", name)
    type = is_header ? before(after(part, "HB_NODISCARD "), " ") : after(part, "-> ")
    sub(/;$/, "", type)
    print "fn " name all_named(part, "(", ")", ",", 1) " -> " kind(type)
}

function show_struct(part, name) {
    name = is_header ? after(part, "\\} ") : after(before(part, " \\{"), "struct ")
    sub(/;$/, "", name)
    print "struct " kind(name) all_named(part, "{", "}", is_header ? ";" : ",", 0)
}

function show(pattern, is_function, rest, part) {
    rest = text
    while (match(rest, pattern)) {
        part = substr(rest, RSTART, RLENGTH)
        rest = substr(rest, RSTART + RLENGTH)
        if (is_function) show_function(part)
        else show_struct(part)
    }
}

function drop_remarks(from, to) {
    while (from = index(text, "/*")) {
        to = index(substr(text, from), "*/")
        text = substr(text, 1, from - 1) " " substr(text, from + to + 1)
    }
}

BEGIN {
    renamed["val"] = "value"
    renamed["keys"] = "key_rooms"
    renamed["versions"] = "version_rooms"
    renamed["clashes"] = "list"
}

FNR == 1 { is_header = FILENAME ~ /\.h$/; is_source = FILENAME ~ /\.rt$/ }
!is_header { sub(/\/\/.*/, "") }
is_header && /^#/ { next }
/^type [A-Za-z]+ =/ { type = after($0, "= *"); gsub(/[ ;]/, "", type); alias[$2] = type }
{ text = text " " $0 }

END {
    drop_remarks()
    gsub(/[ \t]+/, " ", text)
    if (is_header) {
        show("HB_NODISCARD [a-z0-9_]+ hb_[a-z0-9_]+\\([^)]*\\);", 1)
        show("typedef struct \\{[^}]*\\} [a-z0-9_]+;", 0)
    } else {
        if (is_source) show("extern \"C\" fn [a-z0-9_]+\\([^)]*\\) -> [A-Za-z0-9]+", 1)
        else show("fn hb_[a-z0-9_]+\\([^)]*\\) -> [A-Za-z0-9]+;", 1)
        show("#\\[repr\\(C\\)\\][^{}]*struct [A-Za-z0-9]+ \\{[^}]*\\}", 0)
    }
}
