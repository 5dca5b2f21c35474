# Prints the name of the bitmap that a source names, with the functions of `source.awk`: the characters of the first store `&bitmap`.

END { if (!found) { if (open) finish(); finished() } }

function take(s) {
    if (!found) read_tokens(s)
}

# Ends a logical line. Keeps the characters of each store, since a later store may contain them.
function finish(    at, name) {
    open = 0
    if (skipped || word(1) != "store" || !sign(2, "(")) return
    name = tolower(token[3])
    if (name in value) return
    value[name] = ""
    for (at = 5; at <= tokens; at++) {
        value[name] = value[name] (put_at(at) in value ? value[put_at(at)] : kind[at] == "q" ? token[at] : character(token[at]))
        if (word(at) == "outs") at += 3
    }
    if (name == "&bitmap") { found = 1; finished() }
}

function finished() {
    printf "%s", value["&bitmap"]
    exit
}

# Returns the character that a number denotes, as UTF-8.
function character(number,    code, i, base, digits) {
    number = tolower(number)
    base = number ~ /^(u[+]|x)/ ? 16 : number ~ /^d/ ? 10 : 8
    sub(/^(u[+]|x|d)/, "", number)
    for (i = 1; i <= length(number); i++) {
        digits = index("0123456789abcdef", substr(number, i, 1)) - 1
        code = code * base + digits
    }
    if (code < 128) return sprintf("%c", code)
    if (code < 2048) return sprintf("%c%c", 192 + int(code / 64), 128 + code % 64)
    if (code < 65536) return sprintf("%c%c%c", 224 + int(code / 4096), 128 + int(code / 64) % 64, 128 + code % 64)
    return sprintf("%c%c%c%c", 240 + int(code / 262144), 128 + int(code / 4096) % 64, 128 + int(code / 64) % 64, 128 + code % 64)
}
