# Reads a source as docs/LANGUAGE.md defines, byte by byte, to find the name of its bitmap: set LC_ALL=C. A byte 0 must be replaced, since
# not each awk can read it. `bitmap.awk` defines `take`, which gets each physical line, and `finish`, which gets the tokens of each logical
# line.

{
    sub(/\r$/, "")
    count = split($0, physical, "\r")
    if (count == 0) read_line("")
    for (part = 1; part <= count; part++) read_line(physical[part])
}

# Processes a physical line.
function read_line(s) {
    row++
    if (row == 1) sub(/^\357\273\277/, "", s)
    take(s)
}

# Reads the tokens of a physical line.
function read_tokens(s) {
    if (!open) begin(s)
    else scan(s, 1)
    if (!open) finish()
}

# Begins a logical line. Its tokens are `token[1]` to `token[tokens]`, with the `kind` q for a quoted text, s for a symbol and w for a
# word.
function begin(s,    rest_of, lower) {
    first_row = row; tokens = 0; skipped = 0
    lower = tolower(s)
    if (match(lower, /^[ \t]*\$(keymanweb|kmfl):/)) skipped = 1
    if (match(lower, /^[ \t]*\$(keymanonly|keyman):/)) scan(substr(s, RLENGTH + 1), 0)
    else scan(s, 1)
}

# Reads the tokens of a physical line, and sets `open` if the next line continues it. A comment begins after a blank; `blank` states
# whether one may begin at the start of the text.
function scan(s, blank,    end, first) {
    open = 0
    while (s != "") {
        first = substr(s, 1, 1)
        if (match(s, /^[ \t]+/)) { s = substr(s, RLENGTH + 1); blank = 1; continue }
        if (blank && s ~ /^[cC]([ \t]|$)/) return
        if (s ~ /^\\[ \t]*$/) { open = 1; return }
        blank = 0
        if (first == "'" || first == "\"") {
            end = index(substr(s, 2), first)
            if (end == 0) end = length(s)
            add("q", substr(s, 2, end - 1)); s = substr(s, end + 2)
        } else if (s ~ /^!=/) { add("s", "!="); s = substr(s, 3)
        } else if (index("()[]>+=,", first)) { add("s", first); s = substr(s, 2)
        } else {
            if (s ~ /^[uU][+]/) match(s, /^..[^] \t'"()>+=,[]*/)
            else match(s, /^[^] \t'"()>+=,[]+/)
            end = RLENGTH
            if (substr(s, end, 2) == "!=" && end > 1) end--
            if (substr(s, end) ~ /^\\[ \t]*$/ && end > 1) end--
            add("w", substr(s, 1, end)); s = substr(s, end + 1)
        }
    }
}

function add(what, value) {
    token[++tokens] = value; kind[tokens] = what
}

function sign(at, value) {
    return at <= tokens && kind[at] == "s" && token[at] == value
}

# Returns the word at a position in lower case, or an empty text if the token is not a word.
function word(at) {
    return at <= tokens && kind[at] == "w" ? tolower(token[at]) : ""
}

# Returns the store that `outs` or `$` names at a position.
function put_at(at,    value) {
    value = word(at)
    if (value ~ /^\$./) return substr(value, 2)
    return value == "outs" && sign(at + 1, "(") ? tolower(token[at + 2]) : ""
}
