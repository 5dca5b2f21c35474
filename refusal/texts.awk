# Parts of lines that a terminal shows: set LC_ALL=C.

# Returns at most the first 300 bytes, without splitting a character.
function beginning(s) {
    if (length(s) <= 300) return s
    s = substr(s, 1, 300)
    sub(/[\300-\377][\200-\277]*$/, "", s)
    return s "..."
}

# Returns a line with a caret below the column, or an empty text if the printed beginning of the line is too short. It keeps tabs, since
# their widths differ.
function caret_below(s, column) {
    s = substr(s, 1, 300)
    gsub(/[\200-\277]/, "", s)
    if (column > length(s)) return ""
    s = substr(s, 1, column - 1)
    gsub(/[^\t]/, " ", s)
    return s "^"
}

# Returns a text in which a terminal finds nothing to obey and no broken character.
function printable(s,    all, good) {
    gsub(/[\001-\010\013-\037\177]/, "?", s)
    for (;;) {
        good = valid_bytes(s)
        all = all substr(s, 1, good)
        if (good >= length(s)) return all
        all = all "?"
        s = substr(s, good + 2)
    }
}

# Returns the number of bytes at the beginning of a text that are UTF-8.
function valid_bytes(s,    found) {
    if (s !~ /[\200-\377]/) return length(s)
    found = "^([\001-\177]|[\302-\337][\200-\277]|\340[\240-\277][\200-\277]|[\341-\354\356\357][\200-\277][\200-\277]|\355[\200-\237]" \
        "[\200-\277]|\360[\220-\277][\200-\277][\200-\277]|" \
        "[\361-\363][\200-\277][\200-\277][\200-\277]|\364[\200-\217][\200-\277][\200-\277])+"
    return match(s, found) ? RLENGTH : 0
}

# Returns a number with commas between thousands.
function grouped(number,    all) {
    for (; length(number) > 3; number = substr(number, 1, length(number) - 3)) all = "," substr(number, length(number) - 2) all
    return number all
}

function characters(value) {
    gsub(/[\200-\277]/, "", value)
    return length(value)
}

function quoted(value) {
    return "'" value "'"
}
