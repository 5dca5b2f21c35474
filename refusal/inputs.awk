# Explains a refusal of a touch layout, a script or another input that is not a source in the file that it refers to, with the functions of
# the other files. The variables are `code`, `line`, `rest` (the rest of the refusal after the code) and `bytes` (the size of the file). The
# first printed line states what the refusal means there, or is empty if the code says enough. It ends with a tab and `=` if it is a whole
# explanation. The second line is a hint or empty. The third is the number of the line that has the error, or 0 if no line has it. Then come
# the beginning of that line and a full stop. A byte 0 must be replaced: set LC_ALL=C.
BEGIN {
    counted["P07"] = "event 100,001"
    counted["H2"] = "field 65"
    of_layout = code ~ /^T/
    if (of_layout) begin_layout()
}

{
    sub(/\r$/, "")
    count = split($0, physical, "\r")
    if (count == 0) take_line("")
    for (part = 1; part <= count; part++) take_line(physical[part])
}

END {
    if (code ~ /^(P06|T7)$/) print grouped(bytes) " bytes"
    else if (rest ~ /^(size|rules|stores|elements) /) print grouped(substr(rest, index(rest, " ") + 1)) " " unit_of(rest)
    else print (of_layout ? layout_meaning() : meaning)
    print hint
    print (code == "P06" || utf16 ? 0 : line)
    print printable(text)
    print "."
}

# Returns the unit of the number that a refusal states.
function unit_of(rest) {
    return rest ~ /^size/ ? "bytes" : rest ~ /^rules/ ? "records" : substr(rest, 1, index(rest, " ") - 1)
}

# Processes a physical line.
function take_line(s) {
    row++
    if (row == 1) sub(/^\357\273\277/, "", s)
    if (row == 1 && s ~ /^(\377\376|\376\377|[^\001]\001[^\001]\001|\001[^\001]\001[^\001])/) {
        utf16 = 1; meaning = "the text is in UTF-16"; hint = "Save it as UTF-8."
    }
    if (code == "P01" && meaning == "") find_bytes(s)
    if (of_layout && code != "T7" && !utf16) read_layout(s)
    if (code ~ /^V0[12]$/ && row == 1 && s !~ /^KXTS/) hint = "If the file is a source, compile it first."
    if (code ~ /^E/ && !line) count_events(s)
    if (row == line && !of_layout) take_refused(s)
}

# Processes the line of the refusal.
function take_refused(s) {
    text = beginning(s)
    if (hint == "") hint = hint_of(s)
    if (code == "P03" && press_fault(s) != "") meaning = press_fault(s) "\t="
    if (code in counted) meaning = counted[code]
}

# Finds the line of an event, which the refusal states by its number.
function count_events(s) {
    sub(/^[ \t]+/, "", s)
    if (s ~ /^\[/) events += gsub(/\[/, "[", s)
    else if (s ~ /^(caret|edit|option|preview)/) events++
    if (events >= substr(rest, 7) + 0) line = row
}

# Finds the first byte that is not UTF-8. The refusal itself is for the whole text, and states line 1.
function find_bytes(s,    good, byte) {
    good = valid_bytes(s)
    if (good >= length(s)) return
    for (byte = 128; sprintf("%c", byte) != substr(s, good + 1, 1) && byte < 255; byte++);
    meaning = sprintf("byte %d of line %d is %02X", good + 1, row, byte)
    hint = "Save it as UTF-8."
    line = row
}

# Returns how a script writes a text or a comment, if the refused line has what other languages write.
function hint_of(s,    count, i, pieces) {
    if (code !~ /^P0[234578]/) return ""
    gsub(/'[^']*'|"[^"]*"/, " ", s)
    count = split(s, pieces, /[ \t(),+>=]+/)
    for (i = 1; i <= count; i++) {
        if (pieces[i] ~ /^['"]?(\342\200[\230-\237\271\272]|\302[\253\273])|(\342\200[\230-\237\271\272]|\302[\253\273])$/)
            return "A text is in straight quotes, as in 'a' or \"a\"."
        if (pieces[i] ~ /^(\/\/|\/\*|#)/) return "A comment is a line that begins with #."
    }
    return ""
}
