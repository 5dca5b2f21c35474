# Reads the JSON of a touch layout as far as a refusal needs: finds the place that the refusal states by its numbers (the platform, the
# layer, the row and the key), or for T1 the first byte that is not JSON. A JSON text has no line breaks inside strings, so each physical
# line is read by itself. The members of objects are not stored, except those of the place, and the ids of layers.

# Sets what is looked for.
function begin_layout(    numbers, i) {
    split("phone tablet desktop", platforms, " ")
    split("n ne e se s sw w nw", numbers, " ")
    for (i in numbers) is_direction[numbers[i]] = 1
    split(rest, numbers, " ")
    wanted_platform = numbers[2]
    wanted_layer = numbers[4]
    wanted = numbers[2]
    for (i = 4; i <= 8; i += 2) if (numbers[i]) wanted = wanted "." numbers[i]
    level = numbers[8] ? "key" : numbers[6] ? "row" : numbers[4] ? "layer" : "platform"
    depth = 0
    # What is longer than this is cut, since each step would copy it.
    most_kept = 2000
    await[0] = "value"
}

# Reads a physical line.
function read_layout(s,    count, pieces, i, inside, value) {
    if (json_wrong) return
    line_text = s
    column = 1
    count = split(s, pieces, "\"")
    if (valid_bytes(s) < length(s)) { find_bytes(s); json_wrong = 1; return }
    for (i = 1; i <= count && !json_wrong; i++) {
        if (!inside) { read_signs(pieces[i]); value = ""; value_column = column + length(pieces[i]) }
        else if (length(value) < most_kept) value = value pieces[i]
        column += length(pieces[i]) + 1
        if (inside && is_escaped(pieces[i])) { if (length(value) < most_kept) value = value "\""; continue }
        if (inside && i < count && !json_wrong) read_string(value)
        if (inside && i == count) fail_json("A text has no closing quote.")
        inside = !inside
    }
    # A last piece that is not in a text ends with the line, and so does its word.
    if (!json_wrong) end_word()
}

# Whether the quote after a piece of a text is a part of the text: it follows an odd number of backslashes.
function is_escaped(piece,    end) {
    for (end = length(piece); end && substr(piece, end, 1) == "\\"; end--);
    return (length(piece) - end) % 2
}

# Reads what is between two quotes: signs and words without quotes.
function read_signs(s,    i, c, size) {
    size = length(s)
    for (i = 1; i <= size && !json_wrong; i++) {
        c = substr(s, i, 1)
        if (index("{}[]:, \t", c)) {
            end_word()
            if (c != " " && c != "\t" && !json_wrong) { value_column = column + i - 1; read_sign(c) }
        } else if (length(bare) < most_kept) bare = bare c
    }
    end_word()
}

# Ends a number, `true`, `false` or `null`.
function end_word(    value) {
    if (bare == "" || json_wrong) return
    value = bare
    bare = ""
    if (value ~ /^(\/\/|\/\*|#)/) fail_json("JSON has no comments.")
    else if (await[depth] ~ /name$/) fail_json(quoted(beginning(value)) " is not in double quotes, as the name of a member is.")
    else if (value ~ /^(true|false|null)$/) take_value("literal", value)
    else if (length(value) == most_kept || value ~ /^-?(0|[1-9][0-9]*)([.][0-9]+)?([eE][-+]?[0-9]+)?$/) take_value("number", value)
    else fail_json(quoted(beginning(value)) " is not a JSON value." (value ~ /^'/ ? " A text is in double quotes." : ""))
}

function read_sign(c) {
    if (c == "{" || c == "[") open_value(c)
    else if (c == "}" || c == "]") close_value(c)
    else if (c == ":" && await[depth] == "colon") await[depth] = "value"
    else if (c == "," && await[depth] == "more") await[depth] = holds[depth] == "{" ? "next name" : "next value"
    else fail_json(quoted(c) " is not expected here.")
}

function open_value(c) {
    take_value(c == "{" ? "object" : "list", "")
    if (json_wrong) return
    depth++
    if (depth > 127) fail_json("The JSON is nested more than 127 levels deep.")
    holds[depth] = c
    await[depth] = c == "{" ? "name" : "first value"
    opened[depth] = row
    opened_line[depth] = line_text
    opened_column[depth] = value_column
    item_number[depth] = 0
    role[depth] = value_part
    at_place[depth] = value_place
}

function close_value(c) {
    if (!depth) fail_json(quoted(c) " closes nothing.")
    else if ((c == "}") != (holds[depth] == "{"))
        fail_json(quoted(c) " does not close the " quoted(holds[depth]) " of line " opened[depth] ".")
    else if (await[depth] ~ /^next/) fail_json(quoted(c) " comes after a comma.")
    else if (await[depth] !~ /^(more|name|first value)$/) fail_json("A value is missing before " quoted(c) ".")
    if (role[depth] ~ /key$/) keys_open--
    depth--
}

# Reads a text: the name of a member, or a value.
function read_string(value,    is_cut) {
    is_cut = length(value) >= most_kept
    if (is_cut) value = substr(value, 1, most_kept)
    if (value ~ /[\001-\037]/) fail_json("A text has a tab or another control character.")
    else if (!is_cut && wrong_escape(value) != "") fail_json(quoted(wrong_escape(value)) " is not an escape of JSON.")
    else if (await[depth] ~ /name$/) { name_at[depth] = unescaped(value); await[depth] = "colon" }
    else take_value("text", value)
}

# Returns the first escape that JSON does not have, or that is only half of a pair.
function wrong_escape(value,    at, pair) {
    while (at = index(value, "\\")) {
        value = substr(value, at)
        if (value ~ /^\\["\\\/bfnrt]/) value = substr(value, 3)
        else if (value !~ /^\\u[0-9a-fA-F][0-9a-fA-F][0-9a-fA-F][0-9a-fA-F]/) return substr(value, 1, value ~ /^\\u/ ? 6 : 2)
        else {
            pair = value ~ /^......\\u[dD][c-fC-F]/
            if (value ~ /^\\u[dD][89abAB]/ ? !pair : value ~ /^\\u[dD][c-fC-F]/) return substr(value, 1, 6)
            value = substr(value, value ~ /^\\u[dD][89abAB]/ ? 13 : 7)
        }
    }
    return ""
}

# A value begins here, or is here as a whole.
function take_value(type, value) {
    if (await[depth] !~ /value$/) { fail_json(missing_before()); return }
    await[depth] = "more"
    if (holds[depth] == "[") item_number[depth]++
    find_part(type)
    if (value_place == wanted || level == "platform") note_part(type, value)
    if (role[depth] == "layer" && name_at[depth] == "id" && type == "text") note_layer(unescaped(value))
}

# Returns what is missing before a value.
function missing_before() {
    if (await[depth] ~ /name$/) return "The name of a member is not in double quotes."
    if (await[depth] == "colon") return "A colon is missing."
    return depth ? "A comma is missing." : "Text follows the JSON value."
}

# Sets `value_part` to what a value is for the layout, and `value_place` to its place.
function find_part(type,    above, of, i) {
    above = role[depth]
    of = name_at[depth]
    value_part = ""
    value_place = at_place[depth]
    # Most values are texts of keys.
    if (type ~ /^(text|number|literal)$/ && holds[depth] == "{" && above != "root") return
    if (!depth) value_part = "root"
    else if (above == "root") {
        for (i = 3; i && platforms[i] != of; i--);
        if (i) { value_part = "platform"; value_place = i "" }
    } else if (above == "platform" && of == "layer") value_part = "layers"
    else if (above == "layers") { value_part = "layer"; value_place = placed() }
    else if (above == "layer" && of == "row") value_part = "rows"
    else if (above == "rows") { value_part = "row"; value_place = placed() }
    else if (above == "row" && of == "key") value_part = "keys"
    else if (above == "keys") { value_part = "key"; value_place = placed() }
    else if (above ~ /key$/ && (of == "sk" || of == "multitap")) value_part = "subkeys"
    else if (above == "subkeys") value_part = "subkey"
    else if (above ~ /key$/ && of == "flick") value_part = "flick"
    else if (above == "flick" && of in is_direction) value_part = "subkey"
}

# Returns the place of an item of the list that is read: the numbers above it and its own, with dots.
function placed() {
    return at_place[depth] "." item_number[depth]
}

# Stores what a value at the requested place contains. A key and its subkeys are numbered from 1 on.
function note_part(type, value,    at) {
    if (value_part == level && value_place == wanted) {
        line = row; place_type = type
        text = excerpt(); list = 0
    }
    if (value_part ~ /key$/ && level == "key") {
        key_row[++list] = row; key_text[list] = excerpt(); key_type[list] = type
        stacked[++keys_open] = list
        if (type != "object") keys_open--
    }
    if (role[depth] == level && at_place[depth] == wanted) has[name_at[depth]] = type
    if (role[depth] ~ /key$/ && level == "key" && at_place[depth] == wanted) {
        at = stacked[keys_open - (value_part ~ /key$/ && type == "object")]
        member_type[at, name_at[depth]] = type
        member[at, name_at[depth]] = type == "text" ? unescaped(value) : name_at[depth] == "sp" ? value : ""
    }
}

# Returns the refused part of a line for a terminal: what precedes it is left out if that is long.
function excerpt() {
    return beginning(value_column > 200 ? "..." substr(line_text, value_column, 301) : line_text)
}

function note_layer(id,    numbers) {
    split(at_place[depth], numbers, ".")
    layer_id[numbers[1], numbers[2]] = id
    layer_row[numbers[1], numbers[2]] = row
    if (numbers[2] > layer_count[numbers[1]]) layer_count[numbers[1]] = numbers[2]
}

# Only the first fault is reported, and only for T1: only the program itself decides about others.
function fail_json(what) {
    if (json_wrong) return
    json_wrong = 1
    if (code != "T1") return
    meaning = what "\t="
    line = row
    text = excerpt()
}

# Returns a text without its escapes.
function unescaped(value,    all, at, c) {
    while (at = index(value, "\\")) {
        c = substr(value, at + 1, 1)
        all = all substr(value, 1, at - 1)
        if (c == "u") { all = all escaped_character(substr(value, at + 2, 4)); value = substr(value, at + 6) }
        else { all = all (c ~ /[bfnrt]/ ? " " : c); value = substr(value, at + 2) }
    }
    return all value
}

# Returns the UTF-8 of four hexadecimal digits, or the digits themselves for a half of a pair.
function escaped_character(digits,    code, i) {
    for (i = 1; i <= 4; i++) code = code * 16 + index("0123456789abcdef", tolower(substr(digits, i, 1))) - 1
    if (code < 32 || code >= 55296 && code < 57344) return "\\u" digits
    if (code < 128) return sprintf("%c", code)
    if (code < 2048) return sprintf("%c%c", 192 + int(code / 64), 128 + code % 64)
    return sprintf("%c%c%c", 224 + int(code / 4096), 128 + int(code / 64) % 64, 128 + code % 64)
}

# Returns what a refused layout has at the place of the fault, and sets `line`.
function layout_meaning() {
    if (code == "T1") return meaning != "" || json_wrong || utf16 ? meaning : unclosed()
    if (code == "T7" || json_wrong) return ""
    if (code == "T2") return shape_fault()
    if (code == "T6") return layer_fault()
    return key_meaning()
}

function unclosed() {
    if (!depth) return await[0] == "value" ? "The file has no JSON value.\t=" : ""
    line = opened[depth]
    line_text = opened_line[depth]
    value_column = opened_column[depth]
    text = excerpt()
    return quoted(holds[depth]) " of line " line " is not closed.\t="
}

# What has another shape than it must have.
function shape_fault(    at) {
    if (level == "platform" && wanted_platform == 0) return "The layout is not an object.\t="
    if (place_type != "object") return "The " level " is not an object.\t="
    if (level == "platform") return member_fault("layer", "list")
    if (level == "layer") return member_fault("id", "text") != "" ? member_fault("id", "text") : member_fault("row", "list")
    if (level == "row") return member_fault("key", "list")
    for (at = 1; at <= list; at++) if (key_shape(at) != "") { line = key_row[at]; text = key_text[at]; return key_shape(at) "\t=" }
    return ""
}

function member_fault(of, type) {
    if (!(of in has)) return "The " level " has no `" of "`.\t="
    return has[of] == type ? "" : "The `" of "` of the " level " is not a " type ".\t="
}

function key_shape(at,    i, names, types) {
    if (key_type[at] != "object") return "A key is not an object."
    split("id nextlayer sk multitap flick sp", names, " ")
    split("a text,a text,a list,a list,an object,a number or a text", types, ",")
    for (i = 1; i <= 6; i++) {
        if (!((at, names[i]) in member_type) || index(types[i], " " member_type[at, names[i]])) continue
        return "The `" names[i] "` of " (i == 1 ? "a key" : key_name(at)) " is not " types[i] "."
    }
    return ""
}

function layer_fault(    i, id) {
    id = layer_id[wanted_platform, wanted_layer]
    for (i = 1; tolower(layer_id[wanted_platform, i]) != tolower(id); i++);
    return quoted(beginning(id)) ", which is also the id of the layer in line " layer_row[wanted_platform, i]
}

# Names the key that a rule of keys is about: the first one of the place that breaks the rule. The rules of the source decide which of
# several keys do nothing, and are not known here.
function key_meaning(    at, found, others) {
    for (at = list; at >= 1; at--) if (breaks_rule(at)) { found = at; others++ }
    if (!found) found = 1
    line = key_row[found]
    text = key_text[found]
    hint = rule_hint(found)
    if (code == "T5" && others > 1) return several_keys(found) where_found(1)
    return key_name(found) where_found(found)
}

# Returns the names of the keys from a position on that may do nothing.
function several_keys(found,    at, all) {
    for (at = found; at <= list; at++) if (breaks_rule(at)) all = all (all == "" ? "" : " or ") key_name(at)
    return all
}

function breaks_rule(at,    id) {
    id = member[at, "id"]
    if (code == "T3") return id != "" && !is_key(id) && !(("layout", tolower(id)) in is_known)
    if (code == "T4") return member[at, "nextlayer"] != "" && !has_layer(member[at, "nextlayer"])
    return id ~ /^[tT]_./ && member[at, "nextlayer"] == "" && member[at, "sp"] !~ /^(9|10)$/
}

function has_layer(id,    i) {
    for (i = 1; i <= layer_count[wanted_platform]; i++) if (layer_id[wanted_platform, i] == id) return 1
    return 0
}

function key_name(at) {
    return (member[at, "id"] == "" ? "a key without an id" : quoted(beginning(member[at, "id"]))) \
        (member[at, "text"] == "" ? "" : " (text " quoted(beginning(member[at, "text"])) ")")
}

function where_found(at) {
    return (at > 1 ? ", a subkey of " key_name(1) "," : "") " in layer " quoted(beginning(layer_id[wanted_platform, wanted_layer])) " of " \
        platforms[wanted_platform]
}

function rule_hint(at,    next_layer, i) {
    if (code == "T3") return substr(nearest(member[at, "id"], "key layout"), 2)
    if (code != "T4") return ""
    next_layer = member[at, "nextlayer"]
    for (i = 1; i <= layer_count[wanted_platform]; i++) {
        if (tolower(next_layer) == tolower(layer_id[wanted_platform, i]) || is_near(next_layer, layer_id[wanted_platform, i]))
            return "Its `nextlayer` is " quoted(next_layer) "; the nearest layer is " quoted(layer_id[wanted_platform, i]) "."
    }
    return "Its `nextlayer` is " quoted(beginning(next_layer)) "."
}
