# The names of keys and modifiers for a touch layout and a script, and the names nearest to a word.

BEGIN {
    for (i = 0; i < 36; i++) know("key", "K_" substr("ABCDEFGHIJKLMNOPQRSTUVWXYZ0123456789", i + 1, 1))
    for (i = 0; i < 10; i++) know("key", "K_NP" i)
    for (i = 1; i <= 12; i++) know("key", "K_F" i)
    know_all("key", "K_BKSP K_TAB K_ENTER K_ESC K_SPACE K_PGUP K_PGDN K_END K_HOME K_LEFT K_UP K_RIGHT K_DOWN K_INS K_DEL K_NPSTAR " \
        "K_NPPLUS K_NPMINUS K_NPDOT K_NPSLASH K_COLON K_EQUAL K_COMMA K_HYPHEN K_PERIOD K_SLASH K_BKQUOTE K_LBRKT K_BKSLASH " \
        "K_RBRKT K_QUOTE K_oE2")
    know_all("modifier", "LCTRL RCTRL CTRL LALT RALT ALT SHIFT CAPS NCAPS")
    know_all("layout", "K_SHIFT K_CONTROL K_ALT K_CAPS K_NUMLOCK K_SCROLL K_LOPT K_ROPT K_NUMERALS K_SYMBOLS K_CURRENCIES K_UPPER " \
        "K_LOWER K_ALPHA K_SHIFTED K_ALTGR K_TABBACK K_TABFWD K_LSHIFT K_RSHIFT K_LCONTROL K_RCONTROL K_LCTRL K_RCTRL K_LALT K_RALT")
}

function know_all(what, names,    all, count, i) {
    count = split(names, all, " ")
    for (i = 1; i <= count; i++) know(what, all[i])
}

# Adds a name to those of its kind.
function know(what, name) {
    known[what, ++known_count[what]] = name
    is_known[what, tolower(name)] = 1
}

# Returns whether a word is a T_ or U_ name.
function is_own_key(name,    digits, count, i) {
    if (characters(name) > 80) return 0
    if (name ~ /^[tT]_./) return 1
    if (name !~ /^[uU]_[0-9a-fA-F_]+$/) return 0
    count = split(substr(name, 3), digits, "_")
    for (i = 1; i <= count; i++) if (length(digits[i]) < 4 || length(digits[i]) > 6) return 0
    return 1
}

function is_key(name) {
    return ("key", tolower(name)) in is_known || is_own_key(name)
}

# Returns a sentence with the names nearest to a word, or an empty text if there are none or too many of them. `what` is a kind of
# name, or several ones.
function nearest(wrong, what,    all, count, kinds, found, i) {
    if (what ~ /key/ && ("key", "k_" tolower(wrong)) in is_known) return " The name is " name_like("key", "K_" wrong) "."
    kinds = split(what, all, " ")
    for (; kinds; kinds--) for (i = 1; i <= known_count[all[kinds]]; i++) {
        if (!is_near(tolower(wrong), tolower(known[all[kinds], i]))) continue
        found = found (count++ ? ", " : "") known[all[kinds], i]
    }
    if (!count || count > 3) return ""
    return " The nearest name" (count > 1 ? "s are " : " is ") found "."
}

# Returns a name with its own upper and lower case.
function name_like(what, name,    i) {
    for (i = 1; i <= known_count[what]; i++) if (tolower(known[what, i]) == tolower(name)) return known[what, i]
}

# Returns whether two texts differ in one letter: inserted, left out, changed, or two of them swapped.
function is_near(a, b,    at) {
    if (length(a) > length(b)) return is_near(b, a)
    if (length(b) > length(a) + 1 || a == b) return 0
    for (at = 1; substr(a, at, 1) == substr(b, at, 1) && at <= length(a); at++);
    if (length(b) > length(a)) return substr(a, at) == substr(b, at + 1)
    if (substr(a, at + 1) == substr(b, at + 1)) return 1
    return substr(a, at, 1) == substr(b, at + 1, 1) && substr(a, at + 1, 1) == substr(b, at, 1) && substr(a, at + 2) == substr(b, at + 2)
}

# Returns what is wrong with a word where a key is written, or with a modifier before it.
function key_fault(name, is_last) {
    if (is_last && name ~ /^[uU]_[0-9a-fA-F]+$/ && length(name) < 6)
        return quoted(name) " is not the name of a key. A U_ name has 4 to 6 digits, as U_" substr("000", length(name) - 2) \
            substr(name, 3) "."
    if (name ~ /[+,-]/ && name !~ /^T_/) return quoted(name) " is not the name of a key. Separate the words by blanks, as in [SHIFT K_A]."
    if (is_last) return quoted(name) " is not the name of a key." name_hint(nearest(name, "key"))
    return quoted(name) " is not a modifier." nearest(name, "modifier")
}

function name_hint(near) {
    return near == "" ? " \"Keys\" in docs/LANGUAGE.md lists the names." : near
}

# Returns what is wrong with the first bracket of a line of a script.
function press_fault(s,    own, pieces, count, i, words, last, j) {
    if (s ~ /^[ \t]*preview/) sub(/^[ \t]*preview/, "", s)
    if (s !~ /^[ \t]*\[/) return "A bracket is missing, as in preview [K_A]."
    count = split(s, pieces, "]")
    for (i = 1; i <= count; i++) {
        if (pieces[i] !~ /^[ \t]*\[/) break
        if (i == count) return "The bracket is not closed by a ]."
        sub(/^[ \t]*\[/, "", pieces[i])
        gsub(/\t/, " ", pieces[i])
        last = split(pieces[i], words, " ")
        if (!last) return "The bracket is empty."
        for (j = 1; j < last; j++) {
            if (tolower(words[j]) == "ncaps") return "'NCAPS' is only for rules. A key press without CAPS is one without caps lock."
            if (!(("modifier", tolower(words[j])) in is_known)) return press_word_fault(words, j, last)
        }
        if (!is_key(words[last])) return press_word_fault(words, last, last)
        if (!(("key", tolower(words[last])) in is_known)) own = own (own == "" ? "" : " or ") quoted(words[last])
    }
    return own == "" ? "" : own " is not a custom key of this keyboard."
}

function press_word_fault(words, at, last) {
    if (at < last && is_key(words[at]))
        return quoted(words[at]) " comes before " quoted(words[last]) ". A bracket has one key, which comes last."
    if (at == last && ("modifier", tolower(words[at])) in is_known) return "The bracket has no key after " quoted(words[at]) "."
    return key_fault(words[at], at == last)
}
