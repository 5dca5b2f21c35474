# Prints the errors of a source, each after the text of its line with a caret below its column. The first input has the errors, each as
# LINE:COLUMN: error CODE: .., and the second one the lines of the source. The variable `whole` has the codes of errors that concern the
# source as a whole, between blanks. The name of the source is NAME in the environment.
FNR == NR {
    error[++errors] = $0
    split($0, part, ":")
    row[errors] = part[1]
    column[errors] = part[2]
    split($0, part, " ")
    sub(/:$/, "", part[3])
    if (column[errors] !~ /^[0-9]+$/ || index(whole, " " part[3] " ")) row[errors] = 0
    wanted[row[errors]] = 1
    next
}

FNR in wanted { text[FNR] = $0 }

END {
    for (i = 1; i <= errors; i++) {
        if (row[i] in text) {
            print "    " printable(beginning(text[row[i]]))
            caret = caret_below(text[row[i]], column[i])
            if (caret != "") print "    " caret
        }
        print ENVIRON["NAME"] ":" error[i]
    }
}
