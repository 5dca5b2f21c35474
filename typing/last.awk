# Prints three lines from a transcript: the line of the last event, the line of the text, and the values of the options as NAME=LIST,
# with a star before those that this event changed. Omits a name that contains a blank, which no source can define.
/^[0-9]+ del=/ { step = $0; split("", changed); next }
/^opt / && NF == 3 { if (!($2 in value)) { names[++count] = $2 } value[$2] = $3; changed[$2] = 1; next }
/^text / { text = $0 }
END {
    print step
    print text
    for (i = 1; i <= count; i++) all = all (i > 1 ? " " : "") (names[i] in changed ? "*" : "") names[i] "=" value[names[i]]
    print all
}
