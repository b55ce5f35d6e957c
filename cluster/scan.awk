# Reads canonical N-Triples in order, and writes what the packing wants to know of them. FOLLOWED is what the command `followed` prints;
# SELECTORS has a line for each pattern of the map: the place of the focus, the predicate, and the other end or `_`.
#
#   arcs         for each triple that is followed, the node that it leads from and the one that it leads to
#   read         each line that is read back, behind its object
#   at_subjects  each subject, with the number of its lines and of their bytes
#   focus.N      the nodes that pattern N selects, as they are printed
#
# Two columns are divided by a carriage return.

function printed(node) {
    return node ~ /^_:anon/ ? "_:anon_" substr(node, 3) : node
}

function end_of_subject() {
    if (lines) print before "\r" lines "\r" bytes > "at_subjects"
}

function select_nodes(predicate, subject, object,    k, n, focus, far) {
    for (k = 1; k <= patterns[predicate]; k++) {
        n = pattern[predicate, k]
        focus = place[n] == "subject" ? subject : object
        far = place[n] == "subject" ? object : subject
        if (other[n] == "_" || other[n] == printed(far)) print printed(focus) > ("focus." n)
    }
}

BEGIN {
    while ((getline row < FOLLOWED) > 0) {
        split(row, word, " ")
        if (word[1] == "read") is_read[substr(word[2], 2)] = 1
        else if (word[2] ~ /^\^/) is_back[substr(word[2], 2)] = 1
        else is_out[word[2]] = 1
    }
    for (n = 0; (getline row < SELECTORS) > 0; n++) {
        split(row, word, "\r")
        place[n] = word[1]
        pattern[word[2], ++patterns[word[2]]] = n
        other[n] = word[3]
    }
}

{
    i = index($0, " ")
    subject = substr($0, 1, i - 1)
    rest = substr($0, i + 1)
    j = index(rest, " ")
    predicate = substr(rest, 1, j - 1)
    object = substr(rest, j + 1, length(rest) - j - 2)
    if (predicate in is_out) print subject "\r" object > "arcs"
    if (predicate in is_back) print object "\r" subject > "arcs"
    if (predicate in is_read) print object "\r" $0 > "read"
    if (predicate in patterns) select_nodes(predicate, subject, object)
    if (subject != before) {
        end_of_subject()
        before = subject
        lines = bytes = 0
    }
    lines++
    bytes += length($0) + 1
}

END { end_of_subject() }
