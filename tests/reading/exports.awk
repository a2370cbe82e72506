# Holds the exports of the static library to the functions that they call, and writes what is wrong with them.
#
#   awk -f exports.awk plaid/src/lib.rt plaid_c/src/lib.rt
#
# Each `pub extern "C" fn` of the one file stands in the other under its name, with the same parameters, result and clauses, word for word,
# and its body there is the one call, of the function of that name with the parameters in their order. Each word that the second file
# brings in for its clauses is the same word of the same file in the first.

function fault(text) {
    print text
    faults++
}

# Notes the words of a `ghost use`, each as its path and the name that it gets.
function note_words(line,    path, list, word, n, i) {
    sub(/^ghost use /, "", line)
    sub(/;$/, "", line)
    if (!match(line, /\.\{.*\}$/)) {
        words[side, line]
        return
    }
    path = substr(line, 1, RSTART)
    list = substr(line, RSTART + 2, RLENGTH - 3)
    n = split(list, word, /, */)
    for (i = 1; i <= n; i++) words[side, path word[i]]
}

# The names of the parameters of a head, which has one line.
function arguments(head,    list, n, i, part, out) {
    sub(/^[^(]*\(/, "", head)
    sub(/\).*/, "", head)
    n = split(head, list, /, */)
    for (i = 1; i <= n; i++) {
        split(list[i], part, ":")
        out = out (i > 1 ? ", " : "") part[1]
    }
    return out
}

FNR == 1 { side++ }
/^ghost use / { note_words($0) }
/^pub extern "C" fn / {
    name = $5
    sub(/\(.*/, "", name)
    exported[side, name] = 1
    head = ""
    inside = 1
}
inside == 1 && /^\{$/ { inside = 2; body = ""; heads[side, name] = head; next }
inside == 1 {
    line = $0
    sub(/^ +/, "", line)
    head = head (head == "" || head ~ /\($/ || line ~ /^\)/ ? "" : " ") line
    sub(/,\)/, ")", head)
}
inside == 2 && /^\}$/ { inside = 0; bodies[side, name] = body; marked[side, name] = marks; next }
inside == 2 {
    line = $0
    sub(/^ +/, "", line)
    body = body line
}
!inside { marks = $0 }

END {
    for (at in exported) {
        split(at, part, SUBSEP)
        name = part[2]
        count[part[1]]++
        if (!((3 - part[1], name) in exported)) fault(name ": in one of the two files alone")
        if (part[1] == 1) continue
        if (heads[1, name] != heads[2, name]) fault(name ": another head or another clause")
        if (bodies[2, name] != "plaid::" name "(" arguments(heads[2, name]) ")") fault(name ": its body is not the call")
        if (marked[2, name] != "#[unsafe(no_mangle)]") fault(name ": not under its own name for C")
    }
    for (at in words) {
        split(at, part, SUBSEP)
        if (part[1] == 2 && !((1, part[2]) in words)) fault(part[2] ": not a word of the other file")
    }
    if (count[2] < 1) fault("no export")
    if (faults) exit 1
    print count[2] " exports, with the contracts of the functions that they call"
}
