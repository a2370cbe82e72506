# Writes wrong copies of plaid.h, each with one edit, as DIR/KIND-N/plaid.h; what was edited goes to DIR/KIND-N/label.
#
#   awk -v dir=DIR -f wrong.awk plaid.h
#
# constant: a constant is one more; one that takes L is one more for every L, for those over 16, and for those over 24. stack: the same of
# the stack's figures, which tests/stack holds. swapped: two neighbouring fields of a struct change places. moved: the last of three or more
# stands first. typed: a field has another type. missing: one of several is left out. declared: a function takes one argument more.
# reordered: two neighbouring arguments of a function change places. narrowed: a number that a function takes has one byte, to which a
# compiler cuts it.

{ line[NR] = $0 }

# A copy in which the lines of `edit` stand for those of the header.
function write(kind, label,    folder, i) {
    folder = dir "/" kind "-" (++count[kind])
    system("mkdir -p '" folder "'")
    for (i = 1; i <= NR; i++)
        print(i in edit ? edit[i] : line[i]) >(folder "/plaid.h")
    print label >(folder "/label")
    close(folder "/plaid.h")
    close(folder "/label")
    split("", edit)
}

function other_type(of) {
    if (of ~ /^uint/) return substr(of, 2)
    if (of == "size_t") return "ptrdiff_t"
    if (of == "bool") return "uint8_t"
    if (of == "plaid_key_set_id") return "plaid_op_mode_id"
    if (of == "plaid_op_mode_id" || of == "plaid_value") return "plaid_key_set_id"
    return "plaid_key_set"
}

function is_field(text) { return text ~ /^    [a-z][a-z0-9_]* [a-z][^;]*;/ }

# A line with one word in the place of another.
function with(at, old, new,    text) {
    text = line[at]
    sub(old, new, text)
    return text
}

# The field at a line of the struct `inside`, whose first field stands at `first`.
function field(at,    label, alone) {
    label = inside ": " word[2]
    alone = first == at && !is_field(line[at + 1])
    edit[at] = with(at, word[1], other_type(word[1]))
    write("typed", label)
    if (!alone) {
        edit[at] = ""
        write("missing", label)
    }
    if (is_field(line[at + 1])) {
        edit[at] = line[at + 1]
        edit[at + 1] = line[at]
        write("swapped", label " and the next")
    } else if (at > first + 1) {
        edit[first] = line[at] "\n" line[first]
        edit[at] = ""
        write("moved", label)
    }
}

# The declaration of `function_name`, which begins at a line: each two neighbouring arguments.
function reorder(at,    text, end, start, n, argument, i, j, list) {
    text = line[at]
    for (end = at; line[end] !~ /;$/;) text = text line[++end]
    start = index(text, "(")
    n = split(substr(text, start + 1, length(text) - start - 2), argument, / *, */)
    for (i = 1; i < n; i++) {
        list = ""
        for (j = 1; j <= n; j++) list = list (j > 1 ? ", " : "") argument[j == i ? i + 1 : j == i + 1 ? i : j]
        edit[at] = substr(text, 1, start) list ");"
        for (j = at + 1; j <= end; j++) edit[j] = ""
        write("reordered", function_name ": " argument[i] " and the next")
    }
}

# Each size_t at a line of the declaration of `function_name`, as uint8_t.
function narrow(at,    start, name) {
    for (start = 1; match(substr(line[at], start), /size_t [a-z_]+/); start += RSTART + RLENGTH - 1) {
        name = substr(line[at], start + RSTART + 6, RLENGTH - 7)
        edit[at] = substr(line[at], 1, start + RSTART - 2) "uint8_t " substr(line[at], start + RSTART + 6)
        write("narrowed", function_name " " name)
    }
}

END {
    for (i = 1; i <= NR; i++) {
        split(line[i], word, " ")
        if (line[i] ~ /^typedef struct/) {
            inside = word[3]
            first = i + 1
            continue
        }
        if (line[i] ~ /^}/) inside = ""
        if (inside != "" && is_field(line[i])) {
            field(i)
        } else if (line[i] ~ /^#define PLAID_[A-Z0-9_]+ [0-9]/) {
            edit[i] = with(i, " " word[3], " (" word[3] " + 1)")
            write(word[2] ~ /^PLAID_STACK_/ ? "stack" : "constant", word[2])
        } else if (line[i] ~ /^#define PLAID_[A-Z0-9_]+\(l\) /) {
            body = substr(line[i], index(line[i], "(l) ") + 4)
            for (over = 0; over < 32; over += over ? 8 : 16) {
                edit[i] = "#define " word[2] " (((l) > " over ") + " body ")"
                write("constant", word[2] " for L over " over)
            }
        } else if (line[i] ~ /^plaid_[a-z_]+ plaid_[a-z_]+\(/) {
            edit[i] = with(i, "\\(", "(int more, ")
            write("declared", line[i])
            function_name = word[2]
            sub(/\(.*/, "", function_name)
            reorder(i)
        }
        if (function_name != "") narrow(i)
        if (line[i] ~ /;$/) function_name = ""
    }
}
