# Holds docs/READING.md to the crates, and writes what is wrong with it; without fault it writes its sums.
#
#   awk -f page.awk FACTS PAGE
#
# FACTS has a line for each thing that stands in the crates:
#   file PATH LINES        a file of specs/
#   uses PATH OTHER        PATH cites definitions of OTHER, a file of specs/
#   needs PATH CRATE NAME  PATH cites the struct NAME of CRATE
#   has PATH NAME          the definition, struct or exported function NAME stands in PATH

function fault(text) {
    print text
    faults++
}

# The file that a line of the page is for: the first name in it.
function file_of(text) { return match(text, /`[^`]*`/) ? substr(text, RSTART + 1, RLENGTH - 2) : "" }

# Notes each name in backquotes of a text as one that FILE has.
function note_names(file, text,    name) {
    while (match(text, /`[^`]*`/)) {
        name = substr(text, RSTART + 1, RLENGTH - 2)
        named[file, name] = 1
        if (!((file, name) in has)) fault("'" name "' is not in " file)
        text = substr(text, RSTART + RLENGTH)
    }
}

function note_definition(text,    file, cell) {
    file = file_of(text)
    split(text, cell, /\|/)
    if (part == "Claims") claim[file] = ++claims
    else definition[file] = 1
    if (cell[3] + 0 != lines[file]) fault(file ": the page says" cell[3] "lines, the file has " lines[file])
    total[part] += cell[3]
}

# Whether the page has a place for what a file cites: among the definitions, and among the structs.
function check_cited(file,    i) {
    for (i = 1; i <= uses[file]; i++)
        if (!(cited[file, i] in definition)) fault(file " rests on " cited[file, i] ", which is not among the definitions")
    for (i = 1; i <= needs[file]; i++)
        if (!(needed[file, i] in named)) fault(file " rests on a struct that the page does not name: " needed[file, i])
}

FNR == NR && $1 == "file" { lines[$2] = $3 }
FNR == NR && $1 == "uses" { cited[$2, ++uses[$2]] = $3; users[$3] = users[$3] " " $2 }
FNR == NR && $1 == "needs" { needed[$2, ++needs[$2]] = $3 "/src/lib.rt" SUBSEP $4 }
FNR == NR && $1 == "has" { has[$2, $3] = 1; source[$2] = 1; if ($3 ~ /^plaid_/) exported[$3] = 1 }
FNR == NR { next }

/^## / { part = substr($0, 4); next }
/^### / { sections = sections substr($0, 5) "\n"; next }
{
    # every file that the page names, wherever it does
    rest = $0
    while (match(rest, /`[a-z0-9_]+\/(specs|src)\/[^`]*`/)) {
        file = substr(rest, RSTART + 1, RLENGTH - 2)
        times[file]++
        if (!(file in lines) && !(file in source)) fault(file ": no such file")
        rest = substr(rest, RSTART + RLENGTH)
    }
}
/^\| `/ && (part == "Definitions" || part == "Claims") { note_definition($0) }
/^\| `/ && part == "Structs and contracts" { split($0, cell, /\|/); note_names(file_of($0), cell[3]) }
/^- `/ && part == "Laws" { laws++ }
part == "Structs and contracts" { contracts = contracts $0 }

END {
    for (file in lines) if (times[file] != 1) fault(file ": on the page " times[file] + 0 " times")
    if (sections != wanted) fault("the sections of the definitions are not those of document 01 and 02, in their order")
    if (claims != 5) fault("there are " claims + 0 " claims, and not five")
    for (name in exported) if (!index(contracts, "`" name "`")) fault("the page does not name " name)
    check_cited("plaid/src/lib.rt")
    for (file in claim) check_cited(file)
    for (file in definition) {
        count++
        check_cited(file)
        if (users[file] == "") fault(file ": a definition that nothing cites")
    }
    if (faults) exit 1
    print count " files of definitions, " total["Definitions"] " lines; 5 claims; " laws " files of laws"
}
