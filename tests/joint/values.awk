# A file in the form of docs/JOINT-TEST.txt, as lines 'section, tab, name, tab, digits'. A value that is not as long as it says is an error.
function put() {
    if (name == "") return
    if (length(digits) != 2 * size || digits ~ /[^0-9a-f]/) { print "bad value: [" section "] " name > "/dev/stderr"; wrong = 1 }
    print section "\t" name "\t" digits
    name = ""
}
/^#/ || /^$/ { put(); next }
/^\[.*\]$/ { put(); section = substr($0, 2, length($0) - 2); next }
/^    / { gsub(/[ -]/, ""); digits = digits tolower($0); next }
match($0, /: [0-9]+ bytes/) { put(); name = substr($0, 1, RSTART - 1); size = substr($0, RSTART + 2) + 0; digits = ""; next }
{ print "cannot be read: " $0 > "/dev/stderr"; wrong = 1 }
END { put(); exit wrong }
