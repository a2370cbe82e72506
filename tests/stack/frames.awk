# How many bytes of stack the exported functions reserve, by the library's machine code: FUNCTION=BYTES, a word for each.
#
#   objdump -d -r --no-show-raw-insn LIBRARY | awk -f frames.awk
#
# A function's own frame is its return address, what it pushes and what it takes off the stack pointer. Below it stands the deepest function
# that it calls, or what it uses of the ABI's red zone: the furthest place below the stack pointer that an address in it starts from.
# Of memcpy and memset, which are not the library's, the return address is counted. Machine code that this cannot follow ends it with an
# error: a call or a jump through a pointer, the stack pointer changed in another way, a function that calls itself. A frame of some thousand
# bytes is taken in steps, so that each page is touched; where a loop does that, which compares the stack pointer, it ends with an error, too.

function stop(text) {
    print "frames.awk: " text >"/dev/stderr"
    stopped = 1
    exit 1
}

# The bytes of a function and of the deepest below it.
function bytes(name,    i, below, most) {
    if (name == "memcpy" || name == "memset") return 8
    if (!(name in frame)) stop(name " is called, and is not in the library")
    if (busy[name]) stop(name " calls itself")
    busy[name] = 1
    most = zone[name]
    for (i = 1; i <= calls[name]; i++) {
        below = bytes(called[name, i])
        if (below > most) most = below
    }
    busy[name] = 0
    return frame[name] + most
}

/^[0-9a-f]+ <.*>:$/ {
    here = substr($2, 2, length($2) - 3)
    frame[here] = 8
    next
}
# the address of a call: what a relocation says, behind the call
$2 == "R_X86_64_PLT32" && /^\t\t/ {
    name = $3
    sub(/^\.text\./, "", name)
    sub(/-0x4$/, "", name)
    called[here, ++calls[here]] = name
    waits = 0
    next
}
waits { stop("a call in " here " that no relocation names") }
/(call|jmp) +\*/ { stop("through a pointer: " $0) }
$2 == "call" || $2 ~ /^j/ {
    # a jump inside its function needs no relocation
    waits = $2 == "call" || $4 !~ ("^<" here "\\+0x")
    next
}
$2 ~ /^push/ { frame[here] += 8; next }
$2 == "sub" && $3 ~ /^\$0x[0-9a-f]+,%rsp$/ {
    frame[here] += hex(substr($3, 4, length($3) - 8))
    next
}
$2 == "add" && $3 ~ /^\$0x[0-9a-f]+,%rsp$/ || $2 == "pop" { next }
/%rsp$/ && $2 ~ /^cmp/ { stop("the stack pointer is compared, as where a loop takes from it: " $0) }
/%rsp$/ && $2 !~ /^test/ { stop("the stack pointer is changed: " $0) }
match($0, /-0x[0-9a-f]+\(%rsp/) {
    below = hex(substr($0, RSTART + 3, RLENGTH - 8))
    if (below > zone[here]) zone[here] = below
}

function hex(digits,    i, value) {
    for (i = 1; i <= length(digits); i++) value = 16 * value + index("0123456789abcdef", substr(digits, i, 1)) - 1
    return value
}

END {
    if (stopped) exit 1
    for (name in frame) if (name ~ /^plaid_[a-z_]*$/) print name "=" bytes(name)
}
