# Sourced, with $top set to the repository: builds what is missing or older than its sources.

# newer FILE SOURCES..: whether FILE is missing, or older than a file below SOURCES; what rt makes, in folders out/, is no source
newer() { [ ! -e "$1" ] || [ -n "$(find -L "${@:2}" -name out -prune -o -type f -newer "$1" -print -quit)" ]; }

# order NAME FILE: NAME and the crates that it depends on, from a crates.txt, as rt builds them: each behind those that it depends on, which
# are taken as its line names them.
order() {
    awk -F: -v wanted="$1" '
        function visit(name,    n, i, of) {
            if (name in seen) return
            seen[name]
            n = split(deps[name], of, " ")
            for (i = 1; i <= n; i++) if (of[i] in deps) visit(of[i])
            print name
        }
        { sub(/#.*/, "") }
        split($1, word, " ") { deps[word[1]] = $2 }
        END { visit(wanted) }' "$2"
}

# progress CRATES..: reads what rt writes while it proves these crates, in this order, and builds the library of the last one; behind that
# 'the library is built'. Says on standard error how far it is. On a terminal that is one line, written anew each second; else there is a
# line for each crate, once done. rt writes nothing of a crate that it finds built: that one is done where rt is at a later one.
progress() {
    local total=$# at=1 last=${*: -1} began=$SECONDS said= part= checked= status
    local begins='^rt: chose --jobs [0-9]+ for ([A-Za-z0-9_]+)$' ends='^crate ([A-Za-z0-9_]+): modules '
    trap '[ ! -t 2 ] || echo >&2; trap - INT; kill -INT $BASHPID' INT
    while [ $# -gt 0 ]; do
        at=$((total - $# + 1))
        [ ! -t 2 ] || printf '\r\033[Kproving crate %d of %d: %s (%d s so far)' "$at" "$total" "$1" $((SECONDS - began)) >&2
        status=0
        IFS= read -r -t 1 part || status=$?
        [ "$status" -ne 1 ] || break
        said+=$part
        [ "$status" -eq 0 ] || continue # a second has passed, and the line is not yet whole
        if [[ $said =~ $begins || $said =~ $ends ]] && [[ " $* " = *" ${BASH_REMATCH[1]} "* ]]; then
            checked=${BASH_REMATCH[1]}
            while [ "$1" != "$checked" ]; do
                told "$((at++)) of $total: $1 was built before"
                shift
            done
        fi
        if [ "$said" = "the library is built" ]; then
            told "$at of $total: $last proved, and the library built"
            set --
        elif [[ $said = logic=* && $1 = "$checked" ]]; then
            if [[ $said != logic=proved* ]]; then
                told "$at of $total: $1 NOT PROVED"
            elif [ "$1" != "$last" ]; then
                told "$at of $total: $1 proved"
                shift
            fi
            checked=
        fi
        said=
    done
    [ ! -t 2 ] || { [ $# -eq 0 ] && printf '\r\033[K%d crates proved, and the library built (%d s)\n' "$total" $((SECONDS - began)) || echo; } >&2
    cat >/dev/null
}
# told LINE: a line of progress, where there is no terminal
told() { [ -t 2 ] || echo "$1" >&2; }

# library: builds the proved library where it has to be, and prints its path
library() {
    local lib=$top/target/staticlib/libplaid.a log=$top/target/staticlib.log status
    if newer "$lib" "$top/crates" "$top/crates.txt"; then
        echo "building the library: each of its functions is proved first, which takes some minutes from nothing" >&2
        mkdir -p "$top/target/staticlib"
        made "$lib" 2>&1 | tee "$log" | progress $(order plaid_c "$top/crates.txt")
        status=${PIPESTATUS[0]}
        [ "$status" -eq 0 ] || { failure "$log" >&2; return "$status"; }
    fi
    echo "$lib"
}
# failure LOG: the end of what rt wrote, without its counts of the modules of its own libraries
failure() { grep -v '^statements [a-z_]*: modules ' "$1" | tail -n 20; }
# made FILE: has rt build the static library, for any x86-64 processor, and copies it
made() {
    (cd "$top/crates/plaid_c" && rt lib --cpu x86-64 && cp out/libplaid_c.a "$1.new" && mv "$1.new" "$1" && echo "the library is built")
}
