# Sourced by run, with $top, $room, $ex (the folder of the examples) and the functions of tests/tally.sh: the card and the reader, over a
# pair of pipes and each alone.

gives() { [ "$1" = "$2" ] || { echo "wanted: $1"; echo "got:    $2"; return 1; }; }
zeros() { printf '%0*d' "$1" 0; }

# session KEYS MODE [FAKEY]: writes what the reader says, but for the stand-in's name, and its exit status
card_env=() reader_env=() filter=(cat) # what the card's and the reader's environment have more; what the card's answers go through
card_flag=() reader_flag=()            # the flag of each end's key length
session() {
    rm -f "$room/up" "$room/down"
    mkfifo "$room/up" "$room/down"
    env "${card_env[@]}" timeout 60 "$ex/card" "${card_flag[@]}" ${1:+"$1"} <"$room/up" 2>"$room/card-told" | "${filter[@]}" >"$room/down" &
    env "${reader_env[@]}" timeout 60 "$ex/reader" "${reader_flag[@]}" "$2" "$1" ${3:+"$3"} >"$room/up" <"$room/down" 2>"$room/told"
    local status=$?
    wait
    told $status
}
# told STATUS: what the reader said, but for the stand-in's name, and its exit status
told() { echo "$(grep -v STAND-IN "$room/told" | paste -sd ';'), exit $1"; }

# The Wiegand number of mode 0007 and the UUID of mode 0008, as records and in the door system's form; what a reader tells of each.
wiegand=002A24CF uuid=F81D4FAE7DEC11D0A76500A0C91E6BF6
wiegand_door="00001010100010010011001111  facility 21, number 4711" uuid_door=f81d4fae-7dec-11d0-a765-00a0c91e6bf6
record="record: $wiegand;door: $wiegand_door, exit 0"
uuid_record="record: $uuid;door: $uuid_door, exit 0"
stand_ins() { cat "$room/card-told" "$room/told" | sed -n 's/: a STAND-IN for RSA, which hides nothing.*//p' | paste -sd ' '; }
sessions() { # KEYS: '' is the stand-in
    local name="session, ${1:+RSA}" named=""
    if [ -z "$1" ]; then name="session, stand-in" named="card reader"; fi
    holds "$name: record of mode 0007" gives "$record" "$(session "$1" 0007)"
    holds "$name: both name a stand-in, and RSA is none" gives "$named" "$(stand_ins)"
    holds "$name: record of mode 0008" gives "$uuid_record" "$(session "$1" 0008)"
    holds "$name: the right FAKey as an argument" gives "$record" \
        "$(session "$1" 0007 "$(fa_key 16)")"
    holds "$name: wrong FAKey" gives "reader: no record, number 20, exit 1" "$(session "$1" 0007 "$(zeros 32)")"
    holds "$name: unknown mode" gives "reader: no record, number 20, exit 1" "$(session "$1" 0BAD)"
    holds "$name: unknown mode, its length given" gives "reader: no record, number 20, exit 1" "$(session "$1" 0009:4)"
    lengths "$name" "$1"
    key_lengths "$name" "$1"
    interfaces "$name" "$1"
}
# What the card has counted at the end: a refused final command, for its own interface.
tries() { gives "card: failed tries: contact $1, contactless $2" "$(grep 'failed tries' "$room/card-told")"; }
interfaces() { # NAME KEYS
    local card_flag flag contact
    for flag in '' -contact -contactless -contactless,-L24; do
        card_flag=(${flag//,/ })
        case $flag in -contactless*) contact=0 ;; *) contact=1 ;; esac
        if [[ $flag = *-L24 ]]; then local reader_flag=(-L24); fi
        holds "$1, card $flag: record of mode 0007" gives "$record" "$(session "$2" 0007)"
        holds "$1, card $flag: nothing counted" tries 0 0
        holds "$1, card $flag: unknown mode" gives "reader: no record, number 20, exit 1" "$(session "$2" 0BAD)"
        holds "$1, card $flag: one failed try" tries $contact $((1 - contact))
    done
}
# Both ends have L bytes in a key; or each another L, and the reader ends with 15, as with a card that has none of its sets.
key_lengths() { # NAME KEYS
    local l other card_flag reader_flag
    for l in 16 24 32; do
        card_flag=(-L$l)
        for other in 16 24 32; do
            reader_flag=(-L$other)
            if [ "$l" = "$other" ]; then
                holds "$1, L = $l: record of mode 0007" gives "$record" "$(session "$2" 0007)"
                holds "$1, L = $l: record of mode 0008" gives "$uuid_record" "$(session "$2" 0008)"
                holds "$1, L = $l: the right FAKey as an argument" gives "$record" "$(session "$2" 0007 "$(fa_key "$l")")"
                holds "$1, L = $l: a FAKey with another last byte" gives "reader: no record, number 20, exit 1" \
                    "$(session "$2" 0007 "$(fa_key $((l - 1)))00")"
                holds "$1, L = $l: unknown mode" gives "reader: no record, number 20, exit 1" "$(session "$2" 0BAD)"
            else
                holds "$1: a card with L = $l, a reader with $other" gives "reader: no record, number 15, exit 1" "$(session "$2" 0007)"
            fi
        done
    done
    card_flag=() reader_flag=(-L16)
    holds "$1: a card without a flag has L = 16" gives "$record" "$(session "$2" 0007)"
    card_flag=(-L16) reader_flag=()
    holds "$1: a reader without a flag has L = 16" gives "$record" "$(session "$2" 0007)"
}
# The first so many bytes of set 0102's FAKey, or of another.
old_key='FAKey of set 102 of 24, 32 bytes' new_key='FAKey NEW of 102 of 24, 32 bytes'
fa_key() { printf %s "${2-$old_key}" | head -c "$1" | od -An -v -tx1 | tr -d ' \n'; }
# Reader and card differ in how long the record is. 16 bytes stand before DivData for both modes: more is refused, as is 0. What another
# maker's reader takes for mode 0007, all that stands there, is the Wiegand number and the filler. By its length the reader takes a record
# for a door number: those 16 bytes for a UUID, and the first 4 of the UUID for a Wiegand number, which they are not.
lengths() { # NAME KEYS
    local length
    holds "$1: the record's own length as an argument" gives "$record" "$(session "$2" 0007:4)"
    for length in 0 17 64 65 4294967300 18446744073709551615 99999999999999999999; do
        holds "$1: mode 0007 taken for $length bytes" gives "reader: no record, number 20, exit 1" "$(session "$2" "0007:$length")"
    done
    holds "$1: mode 0008 taken for 17 bytes" gives "reader: no record, number 20, exit 1" "$(session "$2" 0008:17)"
    holds "$1: mode 0007 taken for all that stands there" \
        gives "record: $wiegand$(zeros 24);door: 002a24cf-0000-0000-0000-000000000000, exit 0" "$(session "$2" 0007:16)"
    holds "$1: mode 0008 taken for the other's length" gives "record: ${uuid:0:8};door: refused, number 24, exit 0" "$(session "$2" 0008:4)"
    for length in 1 3 5 15; do
        holds "$1: mode 0008 taken for $length bytes, no door number" gives "record: ${uuid:0:2*length}, exit 0" "$(session "$2" "0008:$length")"
    done
}

# card LINE..: the card's answers and exit status, on one line; what it complains of goes to a file
card() {
    { printf '%s\n' "$@" | env "${card_env[@]}" "$ex/card" "${card_flag[@]}" ${keys:+"$keys"} 2>"$room/complaints"; echo "exit $?"; } | paste -sd ' '
}
keys=
complains() { gives "$1" "$(grep -v 'STAND-IN\|failed tries' "$room/complaints")"; }
# tried FLAG CONTACT CONTACTLESS LINE..: what the card has counted behind these lines
tried() {
    printf '%s\n' "${@:4}" | "$ex/card" ${1:+"$1"} 2>"$room/complaints" >/dev/null
    gives "card: failed tries: contact $2, contactless $3" "$(grep 'failed tries' "$room/complaints")"
}
initial=00870000063004040201020"0"
final=0086000010$(zeros 32)00

# Document 01's edges, what a card says to a final command out of the blue, and lines that are no command.
card_alone() {
    holds "card: statuses" gives "6700 6E00 6D00 6A86 exit 0" "$(card 00870000 80870000 00880000 00860100)"
    holds "card: an empty command" gives "6700 exit 0" "$(card "")"
    holds "card: a final command without a session" grep -Eq '^[0-9A-F]{96}9000 exit 0$' <(card "$final")
    holds "card: an initial command" grep -Eq '^[0-9A-F]{512}9000 exit 0$' <(card "$initial")
    holds "card: nothing to complain of" complains ""
    holds "card: a line without its end" gives 6E00 "$(printf 80870000 | "$ex/card" 2>/dev/null)"
    holds "card: lines that end by two characters" gives "6E00 6D00" "$(printf '80870000\r\n00880000\r\n' | "$ex/card" 2>/dev/null | paste -sd ' ')"
    holds "card: a zero character" gives "6700 6E00" "$(printf '00\00087\n80870000\n' | "$ex/card" 2>/dev/null | paste -sd ' ')"
    holds "card: goes on after lines that are no command" gives "6E00 6700 6700 6D00 exit 1" "$(card 80870000 zz 0087000 00880000)"
    holds "card: names them" complains "card: line 2: not hexadecimal
card: line 3: half a byte, an odd number of digits"
    holds "card: goes on after long lines" gives "6700 6E00 6700 6D00 exit 1" \
        "$(card "00870000FF$(zeros 514)" "80870000FF$(zeros 590)" "00870000FF$(zeros 9990)" 00880000)"
    holds "card: names long lines" complains "card: line 1: too long for a command
card: line 2: too long for a command
card: line 3: too long for a command"
}

# Final commands that are refused are counted; initial ones, and lines that are declined or no command, are not.
card_counts() {
    local flag unknown=00870000063004040277770"0"
    for flag in -contact -contactless; do
        counted() { if [ "$flag" = -contact ]; then tried "$flag" "$1" 0 "${@:2}"; else tried "$flag" 0 "$1" "${@:2}"; fi; }
        holds "card $flag: no line, nothing counted" counted 0 ""
        holds "card $flag: three failed tries" counted 3 "$final" "$final" "$final"
        holds "card $flag: a failed try in a session" counted 1 "$initial" "$final"
        holds "card $flag: initial commands are not counted" counted 0 "$initial" "$unknown" 00870000013000
        holds "card $flag: what is declined is not counted" counted 1 80860000 0086000010 "80${final:2}" "$final" "${final}00" zz 008600
    done
    holds "card: contact where no flag is given" tried '' 2 0 "$final" "$final"
}

# A card that serves readers one behind the other, and finds key sets that are left for it: start_card KEYS, next_session KEYS MODE [FAKEY]
# and so on, end_card. leaving: a session between whose two commands the key sets come that keys_for made.
start_card() {
    rm -f "$room/up" "$room/down" "$room/sets"
    mkfifo "$room/up" "$room/down"
    env "${card_env[@]}" timeout 60 "$ex/card" -sets "$room/sets" "${card_flag[@]}" ${1:+"$1"} <"$room/up" >"$room/down" 2>"$room/card-told" &
    exec 3>"$room/up" 4<"$room/down"
}
end_card() {
    exec 3>&- 4<&-
    wait
}
next_session() {
    env "${reader_env[@]}" timeout 60 "$ex/reader" "${reader_flag[@]}" "$2" "$1" ${3:+"$3"} >&3 <&"${answers-4}" 2>"$room/told"
    told $?
}
leaving() {
    local answers
    exec {answers}< <(leave_behind_first <&4 3>&-)
    next_session "$@"
    exec {answers}<&-
}
leave_behind_first() {
    local answer
    read -r answer
    mv "$room/new" "$room/sets"
    echo "$answer"
    read -r answer
    echo "$answer"
}
# keys_for L SET..: a file of key sets; each is KeySetID and handle in digits, and the text of its FAKey
keys_for() {
    local set
    for set in "${@:2}"; do echo "${set:0:6}$(fa_key "$1" "${set:6}")"; done >"$room/new"
}
set_204='020412FAKey of set 204 of 24, 32 bytes' new_102=010211$new_key

# A key change into a session: it ends under its old key, and the next one is under the new table. Then the set is dropped.
key_changes() { # NAME KEYS
    local l card_flag reader_flag new
    for l in 16 24 32; do
        local name="$1, L = $l, key change"
        card_flag=(-L$l) reader_flag=(-L$l) new=$(fa_key $l "$new_key")
        start_card "$2"
        holds "$name: a session before it" gives "$record" "$(next_session "$2" 0007)"
        keys_for $l "$set_204" "$new_102"
        holds "$name: in a session, which ends under the old key" gives "$record" "$(leaving "$2" 0007)"
        holds "$name: the file is taken" [ ! -e "$room/sets" -a ! -e "$room/new" ]
        holds "$name: the next session, new key" gives "$uuid_record" "$(next_session "$2" 0008 "$new")"
        holds "$name: the next session, old key" gives "reader: no record, number 20, exit 1" "$(next_session "$2" 0007)"
        keys_for $l "$set_204"
        holds "$name: the set is dropped in a session" gives "$record" "$(leaving "$2" 0007 "$new")"
        holds "$name: the next session has no set in common" gives "reader: no record, number 15, exit 1" "$(next_session "$2" 0007 "$new")"
        end_card
        holds "$name: the card says so" loads_are "before line 4: key sets loaded, 2" "before line 10: key sets loaded, 1"
        holds "$name: the old key was counted" tries 1 0
    done
    kept_tables "$1" "$2"
}
loads_are() { gives "$(printf 'card: %s\n' "$@")" "$(grep 'key sets' "$room/card-told")"; }
# A load that is not taken, in a session: that one and the next are as before.
kept_tables() { # NAME KEYS
    local said='key sets declined by 3' handle=1F card_flag=() reader_flag=()
    if [ -n "$2" ]; then said="key sets not loaded, $2/77-public.pem: missing, or no key in it" handle=77; fi
    keys_for 16 "$new_102" "0204$handle$new_key"
    start_card "$2"
    holds "$1, key sets not taken: in a session" gives "$record" "$(leaving "$2" 0007)"
    holds "$1, key sets not taken: the next session" gives "$record" "$(next_session "$2" 0007)"
    end_card
    holds "$1, key sets not taken: the card says so" loads_are "before line 2: $said"
}

# What a card with L = 16 makes of a file of key sets, from none on: the library's numbers in their order, and lines that are no key set.
key_files() {
    local nine=() i
    for i in 1 2 3 4 5 6 7 8 9; do nine+=("0${i}0011$new_key"); done
    file_is "one" "loaded, 1" keys_for 16 "$new_102"
    file_is "eight" "loaded, 8" keys_for 16 "${nine[@]:1}"
    file_is "lines that end by two characters, the last by none" "loaded, 2" written "010211$(fa_key 16)\r\n020411$(fa_key 16)"
    file_is "none" "declined by 1" written ""
    file_is "nine" "declined by 1" keys_for 15 "${nine[@]}" "$new_102"
    file_is "a hundred" "declined by 1" keys_for 16 $(seq -f '%04g11FAKey' 100)
    file_is "a FAKey of 15 bytes" "declined by 22" keys_for 15 "01021F$new_key" "01021F$new_key"
    file_is "a FAKey of 24 bytes" "declined by 22" keys_for 24 "$new_102"
    file_is "no FAKey" "declined by 22" written "010211\n"
    file_is "a FAKey of 272 bytes" "declined by 22" written "010211$(zeros 544)\n"
    file_is "a KeySetID twice" "declined by 2" keys_for 16 "01021F$new_key" "$set_204" "$new_102"
    file_is "the shill handle" "declined by 3" keys_for 16 "$set_204" "01021F$new_key"
    for i in zz 01021 0102 "" "010211$(fa_key 16) "; do
        file_is "a line '$i'" "not loaded, a line of the file is none" written "010211$(fa_key 16)\n$i\n"
    done
    local card_flag=(-sets "$room/none")
    holds "key sets: no file" gives "6E00 exit 0" "$(card 80870000)"
    holds "key sets: no file, nothing said" complains ""
}
written() { printf %b "$1" >"$room/new"; }
# file_is LABEL WORDS COMMAND..: what the card says of the file that the command makes
file_is() {
    local card_flag=(-sets "$room/sets") status=1
    "${@:3}"
    mv "$room/new" "$room/sets"
    case $2 in loaded*) status=0 ;; esac
    holds "key sets, $1: the card goes on" gives "6E00 6D00 exit $status" "$(card 80870000 00880000)"
    holds "key sets, $1: $2" complains "card: before line 1: key sets $2"
    holds "key sets, $1: the file is taken" [ ! -e "$room/sets" ]
}

# usage PROGRAM ARGUMENT..: says how it is called, and ends with 2
usage() {
    "$@" </dev/null 2>"$room/complaints" >"$room/out"
    [ $? -eq 2 ] && grep -q "^usage: ${1##*/} " "$room/complaints" && [ ! -s "$room/out" ]
}
usages() {
    holds "usage: card --help" usage "$ex/card" --help
    holds "usage: card, two arguments" usage "$ex/card" a b
    holds "usage: card, two interfaces" usage "$ex/card" -contact -contactless
    holds "usage: card, an interface that is none" usage "$ex/card" -air
    holds "usage: card, an interface by number" usage "$ex/card" -1
    holds "usage: card, the interface behind the key length" usage "$ex/card" -L16 -contactless
    holds "usage: card, no file of key sets" usage "$ex/card" -sets
    holds "usage: card, a file of key sets without a name" usage "$ex/card" -sets ''
    holds "usage: card, a flag for a file of key sets" usage "$ex/card" -sets -L16
    holds "usage: card, the key sets behind the key length" usage "$ex/card" -L16 -sets file
    holds "usage: card, the key sets before the interface" usage "$ex/card" -sets file -contact
    holds "usage: reader" usage "$ex/reader"
    holds "usage: reader --help" usage "$ex/reader" --help
    holds "usage: reader, a mode of three digits" usage "$ex/reader" 007
    holds "usage: reader, a mode of six digits" usage "$ex/reader" 000007
    holds "usage: reader, a mode whose length is not known" usage "$ex/reader" 0009
    holds "usage: reader, no length behind the colon" usage "$ex/reader" 0007:
    holds "usage: reader, a length that is no number" usage "$ex/reader" 0007:4x
    holds "usage: reader, a length below 0" usage "$ex/reader" 0007:-4
    holds "usage: reader, a short FAKey" usage "$ex/reader" 0007 '' 00
    holds "usage: reader, four arguments" usage "$ex/reader" 0007 '' "$(zeros 32)" x
    key_length_usages card
    key_length_usages reader 0007
    holds "usage: reader, a FAKey of 16 bytes for 24" usage "$ex/reader" -L24 0007 '' "$(zeros 32)"
    holds "usage: reader, a FAKey of 32 bytes for 16" usage "$ex/reader" 0007 '' "$(zeros 64)"
    holds "usage: reader, its flag behind the mode" usage "$ex/reader" 0007 -L24
    holds "usage: watch --help" usage "$ex/watch" --help
}

# A key length that is none of the three.
key_length_usages() { # PROGRAM ARGUMENT..
    local flag
    for flag in -L -L0 -L8 -L20 -L33 -L64 -L016 -L16x -L+24 -l16 --L16 -16; do
        holds "usage: $1 $flag" usage "$ex/$1" "$flag" "${@:2}"
    done
    holds "usage: $1, two flags" usage "$ex/$1" -L16 -L24 "${@:2}"
}

# answered TEXT: what the reader makes of a card that says this, whatever it is asked
answered() {
    printf '%b' "$1" | timeout 60 "$ex/reader" 0007 2>"$room/told" >/dev/null
    told $?
}
# changed SCRIPT: a session in which sed changes the card's answers
changed() {
    local filter=(sed -u "$1")
    session "" 0007
}
reader_alone() {
    local no="reader: no record" none="the line gave no answer to the" first="in answer to the initial command" last="in answer to the final command"
    holds "reader: no answer" gives "reader: line 1: nothing more can be read;$no, fault 102: $none initial command, exit 102" "$(answered '')"
    holds "reader: not hexadecimal" gives "reader: line 1: not hexadecimal;$no, fault 102: $none initial command, exit 102" "$(answered 'no\n')"
    holds "reader: half a byte" gives "reader: line 1: half a byte, an odd number of digits;$no, fault 102: $none initial command, exit 102" \
        "$(answered '90000\n')"
    holds "reader: nobody takes its commands" gives 102 "$("$ex/reader" 0007 2>/dev/null >/dev/full </dev/null; echo $?)"
    holds "reader: a status" gives "$no, fault 103: status 6F00 to the initial command, exit 103" "$(answered '6F00\n')"
    holds "reader: a status behind a block" gives "$no, fault 103: status 6283 to the initial command, exit 103" "$(answered "$(zeros 512)6283\n")"
    holds "reader: a status alone" gives "$no, fault 104: 2 bytes $first, exit 104" "$(answered '9000\n')"
    holds "reader: one byte" gives "$no, fault 104: 1 bytes $first, exit 104" "$(answered '90\n')"
    holds "reader: an empty line" gives "$no, fault 104: 0 bytes $first, exit 104" "$(answered '\n')"
    holds "reader: a block of 255 bytes" gives "$no, fault 104: 257 bytes $first, exit 104" "$(answered "$(zeros 510)9000\n")"
    holds "reader: a block of 257 bytes" gives "$no, fault 104: 259 bytes $first, exit 104" "$(answered "$(zeros 514)9000\n")"
    holds "reader: a block that does not open" gives "$no, number 15, exit 1" "$(answered "$(zeros 512)9000\n")"
    holds "reader: no final answer" gives "reader: line 2: nothing more can be read;$no, fault 102: $none final command, exit 102" "$(changed 1q)"
    holds "reader: a final status" gives "$no, fault 103: status 6F00 to the final command, exit 103" "$(changed '2s/.*/6F00/')"
    holds "reader: a final answer that is too long" gives "$no, fault 104: 114 bytes $last, exit 104" "$(changed "2s/.*/$(zeros 224)9000/")"
    holds "reader: a final answer of a length that none has" gives "$no, number 18, exit 1" "$(changed "2s/.*/$(zeros 60)9000/")"
    holds "reader: another final answer" gives "$no, number 20, exit 1" "$(changed "2s/.*/$(zeros 96)9000/")"
}

# A line on which a command that is answered 6F00 is sent again: a session in which the card's platform fails once.
patient() { # KEYS
    rm -f "$room/up" "$room/down" "$room/card-in" "$room/card-out"
    mkfifo "$room/up" "$room/down" "$room/card-in" "$room/card-out"
    timeout 60 "$ex/reader" 0007 "$1" >"$room/up" <"$room/down" 2>"$room/told" &
    env "${card_env[@]}" timeout 60 "$ex/card" ${1:+"$1"} <"$room/card-in" >"$room/card-out" 2>"$room/complaints" &
    local command answer
    while read -r command; do
        answer=6F00
        while [ "$answer" = 6F00 ]; do
            echo "$command" >&3
            read -r answer <&4 || break
        done
        echo "$answer"
    done <"$room/up" >"$room/down" 3>"$room/card-in" 4<"$room/card-out"
    wait
    grep -v STAND-IN "$room/told" | paste -sd ';'
}

# The examples with a fault put in below the platform (seams.c).
random_faults() {
    local card_env=(FAULT=random:1) reader_env=() ex=$room/seams
    holds "faults: a card without random bytes answers, and goes on" gives "6F00 6E00 exit 1" "$(card "$initial" 80870000)"
    holds "faults: it names the line" complains "card: line 1: no random bytes, answered 6F00"
    holds "faults: its reader hears of it" gives "reader: no record, fault 103: status 6F00 to the initial command, exit 103" "$(session "" 0007)"
    card_env=(FAULT=random:2)
    holds "faults: it keeps its session" gives "${record%,*}" "$(patient "")"
    holds "faults: it named the final command" complains "card: line 2: no random bytes, answered 6F00"
    card_env=() reader_env=(FAULT=random:1)
    holds "faults: a reader without random bytes" gives "reader: no record, fault 105: the platform has no random bytes, exit 105" "$(session "" 0007)"
}
rsa_faults() { # KEYS
    local card_env=(FAULT=public:1) reader_env=() ex=$room/seams keys=$1
    holds "faults: a card without RSA answers, and goes on" gives "6F00 6E00 exit 1" "$(card "$initial" 80870000)"
    holds "faults: it names the line, RSA" complains "card: line 1: RSA failed, answered 6F00"
    holds "faults: it has its next session" gives "${record%,*}" "$(patient "$1")"
    card_env=() reader_env=(FAULT=private:1)
    holds "faults: RSA fails for another set" gives "$record" "$(session "$1" 0007)"
    reader_env=(FAULT=private:2)
    holds "faults: RSA fails for the card's set" gives "reader: no record, fault 106: the platform's RSA failed, exit 106" "$(session "$1" 0007)"
}

# told_erased END LINE..: what an end told of its erasing, in order and each line once
told_erased() { gives "$(printf '%s\n' "${@:2}")" "$(LC_ALL=C sort -u "$room/$1-erased")"; }

# The secrets that stood in what each end erased, and that nothing is left of them: the initial answer's block where RSA failed, too.
erased() { # KEYS
    local l
    for l in 16 24 32; do
        erased_of "$1" "$l"
        erased_change "$1" "$l"
    done
}
erased_of() { # KEYS L
    local card_env=(ERASED="$room/card-erased" KEY_LENGTH="$2") reader_env=(ERASED="$room/reader-erased" KEY_LENGTH="$2") ex=$room/seams
    local card_flag=(-L"$2") reader_flag=(-L"$2") name="erased, L = $2"
    rm -f "$room"/*-erased
    holds "$name: a session" gives "$record" "$(session "$1" 0007)"
    holds "$name: by the card" told_erased card "card FAKey" "card UUID" "card Wiegand" "card shill-key" "fresh RND1" "given shill-key" \
        "loaded FAKey" "loaded UUID" "loaded Wiegand" "loaded shill-key" "outcome FAKey" "outcome RND1" "outcome UUID" "outcome Wiegand" \
        "outcome shill-key" "sets FAKey"
    holds "$name: by the reader" told_erased reader "accepting KeysHash" "blocks RND1" "session FAKey" "session KeysHash" "session RND1" \
        "session RND2" "session Wiegand" "sets FAKey" "text Wiegand-text"
    rm -f "$room"/*-erased
    card_env+=(ERASE=no) reader_env+=(ERASE=no)
    holds "$name: a session without erasing" gives "$record" "$(session "$1" 0007)"
    holds "$name: where nothing is, it is seen" gives 0 "$(cat "$room"/*-erased | grep -vc 'NOT ERASED$')"
    reader_env=(ERASED="$room/reader-erased" KEY_LENGTH="$2")
    rm -f "$room"/*-erased
    holds "$name: a session for the UUID" gives "$uuid_record" "$(session "$1" 0008)"
    holds "$name: by the reader, the UUID" told_erased reader "accepting KeysHash" "blocks RND1" "session FAKey" "session KeysHash" \
        "session RND1" "session RND2" "session UUID" "sets FAKey" "text UUID-text"
    [ -n "$1" ] || return
    rm -f "$room"/*-erased
    card_env=(ERASED="$room/card-erased" KEY_LENGTH="$2" FAULT=public:1)
    session "$1" 0007 >"$room/out"
    holds "$name: the block that was not encrypted" grep -qx 'answer RND1' "$room/card-erased"
}

# A key change in a session: what the file's keys went through, and the card's next value. At the end the card has the new key alone.
erased_change() { # KEYS L
    local card_env=(ERASED="$room/card-erased" KEY_LENGTH="$2") ex=$room/seams
    local card_flag=(-L"$2") reader_flag=(-L"$2") name="erased, L = $2, key change"
    rm -f "$room"/*-erased
    keys_for "$2" "$set_204" "$new_102"
    start_card "$1"
    holds "$name: a session" gives "$record" "$(leaving "$1" 0007)"
    end_card
    holds "$name: by the card" told_erased card "card UUID" "card Wiegand" "card new-FAKey" "card shill-key" "file new-FAKey-text" \
        "file-line new-FAKey" "file-sets new-FAKey" "fresh RND1" "given shill-key" "loaded FAKey" "loaded RND1" "loaded UUID" "loaded Wiegand" \
        "loaded new-FAKey" "loaded shill-key" "outcome FAKey" "outcome RND1" "outcome UUID" "outcome Wiegand" "outcome new-FAKey" \
        "outcome shill-key" "sets FAKey"
}

# The reader's private key of set 0102 is another one.
wrong_rsa_key() {
    cp -r "$room/keys" "$room/other"
    cp "$room/other/22-private.pem" "$room/other/11-private.pem"
    holds "session, RSA: wrong private key" gives "reader: no record, number 15, exit 1" "$(session "$room/other" 0007)"
}
