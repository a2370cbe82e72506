# Sourced by tests/joint/run: what docs/STANDARD.md and include/plaid.h say of the line, as calls of the library. Keys, random
# bytes and answers are the joint test's, taken before. says LABEL CALL RESULT: one such call, as 'label, tab, call => result'.
# Each command is sent over the contacts, $interface 0, and through the air, 1, with the same result.
says() { printf '%s\t%s => %s\n' "$1${interface:+, interface $interface}" "$2" "$3"; }
lc() { printf '%02x' $((${#1} / 2)); }
call() { printf 'call interface=%s command=%s fresh=%s out=256' "$interface" "$1" "$2"; }
answered() { printf 'number=0 status=36864 length=%d handle=%d answer=%s session=%s' $((${#2} / 2)) "$1" "$2" "$3"; }

# initial DATA: an initial command
initial() { printf '00870000%s%s00' "$(lc "$1")" "$1"; }
# Data that is answered as a stranger's, and data that opens set 0001 as in session 1.
silent() {
    local section=stranger
    says "$1" "$(call "$(initial "$2")" "$(fresh "$(of 'random string 1')" "$(of PS)")")" "$(answered "$shill" "$(of EM)" -)"
}
opened() {
    local section='session 1'
    says "$1" "$(call "$(initial "$2")" "$(fresh "$(of RND1)" "$(of PS)")")" "$(answered "$ia" "$(of EM)" "$(opened_session)")"
}
# A command that is no PLAID operation gets a status alone. No session is open before it.
status() {
    local section=stranger
    says "$1" "$(call "$2" "$(fresh "" "$(of PS)")")" "number=0 status=$(decimal "$3") length=0 handle=0 answer=- session=-"
}

frame_lines() {
    local list=300404020001
    status "SELECT by the public AID" 00a4040006e02881c4610100 6D00
    status "no Le" "0087000006$list" 6700
    status "Le 10" "0087000006${list}10" 6700
    status "Lc 00, as table 2 has it" "0087000000${list}00" 6700
    status "extended length" "00870000000006${list}0000" 6700
    status "command chaining" "1087000006${list}00" 6E00
    status "logical channel 1" "0187000006${list}00" 6E00
    status "P1 07" "0087070006${list}00" 6A86
    status "GET RESPONSE" 00c0000000 6D00
}

list_lines() {
    opened "list: short form" 300404020001
    opened "list: outer length 81" 30810404020001
    opened "list: an entry's length 81" 30050481020001
    opened "list: outer length 82" 3082000404020001
    opened "list: an entry's length 82" 3006048200020001
    opened "list: outer length FE" "30fe$(zeros 250)0404020001"
    opened "list: an entry's length FE" "30818204fe$(zeros 250)020001"
    opened "list: indefinite form" 3080040200010000
    opened "list: indefinite form, an entry's length 82" 30800482000200010000
    silent "list: outer length FF" "30ff$(zeros 252)0404020001"
    silent "list: an entry's length FF" "30818304ff$(zeros 252)020001"
    silent "list: outer length 82 01 04" 3082010404020001
    silent "list: outer length 2^64 + 4" "308901$(zeros 14)0404020001"
    silent "list: an entry's length 2^64 + 2" "300d048901$(zeros 14)020001"
    silent "list: an entry in the indefinite form" 3006048000010000
    silent "list: indefinite form, an entry in it too" 30800480000100000000
    silent "list: indefinite form, no 00 00" 308004020001
    silent "list: indefinite form, one 00" 30800402000100
    silent "list: indefinite form, bytes behind 00 00" 308004020001000000
    silent "list: 00 00 behind a definite length" 3004040200010000
    silent "list: 00 00 within a definite length" 3006040200010000
    silent "list: constructed OCTET STRING" 3006240404020001
    silent "list: a set of three bytes" 30050403000001
    silent "list: empty" 3000
    silent "list: bytes left over" 30040402000100
    opened "list: 63 entries, the last one held" "3081fc$(for _ in $(seq 62); do printf 0402ffff; done)04020001"
}

# Session 2, whose STR2 is whole blocks, without padding: CBC's first blocks stay, and the card answers as to a stranger.
unpadded_final() {
    local section='session 2' data ps
    data=$(of eSTR2)
    data=${data:0:${#data}-32}
    ps=$(of PS)
    says "unpadded: initial" "$(call "$(of 'IA command')" "$(fresh "$(of RND1)" "$ps")")" "$(answered "$ia" "$(of EM)" "$(opened_session)")"
    section=stranger
    says "unpadded: final" "$(call "00860000$(lc "$data")${data}00" "$(fresh "$(of 'random string 3')" "$ps")")" "$(answered 0 "$(of AESEncrypt)" -)"
}

# Two programs that take turns at one card: neither gets a record.
turns() {
    local section name refusal
    for section in 'session 1' 'session 2'; do
        says "turns: initial, $section" "$(call "$(of 'IA command')" "$(fresh "$(of RND1)" "$(of PS)")")" \
            "$(answered "$ia" "$(of EM)" "$(opened_session)")"
    done
    section=stranger
    refusal=$(of AESEncrypt)
    for name in 'session 1' 'session 2'; do
        says "turns: final, $name" "$(call "${v[$name/FA command]}" "$(fresh "$(of 'random string 3')" "$(of PS)")")" "$(answered 0 "$refusal" -)"
    done
}

# Session 1 with a load of key sets between its commands that drops its set: its answers are the file's. Behind it set 0001 is a stranger's.
key_change() {
    local section='session 1'
    opened "key change: initial" 300404020001
    says "key change: load" "sets sets=2:$ia:$(at 'ShillKey (AES)')" number=0
    says "key change: load, declined" "sets sets=1:$shill:$(of FAKey)" number=3
    says "key change: final" "$(call "$(of 'FA command')" "$(fresh "" "$(of PS)")")" "$(answered 0 "$(of eSTR3)" -)"
    silent "key change: the next initial" 300404020001
}

# The other maker's card: a record of 16 bytes answered without padding, refusals of any length, a KeySetID that is not the entry's.
answer_lines() {
    local section='session 1' start size short response
    start="accept l=16 keyshash=$(of KeysHash) div=$(at DivData) reclen=16"
    short=$(of eSTR3)
    says "answer: unpadded, 32 bytes" "$start response=${short:0:64} work=$(of 'STR3 padded')" "number=20 record=- work=$(zeros 64)80$(zeros 30)"
    for size in 0 16 50 112 256; do
        response=$([ "$size" = 0 ] || zeros $((2 * size)))
        says "answer: $size bytes" "$start response=$(or_none "$response") work=-" "number=18 record=- work=-"
    done
    says "block: another set's KeySetID" "open l=16 ids=2 blocks=$(of EM)" number=15
}

# Session 1's answer, whose body has 16 bytes, taken with other record lengths: what follows the record may be any bytes.
length_lines() {
    local section='session 1' record size
    record=$(of ACSRecord)
    for size in 1 4 15; do
        says "record length $size" "$(taken "$size")" "number=0 record=${record:0:2*size} work=$(of 'STR3 padded')"
    done
    for size in 0 17 18446744073709551615; do
        says "record length $size" "$(taken "$size")" "number=20 record=- work=$(zeros 96)"
    done
}
taken() { echo "accept l=16 keyshash=$(of KeysHash) div=$(at DivData) reclen=$1 response=$(of eSTR3) work=$(of 'STR3 padded')"; }

# As checks, for the calls above.
wire_checks() {
    local section=load interface
    for interface in 0 1; do
        printf 'load\t%s\n' "$(load_line)"
        frame_lines
        list_lines
        unpadded_final
        turns
        key_change
    done >"$room/wire"
    interface=
    { answer_lines; length_lines; } >>"$room/wire"
    cut -f 2 "$room/wire" >"$room/want"
    given >"$room/got"
    paste -d '\t' <(sed 's/\t.*//; s/^/wire: /' "$room/wire") "$room/want" "$room/got"
}
