# Sourced by run, with $top, $room and the functions of tests/tally.sh: bin/watch, and what it prints.

# Facts of bin/watch's output, whichever RSA it has.
watch_facts() { # NAME FILE
    holds "$1: the two records on one card" grep -qx '    modes       0007 (record of 4 bytes), 0008 (record of 16 bytes)' "$2"
    holds "$1: a session for each record" gives "0007 0008" "$(sed -n 's/^SESSION FOR MODE \(....\): .*/\1/p' "$2" | paste -sd ' ')"
    holds "$1: a session for each longer L" gives "24 32" "$(sed -n 's/^SESSION WITH KEYS OF \(..\) BYTES: .*/\1/p' "$2" | paste -sd ' ')"
    holds "$1: a longer L is a rule of this house" gives 2 "$(grep -c ': a rule of this house, that no other maker' "$2")"
    holds "$1: the set that wins" gives 6 "$(grep -cx '    entry 1     KeySetID 0102  opens, so this set wins' "$2")"
    holds "$1: one DivData in card, blocks and answers" gives "13 1" \
        "$(sed -n 's/^    DivData *//p' "$2" | sort | uniq -c | awk '{ print $1, NR }')"
    holds "$1: eight refused sessions, and the old key behind a key change" gives 9 "$(grep -c '^REFUSED: ' "$2")"
    holds "$1: the same eight for each longer L" gives "24 32" \
        "$(sed -n 's/^REFUSED WITH KEYS OF \(..\) BYTES: the same 8 sessions, with the same numbers$/\1/p' "$2" | paste -sd ' ')"
    holds "$1: number 15 twice" gives 2 "$(grep -c 'Open gives 15: ' "$2")"
    holds "$1: number 20 five times" gives 5 "$(grep -c 'Accept gives 20: ' "$2")"
    holds "$1: number 21 by Open" gives "a key length that is none" "$(refused_by 'Open gives 21: ' "$2")"
    holds "$1: number 22 by Seal" gives "a FAKey that is not of L bytes" "$(refused_by 'Seal gives 22: ' "$2")"
    holds "$1: a card's refusal tells nothing of it" gives 8 "$(grep -c 'sends the same 48 bytes$' "$2")"
    holds "$1: once the reader alone refuses" gives "wrong record length" "$(refused_by 'card     accepts' "$2")"
    holds "$1: strangers see 256 and 48 bytes, 9000" gives 18 "$(grep -Ec '^    card +(256|48) bytes  ([0-9A-F]{2} ){12}\.\.  9000$' "$2")"
    holds "$1: equal counts for both records, and with a key change" gives 4 "$(grep -Ec '^    encipherments +0 +4$' "$2")"
    holds "$1: one encipherment more for each longer L" gives 2 "$(grep -Ec '^    encipherments +0 +5$' "$2")"
    holds "$1: hash blocks, 2 for L = 32" gives "1 1 1 2 1 1" "$(sed -n 's/^    hash blocks  *0  *//p' "$2" | paste -sd ' ')"
    holds "$1: what is declined for a length" gives "load:21 load:22 load:22 open:21 seal:21 seal:22 seal:22 seal:22 accept:21 accept:22" \
        "$(sed -n 's/^    plaid_\([a-z]*\) .* number \(2[0-9]\)$/\1:\2/p' "$2" | paste -sd ' ')"
    tries_facts "$1" "$2"
    change_facts "$1" "$2"
    holds "$1: a door form with each record" gives "7 7" "$(echo $(grep -c '  handed back$' "$2") $(grep -c '^    door form   ' "$2"))"
    door_facts "$1" "$2"
    holds "$1: twenty records" grep -q 'the final command had 70 and 86\. Twenty sessions gave a record\.$' "$2"
    holds "$1: at most 80 columns" gives 0 "$(awk 'length > 80' "$2" | wc -l)"
    holds "$1: plain characters" gives 0 "$(LC_ALL=C grep -c '[^ -~]' "$2")"
}
# Texts to records, one of them in capitals; and each decline with its number.
door_facts() { # NAME FILE
    holds "$1: door numbers to records" gives "${wiegand_door%% *}=$wiegand ${uuid_door^^}=$uuid" \
        "$(awk '/^DOOR NUMBERS TO/ { on = 1 } on && $1 == "text" { printf "%s%s=", between, $2; between = " " }
            on && $1 == "record" { for (i = 2; i <= NF; i++) printf "%s", $i } /^DOOR NUMBERS DECLINED/ { exit }' "$2")"
    holds "$1: door numbers declined" gives "wiegand_record:23 wiegand_record:25 wiegand_record:24 wiegand_text:23 wiegand_text:24 \
wiegand_text:24 uuid_record:23 uuid_record:25 uuid_record:25 uuid_text:23" \
        "$(sed -n 's/^    plaid_\([a-z]*_[a-z]*\) .* number \(2[0-9]\)$/\1:\2/p' "$2" | paste -sd ' ')"
}
# Sessions on both interfaces. A card's refusal is counted, for the interface of its session; what the card accepts is not.
tries_facts() { # NAME FILE
    holds "$1: each session's interface" gives "contact:0 contactless:1 contactless:1 contact:0 contact:0 contactless:1" \
        "$(sed -n "s/^    interface   \([a-z]*\): the card's platform says \([0-9]\) in each call$/\1:\2/p" "$2" | paste -sd ' ')"
    holds "$1: no failed try in a good session" gives 6 "$(grep -cx '    failed tries    contact 0, contactless 0    not sent' "$2")"
    holds "$1: refused sessions come through the air" gives 9 "$(grep -cx '  as the key holder sees it, interface contactless' "$2")"
    holds "$1: a card's refusal is counted" gives 8 "$(grep -cx '    card     has counted failed tries: contact 0, contactless 1' "$2")"
    holds "$1: the reader's alone is not" gives "wrong record length" "$(refused_by 'has counted failed tries: contact 0, contactless 0' "$2")"
    holds "$1: one card's counts" gives "accepts:0:0 refuses:0:1 refuses:0:2 refuses:1:2 refuses:1:3 accepts:1:3 26:1:3 reset:1:3" \
        "$(awk '/^FAILED TRIES OF ONE CARD/ { on = NR + 1; next } on && /The other card/ { exit }
            on && NR > on { printf "%s%s:%s:%s", between, $(NF - 2), $(NF - 1), $NF; between = " " }' "$2")"
    holds "$1: the other card's counts" grep -qx '    refused too\. It has counted contact 2, contactless 4: no byte tells\.' "$2"
}
# The key change: the two tables, the key of set 0102 that the session keeps and the one that the table gets, the key of the next reader;
# who is refused; and of each further load its number, the session that it falls into and the next one.
change_facts() { # NAME FILE
    part "WITH A KEY CHANGE IN IT" "$2" >"$room/part"
    holds "$1, key change: between the commands" gives "1 2 BETWEEN 3 4" "$(sed -n 's/^\([1-4]\|BETWEEN\) .*/\1/p' "$room/part" | paste -sd ' ')"
    holds "$1, key change: the old table" grep -qx '    old table   0102 (RSA key 11), 0203 (RSA key 12)' "$room/part"
    holds "$1, key change: the new table" grep -qx '    new table   0204 (RSA key 12), 0102 (RSA key 11)' "$room/part"
    holds "$1, key change: the session keeps its key" gives "$(fa_key 16 | tr a-f A-F)" "$(field 'old FAKey' "$room/part")"
    holds "$1, key change: the table has another" gives "$(fa_key 16 "$new_key" | tr a-f A-F)" "$(field 'new FAKey' "$room/part")"
    part "BEHIND THE KEY CHANGE" "$2" >"$room/part"
    holds "$1, key change: the next reader's key" gives "$(fa_key 16 "$new_key" | tr a-f A-F)" "$(field FAKey "$room/part")"
    refused "$1, key change: once" grep -q '^BETWEEN' "$room/part"
    holds "$1, key change: the old key is refused" gives "the old key, behind the key change" "$(refused_by 'Seal, under the old FAKey of set 0102' "$2")"
    holds "$1, key change: further loads" gives "1:record:record 1:record:record 22:record:record 2:record:record 3:record:record 0:record:15" \
        "$(awk '/^KEY SETS LOADED/ { on = 1 } /^$/ { on = 0 } on && (at = index($0, " number ")) {
            $0 = substr($0, at + 8); printf "%s%s:%s:%s", between, $1, $2, $NF; between = " " }' "$2")"
}
# The refused sessions that have such a line.
refused_by() { awk -F ': ' -v text="$1" '/^REFUSED/ { last = $2 } index($0, text) { print last }' "$2"; }

# The lines of a session; of such, the bytes of a field, those of the rows behind a heading, and those of message 1 field by field, as digits.
# A field of over 16 bytes goes on in lines without a name.
part() { awk -v from="^SESSION $1:" '/^(SESSION|KEY|REFUSED|FAILED|DECLINED|DOOR)/ { on = $0 ~ from } on' "$2"; }
field() {
    awk -v name="$1" '
        function bytes(text) { return text ~ /^([0-9A-F][0-9A-F]( |$))+/ }
        { text = substr($0, 17); label = substr($0, 5, 12); sub(/ *$/, "", label); sub(/  .*/, "", text) }
        on && (label != "" || !bytes(text)) { exit }
        label == name && bytes(text) { on = 1 }
        on { print text }' "$2" | tr -d ' \n'
}
rows() { awk -v from="^$1  " '$0 ~ from { on = 1; next } on && /^    ([0-9A-F][0-9A-F] ?)+$/ { print; next } on { exit }' "$2" | tr -d ' \n'; }
fields() {
    awk '/^1  / { on = 1; next } /^$/ { on = 0 } on && substr($0, 15, 2) == "  " { text = substr($0, 17); sub(/  .*/, "", text); print text }' \
        "$1" | tr -d ' \n'
}
binary() { printf '%b' "$(printf '%s' "$1" | sed 's/../\\x&/g')"; }
digits() { od -An -v -tx1 | tr -d ' \n' | tr a-f A-F; }

# The initial command of a session, as it went over the line and field by field.
initial_is() {
    local bytes
    bytes=$(printf '%s' "$@")
    gives "$bytes $bytes" "$(rows 1 "$room/part") $(fields "$room/part")"
}

# The reader's result is the record's own bytes, and beside it stands the filler. RND1, RND2 and KeysHash have L bytes.
session_facts() { # NAME FILE SESSION L RECORD FILLER DOOR: the filler and the door form as they are shown
    part "$3" "$2" >"$room/part"
    holds "$1, $3: the list, in short forms" initial_is 00870000 0A 3008 04020301 04020102 00
    holds "$1, $3: the record" gives "$5" "$(field record "$room/part")"
    holds "$1, $3: the door form" gives "    door form   $7" "$(grep '^    door form ' "$room/part")"
    holds "$1, $3: the filler" gives "    filler      $6" "$(grep '^    filler ' "$room/part")"
    holds "$1, $3: RND1 and RND2 of $4 bytes" gives "$((2 * $4)) $((2 * $4))" "$(echo $(field RND1 "$room/part" | wc -c) $(field '- RND2' "$room/part" | wc -c))"
    holds "$1, $3: KeysHash" keys_hash_is "$room/part" "$4"
}

# Another maker's list with the same KeySetIDs: indefinite form, and the length 82 00 02. The card takes it, and the record comes.
other_list_facts() { # NAME FILE
    part "WITH ANOTHER MAKER'S LIST" "$2" >"$room/part"
    holds "$1, other list: its bytes" initial_is 00870000 0E 3080 04020301 048200020102 0000 00
    holds "$1, other list: the card opens a session" grep -qx '    card     holds set 0102: RSA key 11, session open' "$room/part"
    holds "$1, other list: the reader finds the set" grep -qx '    reader   Open finds entry 1, set 0102' "$room/part"
    holds "$1, other list: compared places go by Lc" grep -q '^    card     makes 24 comparisons: ' "$room/part"
    holds "$1, other list: the record" gives "$wiegand" "$(field record "$room/part")"
    holds "$1, other list: the door form" gives "    door form   $wiegand_door" "$(grep '^    door form ' "$room/part")"
}

# KeysHash is the first L bytes of SHA-256 of RND1 and RND2, by another program.
keys_hash_is() { # FILE L
    gives "$(field '- KeysHash' "$1")" "$(binary "$(field RND1 "$1")$(field '- RND2' "$1")" | sha256sum | head -c $((2 * $2)) | tr a-f A-F)"
}

# By openssl: STR2 under the diversified key, and the answer under KeysHash. For L over 16 the key is the first L bytes of two enciphered
# blocks, DivData and DivData with the top bit of its first byte flipped.
deciphered() { binary "$3" | openssl enc -d -aes-$((8 * $1))-cbc -nopad -K "$2" -iv "$(zeros 32)" | digits; } # L KEY DATA
diversified() { # L, of the FAKey whose text is $key
    local div other
    div=$(field DivData "$room/part")
    other=$(printf '%02X' $((0x${div:0:2} ^ 0x80)))${div:2}
    binary "$div$other" | openssl enc -aes-$((8 * $1))-ecb -nopad -K "$(fa_key "$1" "$key")" | digits | head -c $((2 * $1))
}
sealed_is() { # L MODE
    local data hash
    hash=$(field '- KeysHash' "$room/part")
    data=$(rows 3 "$room/part")
    gives "$2$(field '- RND2' "$room/part")$(printf FEEDER-21A | digits)${hash}80000000" \
        "$(deciphered "$1" "$(diversified "$1")" "${data:10:$((4 * $1 + 32))}")"
}
answer_is() { # L RECORD AND FILLER
    gives "$2$(field DivData "$room/part")80$(zeros 30)" "$(deciphered "$1" "$(field '- KeysHash' "$room/part")" "$(rows 4 "$room/part")")"
}
by_openssl() { # FILE SESSION L MODE RECORD FILLER [FAKEY]
    local key=${7-$old_key}
    part "$2" "$1" >"$room/part"
    holds "watch, $2: STR2, by openssl" sealed_is "$3" "$4"
    holds "watch, $2: the answer, by openssl" answer_is "$3" "$5$6"
}

run_watch() { TMPDIR=$room/tmp "$top/bin/watch" ${2:+"$2"} >"$1"; }
watch() { # NAME FILE [FLAG]: runs bin/watch with a folder for its temporary files, which has to be empty behind it
    mkdir -p "$room/tmp"
    holds "$1: runs" run_watch "$2" "${3-}"
    holds "$1: leaves nothing behind" gives "" "$(ls "$room/tmp")"
    watch_facts "$1" "$2"
    session_facts "$1" "$2" "FOR MODE 0007" 16 "$wiegand" "00 00 00 00 00 00 00 00 00 00 00 00  not looked at" "$wiegand_door"
    session_facts "$1" "$2" "FOR MODE 0008" 16 "$uuid" none "$uuid_door"
    session_facts "$1" "$2" "WITH KEYS OF 24 BYTES" 24 "$wiegand" "00 00 00 00 00 00 00 00 00 00 00 00  not looked at" "$wiegand_door"
    session_facts "$1" "$2" "WITH KEYS OF 32 BYTES" 32 "$wiegand" "00 00 00 00 00 00 00 00 00 00 00 00  not looked at" "$wiegand_door"
    session_facts "$1" "$2" "WITH A KEY CHANGE IN IT" 16 "$wiegand" "00 00 00 00 00 00 00 00 00 00 00 00  not looked at" "$wiegand_door"
    session_facts "$1" "$2" "BEHIND THE KEY CHANGE" 16 "$wiegand" "00 00 00 00 00 00 00 00 00 00 00 00  not looked at" "$wiegand_door"
    other_list_facts "$1" "$2"
}
