# Sourced by tests/joint/run: takes a file's values, and writes checks of them as lines 'label, tab, the file's value, tab, what was recomputed'.
declare -A v
sections=()

values() { awk -f "$top/tests/joint/values.awk" "$1"; }

# take FILE: its values into v["section/name"], its sections in order
take() {
    local section name digits
    v=()
    sections=()
    values "$1" >"$room/values" || return 1
    while IFS=$'\t' read -r section name digits; do
        [[ " ${sections[*]-} " == *" ${section// /_} "* ]] || sections+=("${section// /_}")
        v[$section/$name]=$digits
    done <"$room/values"
    [ "${#v[@]}" -gt 0 ]
}

# of NAME: the value of this name in $section, or nothing
of() { printf '%s' "${v[$section/$1]-}"; }
at() { printf '%s' "${v[load/$1]-}"; }
# check LABEL VALUE RECOMPUTED: nothing where the file leaves the value out
check() { [ -z "$2" ] || printf '%s\t%s\t%s\n' "[$section] $1" "$2" "$3"; }

zeros() { printf '%0*d' "$1" 0; }
decimal() { printf '%d' "0x$1"; }
binary() { printf '%b' "$(printf '%s' "$1" | sed 's/../\\x&/g')"; }
digits() { od -An -v -tx1 | tr -d ' \n'; }
# The card's 253 fresh bytes: 50 that begin with $1, and PS.
fresh() { local rest; printf -v rest '%*s' $((100 - ${#1})) ''; printf '%s' "$1${rest// /e}$2"; }
# Sixteen bytes to a block, method 2 always.
padded() { local text=${1}80; printf '%s%s' "$text" "$([ $((${#text} % 32)) -eq 0 ] || zeros $((32 - ${#text} % 32)))"; }
or_none() { [ -n "$1" ] && printf '%s' "$1" || printf -- -; }

# The platform names the RSA keys by these handles; they are on no wire.
ia=17
shill=153

# The load in the transcripts' form: the key sets and modes 1, 2 and so on, the records one behind the other.
load_line() {
    local sets='' modes='' area='' i=1 record
    while [ -n "$(at "KeySetID of set $i")" ]; do
        sets+=,$(decimal "$(at "KeySetID of set $i")"):$ia:$(at "FAKey of set $i")
        i=$((i + 1))
    done
    i=1
    while [ -n "$(at "OpModeID of mode $i")" ]; do
        record=$(at "ACSRecord of mode $i")
        modes+=,$(decimal "$(at "OpModeID of mode $i")"):$((${#area} / 2)):$((${#record} / 2))
        area+=$record
        i=$((i + 1))
    done
    echo "load l=16 sets=${sets#,} modes=${modes#,} area=$area div=$(at DivData) shill_key=$(at 'ShillKey (AES)') shill_handle=$shill" \
        "=> number=0 reply_size=$((${#area} > 0 ? $(reply_size) : 0))"
}
# B: the most blocks that a record needs with DivData and padding.
reply_size() {
    local i=1 b=0 record needed
    while [ -n "${v[load/OpModeID of mode $i]-}" ]; do
        record=${v[load/ACSRecord of mode $i]-}
        needed=$(((${#record} / 2 + 16) / 16 + 1))
        b=$((needed > b ? needed : b))
        i=$((i + 1))
    done
    echo "$b"
}
# Zero bytes up to 16(B - 2) bytes with the record, or nothing.
filler() {
    local record size
    record=$(of ACSRecord)
    size=$((32 * ($(reply_size) - 2) - ${#record}))
    [ "$size" -le 0 ] || zeros "$size"
}

# A session's six calls, each with the result that the file has.
session_lines() {
    local ids blocks='' i list command answer record
    list=$(of 'KeySetID list')
    for ((i = 0; i < ${#list}; i += 4)); do
        ids+=,$(decimal "${list:i:4}")
        blocks+=$(of 'RSADecrypt(eSTR1)')
    done
    command=$(of 'IA command')
    echo "list ids=${ids#,} out=100 => number=0 length=$((${#command} / 2)) command=$command"
    # The list as another maker's reader writes it, if the session has it so.
    [ -z "$(of 'IA command, other lengths')" ] || command=$(of 'IA command, other lengths')
    echo "call interface=0 command=$command fresh=$(fresh "$(of RND1)" "$(of PS)") out=256 => number=0 status=36864 length=256 handle=$ia" \
        "answer=$(of EM) session=$(opened_session)"
    echo "open l=16 ids=${ids#,} blocks=$blocks => number=0 place=$(place "$list" "$(of KeySetID)") id=$(decimal "$(of KeySetID)")" \
        "div=$(at DivData) rnd1=$(of RND1)"
    command=$(of 'FA command')
    echo "seal l=16 fakey=$(of FAKey) div=$(at DivData) rnd1=$(of RND1) rnd2=$(of RND2) mode=$(decimal "$(of OpModeID)")" \
        "payload=$(or_none "$(of Payload)") out=300 => number=0 length=$((${#command} / 2)) keyshash=$(of KeysHash) command=$command"
    answer=$(of eSTR3)
    echo "call interface=0 command=$command fresh=$(fresh "" "$(of PS)") out=256 => number=0 status=36864 length=$((${#answer} / 2)) handle=0" \
        "answer=$answer session=-"
    record=$(of ACSRecord)
    echo "accept l=16 keyshash=$(of KeysHash) div=$(at DivData) reclen=$((${#record} / 2)) response=$answer work=$(zeros ${#answer})" \
        "=> number=0 record=$record work=$(of 'STR3 padded')"
}
# The session that an initial command opens: KeySetID, RND1 and FAKey.
opened_session() { printf '%d:%s' "0x$(of KeySetID)" "$(of RND1):$(of FAKey)"; }
# The place of a KeySetID in a list, counted from 0.
place() { local i; for ((i = 0; i < ${#1}; i += 4)); do [ "${1:i:4}" != "$2" ] || { echo $((i / 4)); return; }; done; echo none; }

stranger_lines() {
    local name answer
    for name in 'IA command' 'IA command, malformed'; do
        echo "call interface=0 command=$(of "$name") fresh=$(fresh "$(of 'random string 1')" "$(of PS)") out=256" \
            "=> number=0 status=36864 length=256 handle=$shill answer=$(of EM) session=-"
    done
    answer=$(of AESEncrypt)
    echo "call interface=0 command=$(of 'FA command') fresh=$(fresh "$(of 'random string 3')" "$(of PS)") out=256" \
        "=> number=0 status=36864 length=$((${#answer} / 2)) handle=0 answer=$answer session=-"
}

lines() {
    local section
    section=load
    load_line
    for section in "${sections[@]}"; do
        section=${section//_/ }
        case $section in session*) session_lines ;; stranger*) stranger_lines ;; esac
    done
}

# What the library gives for each line. Counts, work sum and failed tries are on no wire, so no part of the file.
given() { "$top/bin/conform" <"$room/want" | sed -E 's/ comparisons=.* hash_blocks=[0-9]+//; s/ sum=[0-9]+//; s/ tries=[0-9]+:[0-9]+//'; }
library_checks() {
    lines >"$room/want"
    given >"$room/got"
    paste -d '\t' <(awk '{ print "library, call " NR ", " $1 }' "$room/want") "$room/want" "$room/got"
}

# RSA keys for openssl, from the numbers.
rsa_keys() {
    local name
    printf 'asn1=SEQUENCE:k\n[k]\nv=INTEGER:0\n' >"$room/ia.cnf"
    for name in n e d p q dP dQ qInv; do echo "$name=INTEGER:0x$(at "IAKey $name")"; done >>"$room/ia.cnf"
    for name in IAKey 'ShillKey (RSA)'; do
        printf 'asn1=SEQUENCE:k\n[k]\nn=INTEGER:0x%s\ne=INTEGER:0x%s\n' "$(at "$name n")" "$(at "$name e")" >"$room/key.cnf"
        openssl asn1parse -genconf "$room/key.cnf" -noout -out "$room/key.der"
        openssl rsa -RSAPublicKey_in -inform DER -in "$room/key.der" -pubout -out "$room/${name%% *}.pem"
    done
    openssl asn1parse -genconf "$room/ia.cnf" -noout -out "$room/ia.der"
    openssl rsa -inform DER -in "$room/ia.der" -check -noout
}
encrypted() { binary "$2" | openssl pkeyutl -encrypt -pubin -inkey "$room/$1.pem" -pkeyopt rsa_padding_mode:none | digits; }
decrypted() { binary "$1" | openssl pkeyutl -decrypt -keyform DER -inkey "$room/ia.der" -pkeyopt rsa_padding_mode:none | digits; }
aes() { binary "$3" | openssl enc "-aes-128-$1" -nopad -K "$2" $([ "$1" = ecb ] || echo "-iv $(zeros 32)") | digits; }

session_openssl() {
    local key
    key=$(aes ecb "$(of FAKey)" "$(at DivData)")
    check 'eSTR1, by openssl' "$(of eSTR1)" "$(encrypted IAKey "$(of EM)")"
    [ -z "$(at 'IAKey p')" ] || check 'RSADecrypt(eSTR1), by openssl' "$(of 'RSADecrypt(eSTR1)')" "$(decrypted "$(of eSTR1)")"
    check 'FAKey(DIV), by openssl' "$(of 'FAKey(DIV)')" "$key"
    check 'eSTR2, by openssl' "$(of eSTR2)" "$(aes cbc "$key" "$(padded "$(str2)")")"
    check 'eSTR3, by openssl' "$(of eSTR3)" "$(aes cbc "$(of KeysHash)" "$(of 'STR3 padded')")"
}
stranger_openssl() {
    check 'RSAEncrypt, by openssl' "$(of RSAEncrypt)" "$(encrypted ShillKey "$(of EM)")"
    check 'AESEncrypt, by openssl' "$(of AESEncrypt)" "$(aes cbc "$(at 'ShillKey (AES)')" "$(of 'random string 3')")"
}

# The formulas that only join or hash.
str2() { printf '%s' "$(of OpModeID)$(of RND2)$(of Payload)$(of KeysHash)"; }
session_joined() {
    local data digest zeros str3
    data=$(of eSTR2)
    zeros=$(filler)
    str3=$(of ACSRecord)$zeros$(at DivData)
    digest=$(binary "$(of RND1)$(of RND2)" | sha256sum | head -c 64)
    check STR1 "$(of STR1)" "$(of KeySetID)$(at DivData)$(of RND1)$(of RND1)"
    check EM "$(of EM)" "0002$(of PS)00$(of KeySetID)$(at DivData)$(of RND1)$(of RND1)"
    check 'IA response' "$(of 'IA response')" "$(of eSTR1)9000"
    check 'RND1 || RND2' "$(of 'RND1 || RND2')" "$(of RND1)$(of RND2)"
    check 'SHA-256, by sha256sum' "$(of SHA-256)" "$digest"
    check KeysHash "$(of KeysHash)" "${digest:0:32}"
    check STR2 "$(of STR2)" "$(str2)"
    check 'STR2 padded' "$(of 'STR2 padded')" "$(padded "$(str2)")"
    check 'FA command' "$(of 'FA command')" "00860000$(printf '%02x' $((${#data} / 2)))${data}00"
    check 'Payload of STR3' "$(of 'Payload of STR3')" "$zeros"
    check STR3 "$(of STR3)" "$str3"
    check 'STR3 padded' "$(of 'STR3 padded')" "$(padded "$str3")"
    check 'FA response' "$(of 'FA response')" "$(of eSTR3)9000"
}
stranger_joined() {
    check EM "$(of EM)" "0002$(of PS)00$(of 'random string 1')"
    check 'IA response' "$(of 'IA response')" "$(of RSAEncrypt)9000"
    check 'FA response' "$(of 'FA response')" "$(of AESEncrypt)9000"
}

# every PART: the sessions' and strangers' checks of this part
every() {
    local section
    for section in "${sections[@]}"; do
        section=${section//_/ }
        case $section in session* | stranger*) "${section%% *}_$1" ;; esac
    done
}

# All checks of the file taken last, the cheap ones first.
checks() {
    local section=load
    library_checks
    every joined
    command -v openssl >/dev/null || return 0
    rsa_keys >"$room/rsa" 2>&1
    # With a wrong number openssl ends well all the same, and says so. It needs p to qInv to decrypt.
    [ -z "$(at 'IAKey p')" ] || check 'IAKey, by openssl' 'RSA key ok' "$(grep -o 'RSA key .*' "$room/rsa")"
    every openssl
}

# known NAME: whether a wrong value of this name is seen. All are, but for those that only openssl sees.
known() { command -v openssl >/dev/null || [[ $1 != IAKey* && $1 != "ShillKey (RSA)"* && $1 != "FAKey(DIV)" ]]; }
