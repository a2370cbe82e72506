"""The card's reading of BER lists beside other readers': compare.py CONFORM COUNT SEED.

A reading is the first entry that the card holds, or None for a list that is refused: an initial command shows no more, as its session.
A list without entries shows nothing, so each list made here has the bytes of a held number in it.
Readings that differ are sorted by the list's first fault, which is found in the bytes alone. A difference in no class fails.
"""
import collections
import ctypes
import ctypes.util
import random
import re
import subprocess
import sys

try:
    import pyasn1.error
    from pyasn1.codec.ber import decoder
    from pyasn1.type import univ
except ImportError:
    pyasn1 = None

# Numbers that look like the bytes around them, so that a reader who loses its place picks another one.
HELD = [bytes.fromhex(h) for h in ("0001", "0000", "0402", "3080")]
OTHER = [bytes.fromhex(h) for h in ("0002", "0004", "8002", "ffff", "0a0d")]
LARGEST = 255  # bytes of a command's data
MOST = 126  # bytes of a long length: 81 to FE


# ---- The rule of T-02, which tells the classes


class Fault(Exception):
    """What is wrong first in a list, by name."""


def byte(data, i):
    if i >= len(data):
        raise Fault("cut")
    return data[i]


def tag(data, i):
    """The identifier at i as one byte, also where it is written in the long form, and the place behind it."""
    first = byte(data, i)
    if first & 31 != 31:
        return first, i + 1
    number = 0
    while True:
        i += 1
        number = number << 7 | byte(data, i) & 127
        if data[i] < 128:
            return (first & 0xE0 | number if number < 31 else 255), i + 1


def length(data, i, most=MOST):
    """The length at i, None for the indefinite form, and the place behind it."""
    first = byte(data, i)
    if first <= 128:
        return (first if first < 128 else None), i + 1
    if first == 255:
        raise Fault("FF")
    if first - 128 > most:
        raise Fault("many")
    end = i + first - 127
    byte(data, end - 1)
    return int.from_bytes(data[i + 1:end], "big"), end


def segment(data, i, limit):
    """The place behind an OCTET STRING of either form, which X.690 has end at the limit or before."""
    first = byte(data, i)
    size, start = length(data, i + 1)
    end = limit if size is None else start + size
    if first not in (0x04, 0x24) or first == 0x04 and size is None or end > limit:
        raise Fault("parts")
    if first == 0x04:
        return end
    while start < end:
        if size is None and data[start:start + 2] == b"\0\0":
            return start + 2
        start = segment(data, start, end)
    if size is None:
        raise Fault("parts")
    return end


def whole(data, i):
    """Whether X.690 allows the constructed OCTET STRING here."""
    try:
        segment(data, i, len(data))
    except Fault:
        return False
    return True


def header(data, i, wanted, most):
    """The length and the place behind it, where this tag stands."""
    found, end = tag(data, i)
    if found & 0xDF == 0:
        raise Fault("end")
    if found & 0xDF == wanted & 0xDF and end > i + 1:
        raise Fault("long tag")
    if found == 0x10 and wanted == 0x30:
        raise Fault("primitive")
    if found == 0x24 and wanted == 0x04:
        raise Fault("constructed" if whole(data, i) else "parts")
    if found != wanted:
        raise Fault("tag")
    return length(data, end, most)


def entry(data, i, most):
    size, i = header(data, i, 0x04, most)
    if size != 2:
        raise Fault("indefinite entry" if size is None else "size")
    byte(data, i + 1)
    return data[i:i + 2], i + 2


def walk(data, most=MOST):
    """The entries of a lawful list; else the first fault is raised."""
    size, i = header(data, 0, 0x30, most)
    if size is not None and i + size != len(data):
        raise Fault("outer length")
    entries = []
    while i < len(data):
        if size is None and data[i:i + 2] == b"\0\0":
            if i + 2 < len(data):
                raise Fault("behind")
            return entries
        value, i = entry(data, i, most)
        entries.append(value)
    if size is None:
        raise Fault("no end")
    return entries


def fault(data, most=MOST):
    """The name of the first fault, None for a lawful list."""
    try:
        walk(data, most)
    except Fault as found:
        return str(found)
    return None


def chosen(entries):
    """The reading, from the entries that a reader found."""
    if any(len(e) != 2 for e in entries):
        return None
    return next((e for e in entries if e in HELD), None)


def by_rule(data):
    return None if fault(data) else chosen(walk(data))


# ---- The readers


LINE = re.compile(r" *(\d+):d=(\d+) +hl=(\d+) +l= *(\d+|inf) +(cons|prim): (OCTET STRING|EOC|SEQUENCE)?")
Line = collections.namedtuple("Line", "at depth head size form name")


def printed(data):
    """asn1parse's lines, none where it fails."""
    ran = subprocess.run(["openssl", "asn1parse", "-inform", "DER"], input=data, capture_output=True)
    found = map(LINE.match, ran.stdout.decode("latin-1").split("\n"))
    return [] if ran.returncode else [Line(*m.groups()) for m in found if m]


def one_sequence(lines):
    """Whether there is one SEQUENCE, with primitive things in it."""
    return (lines[0].depth, lines[0].form, lines[0].name) == ("0", "cons", "SEQUENCE") and \
        all((s.depth, s.form) == ("1", "prim") for s in lines[1:])


def by_asn1parse(data):
    """One SEQUENCE over all the data, of strings. Where it is indefinite an EOC may be the last; that there is one is left to asn1parse."""
    lines = printed(data)
    if not lines or not one_sequence(lines):
        return None
    outer, *inner = lines
    last = inner[-1] if inner and outer.size == "inf" else outer
    if last.size == "inf" or int(last.at) + int(last.head) + int(last.size) != len(data):
        return None
    if outer.size == "inf" and last.name == "EOC":
        inner.pop()
    if any(s.name != "OCTET STRING" for s in inner):
        return None
    values = [(int(s.at) + int(s.head), int(s.size)) for s in inner]
    return chosen([data[i:i + size] for i, size in values])


class Any(ctypes.Structure):
    """libcrypto's ASN1_TYPE."""
    _fields_ = [("type", ctypes.c_int), ("value", ctypes.c_void_p)]


def load_crypto():
    """libcrypto with the types of what is called, None where it is missing."""
    try:
        lib = ctypes.CDLL(ctypes.util.find_library("crypto") or "libcrypto.so")
    except OSError:
        return None
    p, n = ctypes.c_void_p, ctypes.c_int
    types = {"d2i_ASN1_SEQUENCE_ANY": (p, p, p, ctypes.c_long), "OPENSSL_sk_num": (n, p), "OPENSSL_sk_value": (p, p, n),
             "OPENSSL_sk_pop_free": (None, p, p), "ASN1_STRING_length": (n, p), "ASN1_STRING_get0_data": (p, p),
             "OpenSSL_version": (ctypes.c_char_p, n)}
    for name, (result, *arguments) in types.items():
        if not hasattr(lib, name):
            return None
        getattr(lib, name).restype, getattr(lib, name).argtypes = result, arguments
    return lib


crypto = load_crypto()


def string(item):
    """An OCTET STRING's bytes; for another type bytes that are no entry."""
    if item.type != 4:
        return b""
    return ctypes.string_at(crypto.ASN1_STRING_get0_data(item.value), crypto.ASN1_STRING_length(item.value))


def by_d2i(data):
    room = ctypes.create_string_buffer(data, len(data))
    place = ctypes.c_void_p(ctypes.addressof(room))
    found = crypto.d2i_ASN1_SEQUENCE_ANY(None, ctypes.byref(place), len(data))
    if not found:
        return None
    items = [Any.from_address(crypto.OPENSSL_sk_value(found, i)) for i in range(crypto.OPENSSL_sk_num(found))]
    entries = [string(item) for item in items]
    crypto.OPENSSL_sk_pop_free(found, ctypes.cast(crypto.ASN1_TYPE_free, ctypes.c_void_p))
    return chosen(entries) if place.value == ctypes.addressof(room) + len(data) else None


def by_pyasn1(data):
    try:
        value, rest = decoder.decode(data, asn1Spec=univ.SequenceOf(componentType=univ.OctetString()))
    except (pyasn1.error.PyAsn1Error, OverflowError):  # the latter for a length of 2^63 and more
        return None
    return None if rest else chosen([bytes(e) for e in value])


def by_card(conform, lists):
    """The card's readings, by one card and one call for each list."""
    sets = ",".join(f"{int.from_bytes(h, 'big')}:{i}:{i:032x}" for i, h in enumerate(HELD, 1))
    load = f"load l=16 sets={sets} modes=1:0:16 area={'00' * 16} div={'00' * 16} shill_key={'00' * 16} shill_handle=9"
    calls = [f"call interface=0 command=00870000{len(d):02x}{d.hex()}00 fresh={'01' * 253} out=256" for d in lists]
    ran = subprocess.run([conform], input="\n".join([load, *calls, ""]), stdout=subprocess.PIPE, text=True)
    said = ran.stdout.splitlines()[1:]
    if ran.returncode or len(said) != len(lists) or not all("=> number=0 status=36864 " in s for s in said):
        print(f"not every list was answered by {conform}\n0 passed, 1 failed")
        sys.exit(1)
    found = [re.search(r" session=(?:(\d+):|-)", s).group(1) for s in said]
    return [f and int(f).to_bytes(2, "big") for f in found]


# ---- The lists


def some_length(r, value, room=MOST + 1):
    """A lawful length of this value in any form, of at most so many bytes."""
    n = min(room - 1, r.choice([0, 0, 0, 1, 2, 2, 3, 4, 7, 8, 9, 16, r.randint(1, MOST), MOST]))
    if n < 1 and value < 128:
        return bytes([value])
    n = max(n, 1 if value < 256 else 2)
    return bytes([128 + n]) + value.to_bytes(n, "big")


def some_number(r):
    return r.choice(HELD if r.random() < 0.7 else OTHER)


def some_entries(r):
    """1 to 62 entries, one of them held, their lengths all short or in any form."""
    size = r.choice([lambda: b"\x02", lambda: some_length(r, 2), lambda: some_length(r, 2, 6)])
    entries = [b"\x04" + size() + r.choice(HELD)]
    for _ in range(r.choice([0, 1, 2, 4, r.randint(0, 61)])):
        more = b"\x04" + size() + some_number(r)
        if sum(map(len, entries)) + len(more) <= LARGEST - 7:
            entries.append(more)
    r.shuffle(entries)
    return entries


def closed(r, body):
    """A lawful header, and for the indefinite form its end."""
    if r.random() < 0.3:
        return b"\x30\x80" + body + b"\0\0"
    return b"\x30" + some_length(r, len(body), LARGEST - 1 - len(body)) + body


def wrapped(r, value):
    """A length that is this value only to a reader of so many bits."""
    bits = r.choice([8, 16, 32, 63, 64, 64, 128])
    n = bits // 8 + r.choice([1, 1, 2, 9])
    return bytes([128 + n]) + (value + (1 << bits)).to_bytes(n, "big")


def forbidden(r, value):
    """A length with the first byte FF, or one that is not this value."""
    return r.choice([b"\xff" + value.to_bytes(127, "big"), wrapped(r, value), some_length(r, r.choice([0, 1, value + 1, value * 2]))])


def odd_entry(r):
    """An entry that is unlawful by itself."""
    number = some_number(r)
    part = b"\x04\x02" + number
    return r.choice([
        b"\x04" + forbidden(r, 2) + number,
        b"\x04\xff" + (2).to_bytes(127, "big") + number,
        b"\x04\x80" + r.choice([number, part, b"\x02" + number]) + r.choice([b"", b"\0\0", b"\0\0"]),
        r.choice([b"\x24\x80" + part + b"\0\0", b"\x24\x80\x24\x80" + part + b"\0\0\0\0", b"\x24\x06\x24\x04" + part]),
        b"\x24" + some_length(r, 4) + r.choice([part, b"\x05" + part[1:], b"\x24" + part[1:]]),
        b"\x24\x06\x04\x01" + number[:1] + b"\x04\x01" + number[1:],
        r.choice([b"\x1f\x04", b"\x1f\x80\x04", b"\x3f\x04", b"\x1f\x84\x00"]) + b"\x02" + number,
        bytes([r.choice([0x02, 0x05, 0x0C, 0x13, 0x30, 0x44, 0x84, 0xC4, 0xA4])]) + part[1:],
        r.choice([b"\x04\x00", b"\x04\x01\x00", b"\x04\x03\x00" + number, b"\x04\x04" + part]),
        b"\0\0",
    ])


def odd_inside(r, entries):
    i = r.randint(0, len(entries))
    return closed(r, b"".join(entries[:i] + [odd_entry(r)] + entries[i + r.randint(0, 1):]))


def odd_outside(r, body):
    """A list that is unlawful in its header or its end."""
    indefinite = b"\x30\x80" + body
    return r.choice([
        b"\x30" + forbidden(r, len(body)) + body,
        b"\x30\xff" + len(body).to_bytes(127, "big") + body,
        indefinite + r.choice([b"", b"", b"\0", b"\0\0\0", b"\0\0\0\0", b"\0\0" + body[:4]]),
        indefinite + r.choice([b"\0\x01\0", b"\0\x81\0", b"\0\x82\0\x01\0", b"\0\x80", b"\x20\0", b"\x1f\0\0", b"\x80\0"]),
        closed(r, body) + r.choice([b"\0\0", b"\0", body[:4]]),
        r.choice([b"\x3f\x10", b"\x3f\x80\x10", b"\x1f\x10"]) + closed(r, body)[1:],
        bytes([r.choice([0x10, 0x20, 0x31, 0x24, 0x70, 0xB0, 0xF0])]) + closed(r, body)[1:],
    ])


def shaken(r, data):
    """One to three bits flipped, a byte put in or taken out, or the end cut off."""
    i = r.randrange(min(len(data), r.choice([4, 12, len(data)])))
    if r.random() < 0.4:
        for _ in range(r.choice([1, 1, 1, 2, 3])):
            data = data[:i] + bytes([data[i] ^ 1 << r.randrange(8)]) + data[i + 1:]
            i = r.randrange(len(data))
        return data
    put = r.choice([b"\0", b"\x80", b"\xff", bytes([r.randrange(256)])])
    return r.choice([data[:i] + put + data[i:], data[:i] + data[i + 1:], data[:r.randint(2, len(data))], data[:-1]])


def damaged(r, entries):
    kind = r.random()
    if kind < 0.4:
        return odd_inside(r, entries)
    if kind < 0.75:
        return odd_outside(r, b"".join(entries))
    return shaken(r, closed(r, b"".join(entries)))


def some_list(r, lawful):
    """A list of 2 to 255 bytes; a damaged one has a fault by the rule."""
    while True:
        entries = some_entries(r)
        data = closed(r, b"".join(entries)) if lawful else damaged(r, entries)
        if 2 <= len(data) <= LARGEST and any(h in data for h in HELD) and (fault(data) is None) == lawful:
            return data


# ---- The comparison


# What a reader takes though the card refuses it, by the first fault; then who has X.690 on its side.
TAKES = {
    "FF": ("takes FF as a length's first byte", "the card: 8.1.3.5 c"),
    "long tag": ("takes a tag number below 31 in the long form", "the card: 8.1.2.2"),
    "primitive": ("takes a SEQUENCE of primitive form, tag 10", "the card: 8.10.1"),
    "constructed": ("takes a constructed OCTET STRING, tag 24, as an entry", "the reader: 8.7.1; T-02 has entries stay primitive"),
    "parts": ("takes a constructed OCTET STRING that X.690 refuses too, for its parts", "the card: 8.7.3"),
    "indefinite entry": ("takes 80 as the length of a primitive OCTET STRING", "the card: 8.1.3.2 a"),
    "no end": ("takes the indefinite form without end-of-contents", "the card: 8.1.5"),
    "end": ("takes end-of-contents other than 00 00", "the card: 8.1.5"),
}
MANY = "refuses a length of more than {} bytes behind the first, leading zeros or not", "the card: 8.1.3.5"


def class_of(data, card, reader, takes, most):
    """The class of a difference, None where there is none. The card's reading has a part in the direction only."""
    kind = fault(data)
    if card is None and kind in takes:
        return TAKES[kind]
    if reader is None and kind is None and fault(data, most) == "many":
        return MANY[0].format(most), MANY[1]
    return None


def readers():
    """Each reader at hand: its name and version, reading, the faults that it is known to take, the most bytes of a long length."""
    try:
        version = subprocess.run(["openssl", "version"], capture_output=True, text=True).stdout.strip()
        yield f"openssl asn1parse ({version})", by_asn1parse, {"FF", "long tag", "no end", "end"}, MOST
    except FileNotFoundError:
        print("no openssl command: asn1parse left out")
    if crypto:
        version = crypto.OpenSSL_version(0).decode()
        yield f"libcrypto d2i_ASN1_SEQUENCE_ANY ({version})", by_d2i, {"FF", "long tag", "primitive", "constructed", "parts"}, MOST
    else:
        print("no libcrypto to be loaded: d2i left out")
    if pyasn1:
        most = getattr(decoder, "MAX_LENGTH_OCTETS", MOST)
        yield f"pyasn1 ({pyasn1.__version__})", by_pyasn1, {"FF", "long tag", "constructed", "parts", "indefinite entry"}, most
    else:
        print("no pyasn1 to be imported: left out")


def said(data, card, reader):
    show = [x.hex() if x else "refused" for x in (card, reader)]
    return f"    UNEXPLAINED {data.hex()}: card {show[0]}, reader {show[1]}, by the rule {fault(data) or 'lawful'}"


def compare(lists, cards, name, reading, takes, most):
    """Prints the classes with counts and the shortest example; the number of differences in none."""
    classes, wrong = collections.defaultdict(list), []
    for data, card in zip(lists, cards):
        reader = reading(data)
        if reader == card:
            continue
        kind = class_of(data, card, reader, takes, most)
        if kind:
            classes[kind].append(data)
        else:
            wrong.append(said(data, card, reader))
    differ = sum(map(len, classes.values())) + len(wrong)
    print(f"{name}: {len(lists) - differ} alike, {differ - len(wrong)} different in a class, {len(wrong)} in none")
    for (what, side), found in sorted(classes.items()):
        print(f"    {len(found)}: {what}; X.690 is with {side}\n        {min(found, key=len).hex()}")
    print(*wrong[:5], sep="\n", end="\n" if wrong else "")
    return len(wrong)


def main():
    conform, count, seed = sys.argv[1], int(sys.argv[2]), int(sys.argv[3])
    r = random.Random(seed)
    lists = [some_list(r, i % 2 == 0) for i in range(count)]
    cards = by_card(conform, lists)
    print(f"{count} lists, seed {seed}: {(count + 1) // 2} lawful, {count // 2} damaged; the card takes {sum(c is not None for c in cards)}")
    columns = list(readers())
    missing = 0 if columns else 1
    # The rule that tells the classes is a column too: a card that takes what a reader takes beyond it would else go unseen.
    columns.append(("the rule of T-02, as read here", by_rule, set(), MOST))
    wrong = sum(compare(lists, cards, *column) for column in columns)
    print(f"{len(columns) * count - wrong} passed, {wrong + missing} failed")
    sys.exit(wrong + missing > 0)


if __name__ == "__main__":
    main()
