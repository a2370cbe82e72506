"""The library's door numbers beside Python's: compare.py CONFORM UUIDS SEED STEP.

UUIDs: the uuid module makes text from bytes and bytes from text. It also takes texts that RFC 4122 does not have (braces, urn:uuid:, no
hyphens), so whether a text is lawful is asked of a regular expression, written from the RFC's section 3.
Wiegand: parity is counted in Python, by document 02's sentence; every STEPth of the 2^26 records, and of these the lawful ones as text.
The expected line is made here, whole, and compared with the library's.
"""
import random
import re
import subprocess
import sys
import threading
import uuid

# RFC 4122: the example of section 3, the nil UUID of 4.1.7, the name of appendix B, the name spaces of appendix C.
PUBLISHED = [
    "f81d4fae-7dec-11d0-a765-00a0c91e6bf6",
    "00000000-0000-0000-0000-000000000000",
    "e902893a-9d22-3c7e-a7b8-d6e313b71d9f",
    "6ba7b810-9dad-11d1-80b4-00c04fd430c8",
    "6ba7b811-9dad-11d1-80b4-00c04fd430c8",
    "6ba7b812-9dad-11d1-80b4-00c04fd430c8",
    "6ba7b814-9dad-11d1-80b4-00c04fd430c8",
]
NAME_SPACES = [uuid.NAMESPACE_DNS, uuid.NAMESPACE_URL, uuid.NAMESPACE_OID, uuid.NAMESPACE_X500]
LAWFUL = re.compile(rb"[0-9a-fA-F]{8}-[0-9a-fA-F]{4}-[0-9a-fA-F]{4}-[0-9a-fA-F]{4}-[0-9a-fA-F]{12}")
BATCH = 4096
SHOWN = 5


def line(kind, given, out, number, result):
    """A transcript's line, with its result."""
    takes, gives = ("text", "record") if kind.endswith("record") else ("record", "text")
    return f"{kind} {takes}={given.hex() or '-'} out={out} => number={number} length={len(result)} {gives}={result.hex() or '-'}"


# ---- UUIDs


def uuid_record(text, out=16):
    if len(text) != 36 or out < 16:
        return line("uuid_record", text, out, 23, b"")
    if not LAWFUL.fullmatch(text):
        return line("uuid_record", text, out, 25, b"")
    return line("uuid_record", text, out, 0, uuid.UUID(text.decode()).bytes)


def uuid_text(record, out=36):
    if len(record) != 16 or out < 36:
        return line("uuid_text", record, out, 23, b"")
    return line("uuid_text", record, out, 0, str(uuid.UUID(bytes=record)).encode())


def uuid_forms(value):
    """A UUID both ways; the text in small letters, in capitals and in both, with any other writing of it that Python takes."""
    small = str(value)
    mixed = "".join(random.choice((c, c.upper())) for c in small)
    yield uuid_text(value.bytes)
    yield uuid_record(small.encode())
    yield uuid_record(small.upper().encode())
    yield uuid_record(mixed.encode())
    for other in (value.urn, "{%s}" % small, value.hex, small + "\n", " " + small):
        yield uuid_record(other.encode())


def damaged(text):
    """A text with one byte changed, dropped or put in, or with two of its characters changed for one another."""
    text = bytearray(text)
    at, other = random.randrange(36), random.randrange(36)
    kind = random.randrange(6)
    if kind < 2:
        text[at] = random.choice(b"gG/:@`-_.+ \0\n0aF")
    elif kind == 2:
        text[at] = random.randrange(256)
    elif kind == 3:
        text[at], text[other] = text[other], text[at]
    elif kind == 4:
        del text[at]
    else:
        text.insert(at, random.choice(b"0-aF "))
    return bytes(text)


def random_uuid():
    """Of any 128 bits, or of a version that the module makes."""
    kind = random.randrange(8)
    if kind == 0:
        return uuid.uuid5(random.choice(NAME_SPACES), str(random.random()))
    if kind == 1:
        return uuid.uuid3(random.choice(NAME_SPACES), str(random.random()))
    if kind == 2:
        return uuid.UUID(int=1 << random.randrange(128))
    return uuid.UUID(int=random.getrandbits(128))


def uuids(count):
    assert PUBLISHED[3:] == [str(space) for space in NAME_SPACES]
    for text in PUBLISHED:
        yield from uuid_forms(uuid.UUID(text))
    for _ in range(count):
        value = random_uuid()
        yield from uuid_forms(value)
        yield uuid_record(damaged(str(value).encode()))
        yield uuid_text(value.bytes, random.choice((0, 35, 36, 37, 100)))
        yield uuid_record(str(value).encode(), random.choice((0, 15, 16, 17, 100)))
        yield uuid_text(value.bytes[:random.randrange(17)])


# ---- Wiegand numbers


def lawful(bits):
    """26 bits: the first with the 12 behind it has an even number of ones, the last with the 12 before it an odd one."""
    return bin(bits >> 13).count("1") % 2 == 0 and bin(bits & 0x1FFF).count("1") % 2 == 1


def wiegand(bits):
    """A number of 26 bits or more as a record, and as text where it has no more."""
    record, text = bits.to_bytes(4, "big"), format(bits, "026b").encode()
    if bits >> 26 == 0 and lawful(bits):
        yield line("wiegand_text", record, 26, 0, text)
        yield line("wiegand_record", text, 4, 0, record)
        return
    yield line("wiegand_text", record, 26, 24, b"")
    if len(text) == 26:
        yield line("wiegand_record", text, 4, 24, b"")


def by_fields():
    """Facility and number, with the parities that they need."""
    for _ in range(20000):
        facility, number = random.randrange(256), random.randrange(65536)
        data = format(facility, "08b") + format(number, "016b")
        even = str(data[:12].count("1") % 2)
        odd = str(1 - data[12:].count("1") % 2)
        yield from wiegand(int(even + data + odd, 2))


def bad_characters():
    for at in range(26):
        for byte in range(256):
            text = bytearray(b"00001010100010010011001111")
            old, text[at] = text[at], byte
            number = 0 if byte == old else 24 if byte in b"01" else 25
            yield line("wiegand_record", bytes(text), 4, number, b"\x00\x2a\x24\xcf" if number == 0 else b"")


def sizes():
    """A good text and a good record of each kind, cut or made longer, for outputs of every size."""
    for kind, given, result in (
        ("wiegand_record", b"00001010100010010011001111", b"\x00\x2a\x24\xcf"),
        ("wiegand_text", b"\x00\x2a\x24\xcf", b"00001010100010010011001111"),
        ("uuid_record", PUBLISHED[0].encode(), uuid.UUID(PUBLISHED[0]).bytes),
        ("uuid_text", uuid.UUID(PUBLISHED[0]).bytes, PUBLISHED[0].encode()),
    ):
        for length in range(50):
            for out in range(50):
                fits = length == len(given) and out >= len(result)
                yield line(kind, (given + bytes(50))[:length], out, 0 if fits else 23, result if fits else b"")


def wiegands(step):
    for bits in range(0, 1 << 26, step):
        yield from wiegand(bits)
    for _ in range(20000):
        yield from wiegand(random.getrandbits(26) | random.getrandbits(32) >> random.randrange(32) << 26 & 0xFFFFFFFF)
    yield from by_fields()
    yield from bad_characters()


# ---- The comparison


def compare(conform, name, lines):
    """How many lines the library gives as they are, and how many not."""
    process = subprocess.Popen([conform], stdin=subprocess.PIPE, stdout=subprocess.PIPE, text=True)
    wanted, room = [], threading.Semaphore(64)

    def feed():
        batch = []
        for each in lines:
            batch.append(each)
            if len(batch) == BATCH:
                send(batch)
                batch = []
        send(batch)
        process.stdin.close()

    def send(batch):
        room.acquire()
        wanted.append(batch)
        process.stdin.write("".join(each.split(" =>")[0] + "\n" for each in batch))
        process.stdin.flush()

    feeder = threading.Thread(target=feed, daemon=True)
    feeder.start()
    passed = failed = at = 0
    batch = []
    for got in process.stdout:
        if at == len(batch):
            batch, at = wanted.pop(0), 0
            room.release()
        if got.rstrip("\n") == batch[at]:
            passed += 1
        else:
            failed += 1
            if failed <= SHOWN:
                print(f"wanted: {batch[at]}\ngot:    {got.rstrip()}")
        at += 1
    feeder.join()
    left = len(batch) - at + sum(map(len, wanted))
    if process.wait() != 0 or left:
        print(f"{name}: conform ended with status {process.returncode}, {left} lines without an answer")
        failed += 1
    print(f"{name}: {passed} as Python has it, {failed} not")
    return passed, failed


def main():
    conform, count, seed, step = sys.argv[1], int(sys.argv[2]), int(sys.argv[3]), int(sys.argv[4])
    random.seed(seed)
    parts = [compare(conform, f"{count} random UUIDs and {len(PUBLISHED)} published ones", uuids(count))]
    parts.append(compare(conform, "texts, records and outputs of 0 to 49 bytes", sizes()))
    parts.append(compare(conform, f"Wiegand numbers, every {step}. record", wiegands(step)))
    passed, failed = (sum(part) for part in zip(*parts))
    print(f"{passed} passed, {failed} failed")
    sys.exit(failed > 0 or passed == 0)


main()
