"""What the program door answers to standard input, by Python alone: answers.py <LINES. crates/door/stdout is held to it."""
import re
import sys
import uuid

WORDS = {23: "wrong length", 24: "wrong parity", 25: "a bad character"}
UUID = re.compile(rb"[0-9a-fA-F]{8}(-[0-9a-fA-F]{4}){3}-[0-9a-fA-F]{12}")
HEX = re.compile(rb"[0-9a-fA-F]*")


def fault(number, more=""):
    return f": {number}, {WORDS[number]}{more}"


def apart(bits):
    return f", facility {int(bits[1:9], 2)}, number {int(bits[9:25], 2)}"


def lawful(bits):
    """The first bit with the 12 behind it has an even number of ones, the last with the 12 before it an odd one."""
    return bits[:13].count("1") % 2 == 0 and bits[13:].count("1") % 2 == 1


def wiegand_text(line):
    if set(line) - set(b"01"):
        return fault(25)
    bits = line.decode()
    return f" = record {int(bits, 2):08x}{apart(bits)}" if lawful(bits) else fault(24)


def wiegand_record(line):
    if not HEX.fullmatch(line):
        return fault(25)
    bits = f"{int(line, 16):026b}"
    if len(bits) > 26 or not lawful(bits):
        return fault(24, ", or a bit set above the 26")
    return f" = Wiegand {bits}{apart(bits)}"


def uuid_text(line):
    return f" = record {uuid.UUID(line.decode()).hex}" if UUID.fullmatch(line) else fault(25)


def uuid_record(line):
    return f" = UUID {uuid.UUID(line.decode())}" if HEX.fullmatch(line) else fault(25)


KINDS = {26: wiegand_text, 36: uuid_text, 8: wiegand_record, 32: uuid_record}


def other(line):
    return fault(23, f": {len(line)} bytes, not 26 (Wiegand), 36 (UUID), 8 or 32 (a record)")


def shown(line):
    plain = (chr(c) if 0x20 < c < 0x7F and c != 0x5C else f"\\x{c:02x}" for c in line[:40])
    return "".join(plain) + (".." if len(line) > 40 else "")


def main():
    *lines, rest = sys.stdin.buffer.read().split(b"\n")
    lines = [line.removesuffix(b"\r") for line in lines] + ([rest] if rest else [])
    for line in lines:
        print(shown(line) + KINDS.get(len(line), other)(line))


main()
