"""Parts of tests/drivers/conformance.py: frames, what they carry, and how they may be cut."""
import json
import struct

from conformance_cases import GREETED, HELLO, MALFORMED, NOT_KNOWN, TOO_LONG, answered, closing, ended, heard, note, padded
from raw_client import BINARY, CLOSE, CONTINUATION, NOT_SIGNED_IN, PING, PONG, STATUS, TEXT, close, frame

# a token in Greek, Han, an emoji and the last code point, whose owner is `u`
TOKEN = "\u03ba\u1f79\u03c3\u03bc\u03b5 \u6c34 \U0001f600 \U0010ffff"
GREETS_IN_UTF8 = json.dumps({"hello": "u", "token": TOKEN}, ensure_ascii=False, separators=(",", ":")).encode()
GREETED_IN_UTF8 = (TEXT, b'{"hello":"u"}')
PROTOCOL_ERROR, NO_UTF8, TOO_BIG = 1002, 1007, 1009
# section 7.4.1's, and those that are registered or left to applications (7.4.2)
SENDABLE = (1000, 1001, 1002, 1003, 1007, 1008, 1009, 1010, 1011, 3000, 3999, 4000, 4999)
UNSENDABLE = (0, 1, 999, 1004, 1005, 1006, 1015, 1016, 1100, 2000, 2999)
GOOD_UTF8 = ("7f", "c280", "dfbf", "e0a080", "ed9fbf", "ee8080", "efbfbd", "efbfbe", "efbfbf", "efbbbf", "f0908080", "f0929080",
             "f48fbfbf", "cebae1bdb9cf83cebcceb5")
# no character's first byte, bytes that are missing, forms that aren't the shortest, surrogates, and what lies above 10FFFF (RFC 3629)
BAD_UTF8 = ("80", "bf", "80bf", "c0", "c080", "c0af", "c1bf", "c2", "c241", "c2c2", "df", "e0", "e080af", "e08080", "e09fbf", "e0a0",
            "e282", "e228a1", "e28228", "eda080", "edadbf", "edafbf", "edb080", "edbfbf", "eda080edb080", "f0", "f08080af", "f08fbfbf",
            "f09098", "f0288cbc", "f0908cc0", "f4908080", "f5808080", "f7bfbfbf", "f888808080", "fbbfbfbfbf", "fc8480808080",
            "fdbfbfbfbfbf", "fe", "ff", "feff", "c3c3a9", "cebae1bdb9cf83cebceda080656469746564")
ZEROS = bytes(4)


def framing():
    """Texts and binary messages of every length (5.2, 5.6)."""
    answered("an empty text", frame(TEXT), MALFORMED)
    for count in (28, 125, 126, 127, 128, 65_535, 65_536):
        answered(f"a greeting of {count} bytes", frame(TEXT, padded(count)), GREETED)
    answered("65,537 bytes", frame(TEXT, padded(65_537)), TOO_LONG)
    answered("65,537 bytes and a greeting", frame(TEXT, padded(65_537)) + frame(TEXT, HELLO), TOO_LONG, GREETED)
    ended("65,538 bytes", frame(TEXT, padded(65_538)), TOO_BIG)
    for count in (0, 10, 125, 126, 127, 65_535, 65_536):
        answered(f"{count} binary bytes", frame(BINARY, b"\xfe" * count), MALFORMED)
    ended("65,538 binary bytes", frame(BINARY, b"\xfe" * 65_538), TOO_BIG)
    answered("a binary greeting signs nobody in", frame(BINARY, HELLO) + frame(TEXT, STATUS.encode()), MALFORMED,
             (TEXT, NOT_SIGNED_IN.encode()))
    answered("100 texts at once", frame(TEXT, HELLO) * 100, *[GREETED] * 100)
    answered("nothing", b"")


def controls():
    """Pings, pongs, and where they may stand (5.5)."""
    payloads = [bytes((7 * count + place) % 256 for place in range(count)) for count in range(126)]
    answered("pings of 0 to 125 bytes", b"".join(frame(PING, payload) for payload in payloads), *[(PONG, payload) for payload in payloads])
    ended("a ping of 126 bytes", frame(PING, b"p" * 126), PROTOCOL_ERROR)
    ended("a pong of 126 bytes", frame(PONG, b"p" * 126), PROTOCOL_ERROR)
    ended("a ping of 127 bytes, its length in 64 bits", frame(PING, b"p" * 127, width=64), PROTOCOL_ERROR)
    for count in (0, 125):
        answered(f"a pong of {count} bytes that nobody asked for, and a greeting", frame(PONG, b"\xff" * count) + frame(TEXT, HELLO), GREETED)
    answered("a ping, a text and a ping", frame(PING, b"1") + frame(TEXT, HELLO) + frame(PING, b"22"), (PONG, b"1"), GREETED, (PONG, b"22"))
    answered("a ping byte by byte", [bytes([byte]) for byte in frame(PING, b"slow")], (PONG, b"slow"), pause=0.002)
    for opcode in (PING, PONG, CLOSE):
        ended(f"opcode {opcode} in fragments", frame(opcode, b"\x03", last=False) + frame(CONTINUATION, b"\xe8"), PROTOCOL_ERROR)


def reserved():
    """Bits and opcodes that mean nothing yet (5.2)."""
    for bits in range(1, 8):
        ended(f"a text with the reserved bits {bits:03b}", frame(TEXT, HELLO, reserved=bits), PROTOCOL_ERROR)
    for opcode in (CONTINUATION, BINARY, CLOSE, PING, PONG):
        ended(f"opcode {opcode} with a reserved bit", frame(opcode, reserved=4), PROTOCOL_ERROR)
    for opcode in (3, 4, 5, 6, 7, 11, 12, 13, 14, 15):
        ended(f"the reserved opcode {opcode}", frame(opcode), PROTOCOL_ERROR)
        ended(f"a text, and the reserved opcode {opcode} with 10 bytes", frame(TEXT, HELLO) + frame(opcode, b"0123456789"),
              PROTOCOL_ERROR, GREETED)
    ended("the reserved opcode 3 between fragments", frame(TEXT, b"{", last=False) + frame(3), PROTOCOL_ERROR)
    ended("a reserved bit between fragments", frame(TEXT, b"{", last=False) + frame(CONTINUATION, b"}", reserved=4), PROTOCOL_ERROR)


def fragments():
    """Messages in pieces, and control frames between them (5.4)."""
    pieces = frame(TEXT, HELLO[:9], last=False), frame(CONTINUATION, HELLO[9:20], last=False), frame(CONTINUATION, HELLO[20:])
    whole = b"".join(pieces)
    answered("three fragments", whole, GREETED)
    answered("three fragments, a segment each", pieces, GREETED, pause=0.01)
    answered("three fragments, byte by byte", [bytes([byte]) for byte in whole], GREETED, pause=0.001)
    answered("two texts in fragments", whole * 2, GREETED, GREETED)
    answered("a fragment for each byte", in_bytes(HELLO), GREETED)
    answered("empty fragments around", frame(TEXT, b"", last=False) + frame(CONTINUATION, HELLO, last=False) +
             frame(CONTINUATION, b"", last=False) + frame(CONTINUATION), GREETED)
    answered("empty fragments alone", frame(TEXT, b"", last=False) + frame(CONTINUATION), MALFORMED)
    answered("a ping behind each fragment", b"".join(piece + frame(PING, bytes([number])) for number, piece in enumerate(pieces)),
             (PONG, b"\0"), (PONG, b"\1"), GREETED, (PONG, b"\2"))
    answered("a pong between fragments", pieces[0] + frame(PONG) + pieces[1] + pieces[2], GREETED)
    answered("binary fragments", frame(BINARY, b"\xff", last=False) + frame(CONTINUATION, b"\xfe"), MALFORMED)
    ended("a close between fragments", pieces[0] + close(1000), 1000)
    ended("a close between fragments, and the rest of them", pieces[0] + close(1000) + pieces[1] + pieces[2], 1000)
    for last in (True, False):
        ended(f"a continuation of nothing, {last}", frame(CONTINUATION, HELLO, last=last), PROTOCOL_ERROR)
        ended(f"a continuation after fragments, {last}", whole + frame(CONTINUATION, b"x", last=last), PROTOCOL_ERROR, GREETED)
        for opcode in (TEXT, BINARY):
            ended(f"opcode {opcode} within a text, {last}", pieces[0] + frame(opcode, HELLO, last=last), PROTOCOL_ERROR)
            ended(f"opcode {opcode} within a binary message, {last}", frame(BINARY, b"x", last=False) + frame(opcode, HELLO, last=last),
                  PROTOCOL_ERROR)
    answered("65,536 fragments of a byte", in_bytes(b" " * 65_536), MALFORMED, seconds=60)
    answered("65,537 fragments of a byte", in_bytes(b" " * 65_537), TOO_LONG, seconds=60)
    ended("65,538 fragments of a byte", in_bytes(b" " * 65_538), TOO_BIG, seconds=60)
    answered("100,000 empty fragments", frame(TEXT, HELLO, last=False) + frame(CONTINUATION, last=False, mask=ZEROS) * 100_000 +
             frame(CONTINUATION), GREETED, seconds=60)


def in_bytes(text):
    """A text in fragments of a byte."""
    return b"".join(frame(TEXT if place == 0 else CONTINUATION, text[place:place + 1], last=place == len(text) - 1, mask=ZEROS)
                    for place in range(len(text)))


def utf8():
    """Texts are UTF-8, wherever they are cut, and what is none ends the connection (5.6, 8.1)."""
    answered("a token of many languages", frame(TEXT, GREETS_IN_UTF8), GREETED_IN_UTF8)
    answered("the same, a fragment for each byte", in_bytes(GREETS_IN_UTF8), GREETED_IN_UTF8)
    for place in range(1, len(GREETS_IN_UTF8)):
        first, second = GREETS_IN_UTF8[:place], GREETS_IN_UTF8[place:]
        answered(f"the same, cut behind byte {place}", frame(TEXT, first, last=False) + frame(CONTINUATION, second), GREETED_IN_UTF8)
    whole = frame(TEXT, GREETS_IN_UTF8)
    for place in range(6, len(whole), 5):
        answered(f"the same in two segments, cut behind byte {place}", [whole[:place], whole[place:]], GREETED_IN_UTF8, pause=0.003)
    answered("a NUL", frame(TEXT, b'{"hello":"n1","token":"\0"}'), MALFORMED)
    answered("a byte order mark", frame(TEXT, b"\xef\xbb\xbf" + HELLO), MALFORMED)
    for good in map(bytes.fromhex, GOOD_UTF8):
        answered(f"good: {good.hex()}", frame(TEXT, b'{"hello":"n1","token":"' + good + b'"}'), NOT_KNOWN)
    for bad in map(bytes.fromhex, BAD_UTF8):
        ended(f"bad: {bad.hex()}", frame(TEXT, b'{"hello":"n1","token":"' + bad + b'"}'), NO_UTF8)
        for place in range(len(bad) + 1):
            ended(f"bad: {bad.hex()}, cut behind byte {place}",
                  frame(TEXT, b"ab" + bad[:place], last=False) + frame(CONTINUATION, bad[place:] + b"cd"), NO_UTF8)
    for place in range(len(STATUS) + 1):
        ended(f"ff before byte {place}", frame(TEXT, STATUS[:place].encode() + b"\xff" + STATUS[place:].encode()), NO_UTF8)
    for short in (b"\xe2\x82", b"\xf0\x9f\x98"):
        ended(f"{short.hex()} at the end", frame(TEXT, b"{" + short), NO_UTF8)
        ended(f"{short.hex()} at the end of fragments", frame(TEXT, b"{" + short, last=False) + frame(CONTINUATION), NO_UTF8)
    for bad in (b"\xff", b"\xed\xa0", b"\xf4\x90", b"\xc0"):
        ended(f"{bad.hex()} in a first fragment, and no other comes", frame(TEXT, b"abc" + bad, last=False), NO_UTF8)


def closes():
    """The closing handshake and its codes (5.5.1, 7.4)."""
    note("a close without a code", ([(CLOSE, b"")], "end"), heard(close()))
    ended("a close with one byte", frame(CLOSE, b"\x03"), PROTOCOL_ERROR)
    for code in SENDABLE:
        note(f"a close with {code}", ([closing(code)], "end"), heard(close(code)))
    for code in UNSENDABLE:
        note(f"a close with {code}, which may not be sent", (PROTOCOL_ERROR, "end"), code_of(heard(close(code))))
    for reason in (b"Hello World!", b"r" * 123, "\u6c34".encode()):
        note(f"a close with a reason of {len(reason)} bytes", ([closing(1000, reason)], "end"), heard(close(1000, reason)))
    ended("a close with a reason of 124 bytes", close(1000, b"r" * 124), PROTOCOL_ERROR)
    code, end = code_of(heard(close(1000, b"\xce\xba\xff")))
    note("a close whose reason is no UTF-8", (True, "end"), (code in (PROTOCOL_ERROR, NO_UTF8), end))
    for what, late in (("a close", close(1001)), ("a ping", frame(PING, b"late")), ("a text", frame(TEXT, HELLO))):
        ended(f"{what} after a close has no answer", close(1000) + late, 1000)
    answered("a text, a ping and a close", frame(TEXT, padded(65_536)) + frame(PING), GREETED, (PONG, b""))


def code_of(came):
    """The code of the close that is all that came, and how the stream ended."""
    frames, end = came
    return (struct.unpack(">H", frames[0][1][:2])[0] if [opcode for opcode, _ in frames] == [CLOSE] else frames), end


def masks():
    """A client masks what it sends (5.1, 5.3)."""
    for what, bare in (("a text", frame(TEXT, HELLO, mask=None)), ("an empty text", frame(TEXT, mask=None)), ("a ping", frame(PING, mask=None)),
                       ("a binary message", frame(BINARY, b"x", mask=None)), ("a close", frame(CLOSE, b"\x03\xe8", mask=None))):
        ended(f"{what} without a mask", bare, PROTOCOL_ERROR)
    ended("a fragment without a mask", frame(TEXT, b"{", last=False) + frame(CONTINUATION, b"}", mask=None), PROTOCOL_ERROR)
    for mask in (ZEROS, b"\xff" * 4, b"\0\xff\0\xff", bytes(range(1, 5))):
        answered(f"the mask {mask.hex()}", frame(TEXT, HELLO, mask=mask), GREETED)


def lengths():
    """What is too long isn't waited for (7.4.1, 10.4)."""
    for count in (65_538, 2**31, 2**32, 2**40, 2**62):
        ended(f"the head of a text of {count} bytes", frame(TEXT, length=count, width=64), TOO_BIG)
    for opcode, count in ((TEXT, 2**63), (TEXT, 2**64 - 1), (PING, 2**40)):
        code, end = code_of(heard(frame(opcode, length=count, width=64)))
        note(f"the head of {count} bytes of opcode {opcode}", (True, "end"), (code in (PROTOCOL_ERROR, TOO_BIG), end))
    for first, second, answer in ((40_000, 25_536, MALFORMED), (65_536, 1, TOO_LONG), (1, 65_536, TOO_LONG), (65_537, 0, TOO_LONG)):
        answered(f"fragments of {first} and {second} bytes", two(first, second), answer)
    for first, second in ((65_536, 2), (40_000, 40_000), (65_537, 1), (1, 65_537)):
        ended(f"fragments of {first} and {second} bytes", two(first, second), TOO_BIG)
    ended("a fragment of 65,538 bytes", frame(TEXT, b" " * 65_538, last=False), TOO_BIG)


def two(first, second):
    return frame(TEXT, b" " * first, last=False) + frame(CONTINUATION, b" " * second)


def segments():
    """Frames wherever the stream cuts them."""
    whole = frame(TEXT, padded(65_536))
    for size in (1_000, 997, 4_096, 16_384, 65_535):
        answered(f"65,536 bytes in segments of {size}", [whole[place:place + size] for place in range(0, len(whole), size)], GREETED)
    short = frame(TEXT, HELLO) * 3
    for size in range(1, 12):
        answered(f"three texts in segments of {size}", [short[place:place + size] for place in range(0, len(short), size)], *[GREETED] * 3,
                 pause=0.002)
