"""Frames as they are written in the examples: numbers in hexadecimal, texts in quotes behind their length, and a frame in brackets, whose
length comes by itself: [0001 01 "c" "u" "p"]. What stands outside brackets are bytes as they come. "n"*255 is the text of 255 times n,
and <00 "c">*3 are three times these bytes."""

import re

PART = re.compile(r'"([^"]*)"(?:\*(\d+))?|([0-9a-f]{2}(?:[0-9a-f]{2})*)')


def body_of(words):
    """The bytes of numbers and texts."""
    words = re.sub(r"<([^>]*)>\*(\d+)", lambda found: int(found[2]) * (found[1] + " "), words)
    data, end = bytearray(), 0
    for found in PART.finditer(words):
        if words[end : found.start()].strip():
            break
        end = found.end()
        text, count, digits = found.groups()
        if digits is not None:
            data += bytes.fromhex(digits)
        else:
            whole = text.encode() * int(count or 1)
            data += len(whole).to_bytes(2, "big") + whole
    if words[end:].strip():
        raise ValueError(f"no bytes: {words[end:].strip()}")
    return bytes(data)


def frame_of(words):
    body = body_of(words)
    return len(body).to_bytes(4, "big") + body


def bytes_of(words):
    """The bytes of frames in brackets, and of what stands between them."""
    data = b""
    for outside, inside in re.findall(r"([^\[]*)(?:\[([^\]]*)\])?", words):
        data += body_of(outside)
        if inside:
            data += frame_of(inside)
    return data
