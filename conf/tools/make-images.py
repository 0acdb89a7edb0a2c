#!/usr/bin/env python3
"""Writes the two images for blocked images: templates/image-blank and templates/image-pattern, both GIF.

usage: make-images.py [FOLDER]            writes them into FOLDER, the templates folder beside this script where it isn't given
       make-images.py --check [FOLDER]    writes nothing; ends with 1 where a file is another than what it would write
"""
import os
import struct
import sys


def lzw(pixels):
    """The pixels, each 0 or 1, as GIF's compressed blocks; the code size is never raised, since each pixel is a code of its own.

    Codes have 3 bits: 4 clears the table and 5 ends. A clear before every second pixel keeps the table small enough for that.
    """
    bits, count = 0, 0
    data = bytearray()

    def put(code):
        nonlocal bits, count
        bits |= code << count
        count += 3
        while count >= 8:
            data.append(bits & 255)
            bits >>= 8
            count -= 8

    for place, pixel in enumerate(pixels):
        if place % 2 == 0:
            put(4)
        put(pixel)
    put(5)
    if count:
        data.append(bits)
    blocks = bytearray([2])
    for at in range(0, len(data), 255):
        piece = data[at : at + 255]
        blocks.append(len(piece))
        blocks += piece
    return bytes(blocks) + b"\0"


def gif(width, height, colours, pixels, transparent=None):
    """A GIF of one picture with two colours (red, green, blue each)."""
    out = b"GIF89a" + struct.pack("<HHBBB", width, height, 0x80, 0, 0)
    out += bytes(colours[0]) + bytes(colours[1])
    if transparent is not None:
        out += b"\x21\xf9\x04\x01\0\0" + bytes([transparent]) + b"\0"
    out += b"\x2c" + struct.pack("<HHHHB", 0, 0, width, height, 0)
    return out + lzw(pixels) + b"\x3b"


def blank():
    """One pixel that isn't seen."""
    return gif(1, 1, [(255, 255, 255), (0, 0, 0)], [0], transparent=0)


def pattern():
    """Slanted grey lines, and nothing seen between them: it shows on light and on dark pages, and where it is stretched."""
    side = 32
    pixels = [1 if (x + y) % 8 < 2 else 0 for y in range(side) for x in range(side)]
    return gif(side, side, [(255, 255, 255), (136, 136, 136)], pixels, transparent=0)


def main():
    words = sys.argv[1:]
    check = words[:1] == ["--check"]
    words = words[1:] if check else words
    folder = words[0] if words else os.path.join(os.path.dirname(os.path.abspath(__file__)), "..", "templates")
    other = 0
    for name, data in (("image-blank", blank()), ("image-pattern", pattern())):
        path = os.path.join(folder, name)
        if check:
            try:
                with open(path, "rb") as file:
                    same = file.read() == data
            except OSError:
                same = False
            if not same:
                other = 1
                print("%s: not what make-images.py writes" % name)
        else:
            with open(path, "wb") as file:
                file.write(data)
    return other


if __name__ == "__main__":
    sys.exit(main())
