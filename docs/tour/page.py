#!/usr/bin/env python3
"""Makes the pictures of the page in docs/TOUR.md, and prints what the page says of them.

    PYTHONPATH=bindings/python python3 docs/tour/page.py

It needs the library (bindings/build) and chromium.
"""

import struct
import sys
import threading
import zlib
from collections import Counter
from pathlib import Path

HERE = Path(__file__).resolve().parent
sys.path.insert(0, str(HERE.parents[1] / "bindings" / "tests"))

import browser
from ising2d._explore._server import Server

READY = "document.body && document.body.dataset.state === 'ready'"
PICTURES = {
    "explore-small": ("kind=square&rows=12&cols=12&law=gaussian&seed=1&force=26", 1240, 760),
    "explore-large": ("kind=square&rows=100&cols=100&law=negative&share=120&seed=2", 1360, 900),
}


def pixels(png):
    """The rows of a PNG of 8 bits a channel, as lists of colours without their alpha."""
    place, data = 8, b""
    while place < len(png):
        length, kind = struct.unpack(">I4s", png[place : place + 8])
        part = png[place + 8 : place + 8 + length]
        if kind == b"IHDR":
            wide, high, _, colours = struct.unpack(">IIBB", part[:10])
        data += part if kind == b"IDAT" else b""
        place += length + 12
    channels = 4 if colours == 6 else 3
    raw, before = zlib.decompress(data), bytearray(wide * channels)
    for y in range(high):
        start = y * (wide * channels + 1)
        before = unfiltered(raw[start], bytearray(raw[start + 1 : start + 1 + len(before)]), before, channels)
        yield list(zip(*(before[channel::channels] for channel in range(3))))


def unfiltered(kind, row, above, step):
    """A row without its filter."""
    for i in range(len(row)):
        left, up, corner = row[i - step] if i >= step else 0, above[i], above[i - step] if i >= step else 0
        if kind == 4:
            near = min((left, up, corner), key=lambda value: abs(left + up - corner - value))
        else:
            near = (0, left, up, (left + up) // 2)[kind]
        row[i] = (row[i] + near) & 255
    return row


def packed(png):
    """The same picture in at most 256 colours: the commonest, and for the others the nearest of them."""
    rows = list(pixels(png))
    counts = Counter(colour for row in rows for colour in row)
    palette = [colour for colour, _ in counts.most_common(256)]
    numbers = {colour: number for number, colour in enumerate(palette)}
    for colour in counts:
        if colour not in numbers:
            far = [sum((one - other) ** 2 for one, other in zip(colour, own)) for own in palette]
            numbers[colour] = far.index(min(far))
    data = b"".join(b"\0" + bytes(numbers[colour] for colour in row) for row in rows)
    shown = bytes(value for colour in palette for value in colour)
    head = struct.pack(">IIBBBBB", len(rows[0]), len(rows), 8, 3, 0, 0, 0)
    parts = ((b"IHDR", head), (b"PLTE", shown), (b"IDAT", zlib.compress(data, 9)), (b"IEND", b""))
    return b"\x89PNG\r\n\x1a\n" + b"".join(
        struct.pack(">I", len(part)) + kind + part + struct.pack(">I", zlib.crc32(kind + part))
        for kind, part in parts
    )


def main():
    server = Server(0)
    threading.Thread(target=server.serve_forever, daemon=True).start()
    page = browser.Browser(browser.found())
    try:
        for name, (state, wide, high) in PICTURES.items():
            page.size(wide, high)
            page.go(f"{server.address}#{state}")
            page.until(READY)
            if "force" in state:
                page.until("document.getElementById('bond-text').textContent.includes('Forced')")
            (HERE / f"{name}.png").write_bytes(packed(page.picture()))
            print(name, page.text("numbers"), page.text("bond-text"), sep="\n  ")
    finally:
        page.close()
        server.shutdown()


if __name__ == "__main__":
    main()
