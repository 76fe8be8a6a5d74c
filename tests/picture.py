"""picture.py PNG [DOTS] < PBM: whether both have the same dots, and the PNG so many of them to the
inch. It has one bit to a dot, rows unfiltered, 1 for white, as the programs and pnmtopng write."""
import sys
import zlib


def of_png(data):
    """Width, height, dots to the metre in both directions, and the rows, each with a filter's
    number before it."""
    at, packed, size, dense = 8, b"", None, None
    while at < len(data):
        length = int.from_bytes(data[at:at + 4], "big")
        kind, body = data[at + 4:at + 8], data[at + 8:at + 8 + length]
        if kind == b"IHDR":
            size = [int.from_bytes(body[:4], "big"), int.from_bytes(body[4:8], "big")]
            assert body[8:] == bytes([1, 0, 0, 0, 0]), "not one bit to a dot"
        elif kind == b"pHYs":
            dense = int.from_bytes(body[:4], "big"), int.from_bytes(body[4:8], "big"), body[8]
        elif kind == b"IDAT":
            packed += body
        at += 12 + length
    return *size, dense, zlib.decompress(packed)


def of_pbm(data):
    magic, size, rows = data.split(b"\n", 2)
    assert magic == b"P4", "no PBM"
    return *map(int, size.split()), rows


def dots(rows, width):
    return "".join(f"{byte:08b}" for byte in rows)[:width]


width, height, dense, png = of_png(open(sys.argv[1], "rb").read())
if len(sys.argv) > 2:
    metre = round(int(sys.argv[2]) / 0.0254)
    assert dense == (metre, metre, 1), f"{dense} dots to the metre, not {metre}"
wide, high, pbm = of_pbm(sys.stdin.buffer.read())
assert (width, height) == (wide, high), f"{width} x {height}, not {wide} x {high}"
row = (width + 7) // 8
assert len(png) == (row + 1) * height and len(pbm) == row * height, "rows missing"
for y in range(height):
    filtered, *white = png[y * (row + 1):(y + 1) * (row + 1)]
    assert filtered == 0, "filtered rows"
    black = dots((byte ^ 255 for byte in white), width)
    assert black == dots(pbm[y * row:(y + 1) * row], width), f"another row {y}"
