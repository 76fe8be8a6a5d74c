"""The shared library from Python: shared.py LIBRARY FONTS

reads the fonts into a store, chooses a bold one of 10 points, and prints its letter A as
dots, row by row. It knows the library by the C header's words alone: nothing of it is
compiled."""
import ctypes
import sys

U32, U64, SIZE = ctypes.c_uint32, ctypes.c_uint64, ctypes.c_size_t


class Chosen(ctypes.Structure):
    _fields_ = [("refusal", U32), ("font", U32)]


class ChosenRecord(ctypes.Structure):
    _fields_ = [("refusal", U32), ("font", U32), ("which", U32), ("place", U64)]


class Told(ctypes.Structure):
    _fields_ = [("refusal", U32), ("count", U32)]


class Profile(ctypes.Structure):
    _fields_ = [("refusal", U32), ("rule", U32), ("code", U32)]


class Downloaded(ctypes.Structure):
    _fields_ = [("refusal", U32), ("row", U32), ("filled", U32), ("run", U32)]


class StreamRead(ctypes.Structure):
    _fields_ = [("refusal", U32), ("done", U64), ("refused", U64), ("place", U64),
                ("row", U32), ("filled", U32), ("run", U32)]


class Salvaged(ctypes.Structure):
    _fields_ = [("refusal", U32), ("stretches", U64), ("done", U64), ("refused", U64)]


def declared(library, name, result, *numbers):
    """A call on a store and as many other buffers as `numbers` has None."""
    call = getattr(library, name)
    call.restype = result
    call.argtypes = [ctypes.c_char_p, SIZE]
    for number in numbers:
        call.argtypes += [ctypes.c_char_p, SIZE] if number is None else [number]
    return call


def must_be(what, got, expected):
    if got != expected:
        sys.exit(f"{what}: {got}, not {expected}")


def main(path, fonts):
    library = ctypes.CDLL(path)
    make_fresh = declared(library, "mf_make_fresh", U32)
    download = declared(library, "mf_download_character", Downloaded, None, U32, U32)
    read_stream = declared(library, "mf_read_stream", StreamRead, None)
    choose = declared(library, "mf_choose", Chosen, *[U32] * 5, ctypes.c_int32, *[U32] * 3)
    from_two = declared(library, "mf_choose_from_two", ChosenRecord, None, *choose.argtypes[2:])
    tell = declared(library, "mf_tell_character", Told, None, U32, U32)
    draw_row = declared(library, "mf_draw_row", U32, None, U32, U32, U32)
    check_profile = declared(library, "mf_check_profile", Profile, U32)
    salvage_stream = declared(library, "mf_salvage_stream", Salvaged, None, None)
    add_figures = declared(library, "mf_add_figures", U32, None)

    stream = open(fonts, "rb").read()
    store = ctypes.create_string_buffer(65536)
    kept = ctypes.create_string_buffer(16)
    must_be("a store of 11 bytes", make_fresh(store, 11), 1)
    must_be("a fresh store", make_fresh(store, len(store)), 0)
    read = read_stream(store, len(store), stream, len(stream))
    must_be("read", (read.refusal, read.done, read.refused, read.place), (0, 190, 0, 0))
    # cut in its last command: three numbers of 64 bits after one of 32
    read = read_stream(store, len(store), stream, len(stream) - 1)
    must_be("cut", (read.refusal, read.done, read.refused), (13, 189, 0))
    must_be("the place of the cut", stream[read.place:read.place + 3], b"\x1b(s")
    # 10 by 4 dots: a row drawn twice, then one of 4 and 7 dots; alone, and before a broken place
    block = bytes([4, 0, 14, 2, 0, 0, 0, 0, 0, 0, 0, 10, 0, 4, 0, 0, 1, 10, 0, 4, 7])
    sent = download(store, len(store), block, len(block), 3, 65)
    must_be("a bad row", (sent.refusal, sent.row, sent.filled, sent.run), (8, 2, 4, 7))
    bad = b"\x1b*c3D\x1b(s21W" + block + b"?"
    read = read_stream(store, len(store), bad, len(bad))
    must_be("a bad row in a stream", (read.refusal, read.done, read.refused, read.place,
                                      read.row, read.filled, read.run), (13, 1, 1, 32, 2, 4, 7))

    # Roman-8, proportional, 10 to the inch, 10 points, style 0, bold, typeface 0, portrait
    chosen = choose(store, len(store), 277, 1, 1000, 1000, 0, 3, 0, 0, 300)
    must_be("chosen", (chosen.refusal, chosen.font), (0, 3))
    refused = choose(store, len(store), 277, 1, 1000, 1000, 0, -8, 0, 0, 300)
    must_be("weight -8", (refused.refusal, refused.font), (2, 0))
    # the same from two stores, an empty one before it: a record of 24 bytes, not in registers
    empty = ctypes.create_string_buffer(12)
    must_be("an empty store", make_fresh(empty, len(empty)), 0)
    request = (277, 1, 1000, 1000, 0, 3, 0, 0, 300)
    for one, other, which in ((store, empty, 1), (empty, store, 2)):
        found = from_two(one, len(one), other, len(other), *request)
        must_be("from two", (found.refusal, found.font, found.which, found.place), (0, 3, which, 12))
    told = tell(store, len(store), kept, len(kept), chosen.font, ord("A"))
    must_be("told", told.refusal, 0)
    width, height = (int.from_bytes(kept.raw[at:at + 2], "big") for at in (10, 12))
    row = ctypes.create_string_buffer((width + 7) // 8)
    black = 0
    for number in range(height):
        must_be("a row", draw_row(store, len(store), row, len(row), chosen.font, 65, number), 0)
        dots = "".join(f"{byte:08b}" for byte in row.raw)[:width]
        black += dots.count("1")
        print(dots.replace("0", ".").replace("1", "#"))
    must_be("no row", draw_row(store, len(store), row, len(row), chosen.font, 65, height), 2)

    # the store twice: the same A two times
    figures = ctypes.create_string_buffer(14344)
    for _ in range(2):
        must_be("figures", add_figures(store, len(store), figures, len(figures)), 0)
    must_be("figures too short", add_figures(store, len(store), figures, len(figures) - 1), 2)
    delta = int.from_bytes(kept.raw[14:16], "big")
    numbers = [int.from_bytes(figures.raw[at:at + 8], "little") for at in range(0, 14344, 8)]
    must_be("stores", numbers[0], 2)
    must_be("figures of A", numbers[1 + 7 * 65:8 + 7 * 65],
            [2, 2 * black, width, width, 2 * delta, delta, 0])

    # torn in its first byte, so that the first copy is skipped, and cut before its last
    torn = b"." + stream[1:] + stream[:-1]
    places = ctypes.create_string_buffer(32)
    read = salvage_stream(store, len(store), torn, len(torn), places, len(places))
    must_be("salvaged", (read.refusal, read.stretches, read.done, read.refused), (0, 2, 189, 0))
    numbers = [int.from_bytes(places.raw[at:at + 8], "little") for at in range(0, 32, 8)]
    cut = torn.rindex(b"\x1b(s")
    must_be("the stretches", numbers, [0, len(stream), cut, len(torn) - cut])
    read = salvage_stream(store, len(store), torn, len(torn), places, 31)
    must_be("a list too short", (read.refusal, read.stretches, read.done, read.refused),
            (12, 0, 0, 0))

    # with the font's type (3) and spacing (13) made 0, the profile lacks code 32
    changed = bytearray(stream)
    header = stream.index(b"W") + 1
    changed[header + 3] = changed[header + 13] = 0
    read_stream(store, len(store), bytes(changed), len(changed))
    profile = check_profile(store, len(store), chosen.font)
    must_be("profile", (profile.refusal, profile.rule, profile.code), (0, 3, 32))


main(*sys.argv[1:])
