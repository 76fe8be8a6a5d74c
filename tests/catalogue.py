"""catalogue.py PAGE FOLDER PROGRAMS [--salvage]: whether a page of marlinfold-catalogue says of the
folder what the other programs in the folder PROGRAMS say of its files, and draws what they draw:
fields, notes, rules, samples, every character in its field, equal fonts, the figures by code; with
--salvage what all of them say and draw with it, skipped stretches too. Prints what was compared."""
import base64
import functools
import html.parser
import json
import os
import re
import subprocess
import sys
import zlib

VOID = {"meta", "img", "input"}
SAMPLE = "Handle with care: 12 x 3.50 (No. 7)"


class Page(html.parser.HTMLParser):
    """The page as a tree of elements: name, attributes, and what is inside."""

    def __init__(self, text):
        super().__init__(convert_charrefs=True)
        self.root = self.at = {"name": "", "attributes": {}, "inside": [], "above": None}
        self.feed(text)
        self.close()
        assert self.at is self.root, f"{self.at['name']} is not ended"

    def handle_starttag(self, name, attributes):
        made = {"name": name, "attributes": dict(attributes), "inside": [], "above": self.at}
        assert len(made["attributes"]) == len(attributes), f"an attribute twice in {name}"
        self.at["inside"].append(made)
        if name not in VOID:
            self.at = made

    def handle_endtag(self, name):
        assert self.at["name"] == name, f"</{name}> ends {self.at['name']}"
        self.at = self.at["above"]

    def handle_data(self, words):
        self.at["inside"].append(words)


def every(of, name=None, **attributes):
    """All elements inside one with this name and these attributes, in order."""
    for each in of["inside"]:
        if isinstance(each, str):
            continue
        if name in (None, each["name"]) and all(
                each["attributes"].get(key.strip("_")) == value
                for key, value in attributes.items()):
            yield each
        yield from every(each, name, **attributes)


def words(of):
    return "".join(each if isinstance(each, str) else words(each) for each in of["inside"])


def original(name):
    """The bytes of a name that the page shows."""
    made = re.sub(rb"\\(n|\\|[0-7]{3})", lambda found: {b"n": b"\n", b"\\": b"\\"}.get(
        found[1]) or bytes([int(found[1], 8)]), name.encode())
    return made


def run(program, *given):
    return subprocess.run([os.path.join(programs, "marlinfold-" + program), *given],
                          capture_output=True, check=False)


def safe(page):
    """Nothing comes from elsewhere, only the page's own script runs, every link leads somewhere."""
    ids = [each["attributes"]["id"] for each in every(page) if "id" in each["attributes"]]
    assert len(ids) == len(set(ids)), "an id twice"
    assert len(list(every(page, "script"))) <= 1, "another script"
    allowed = {"id", "class", "lang", "charset", "name", "content", "scope", "width", "height", "src",
               "alt", "href", "hidden", "type", "value", "role", "tabindex", "aria-labelledby",
               "viewbox", "x", "y", "d", "fill", "stroke", "text-anchor"}
    for each in every(page):
        given = each["attributes"]
        assert all(key in allowed or key.startswith("data-") for key in given), given.keys()
        assert given.get("src", "data:image/png;base64,").startswith("data:image/png;base64,")
        assert "href" not in given or given["href"][1:] in ids, given
        assert each["name"] != "img" or given.get("alt"), "a picture without words"


# ---- pictures ----

def dots_of_png(src):
    """Rows of 0 and 1, where 1 is black."""
    data = base64.b64decode(src.split(",", 1)[1], validate=True)
    at, packed = 8, b""
    while at < len(data):
        length = int.from_bytes(data[at:at + 4], "big")
        kind, body = data[at + 4:at + 8], data[at + 8:at + 8 + length]
        assert zlib.crc32(kind + body) == int.from_bytes(data[at + 8 + length:at + 12 + length],
                                                         "big"), "a wrong sum in a PNG"
        if kind == b"IHDR":
            width, height = (int.from_bytes(body[at:at + 4], "big") for at in (0, 4))
        packed += body if kind == b"IDAT" else b""
        at += 12 + length
    rows, row = zlib.decompress(packed), (width + 7) // 8 + 1
    assert len(rows) == row * height and not any(rows[::row])
    return ["".join(f"{byte ^ 255:08b}" for byte in rows[y * row + 1:(y + 1) * row])[:width]
            for y in range(height)]


def dots_of_label(path, font, text, *options):
    made = run("label", *salvage, "--plain", "--bytes", "--font", font, *options, "--", text,
               path)
    return made.stdout.decode().split("\n")[2:-1]


def trimmed(rows):
    rows = [row for row in rows]
    while rows and "1" not in rows[0]:
        rows.pop(0)
    while rows and "1" not in rows[-1]:
        rows.pop()
    left = min((row.index("1") for row in rows if "1" in row), default=0)
    return [row[left:].rstrip("0") for row in rows]


def digits():
    """The rows of the digits, from the source of the letters."""
    source = open(os.path.join(os.path.dirname(sys.argv[0]), "../programs/common/letters.c"),
                  encoding="ascii").read()
    order = re.search(r'order\[\] = "(.*)"', source)[1]
    rows = [[int(number) for number in found.split(",")]
            for found in re.findall(r"\{((?:\d+, ){6}\d+)\}", source)]
    return {letter: rows[order.index(letter)] for letter in "0123456789"}


def code_drawn(code, scale):
    """A code as it stands above its character, without the white around it."""
    rows = ["".join(f"{digit_rows[letter][y]:05b}0" for letter in str(code)) for y in range(7)]
    return trimmed(["".join(dot * scale for dot in row) for row in rows for _ in range(scale)])


@functools.lru_cache(maxsize=None)
def as_bdf(path, font):
    return run("bdf", *salvage, "--font", font, path).stdout.decode()


def of_bdf(path, font):
    """Of each character of an upright font its left and top offset and its rows, by way of BDF."""
    made = {}
    for part in as_bdf(path, font).split("STARTCHAR ")[1:]:
        code = int(re.search(r"ENCODING (\d+)", part)[1])
        width, height, left, below = map(int, re.search(
            r"BBX (\d+) (\d+) (-?\d+) (-?\d+)", part).groups())
        rows = part.split("BITMAP\n")[1].split("\n")[:height]
        made[code] = left, below + height - 1, [
            f"{int(row, 16):0{4 * len(row)}b}"[:width] for row in rows]
    return made


def field_drawn(characters, code, wide, high):
    """A character as it stands in a field that takes them all around one point."""
    left, top, dots = characters[code]
    x = left - min(0, *(each[0] for each in characters.values()))
    y = -top - min(0, *(-each[1] for each in characters.values()))
    rows = ["0" * wide] * y + ["0" * x + row + "0" * (wide - x - len(row)) for row in dots]
    return rows + ["0" * wide] * (high - len(rows))


def characters_drawn(picture, path, told, codes):
    """Every character stands in its field below its code, and every other field is white."""
    dpi, font = told["dpi"], str(told["font"])
    gap, scale = 8 * dpi // 300, dpi // 150
    lines = sorted({code // 16 for code in codes})
    rows = dots_of_png(picture["attributes"]["src"])
    wide, high = (len(rows[0]) - gap) // 16, (len(rows) - gap) // len(lines)
    assert int(picture["attributes"]["width"]) == len(rows[0]) * 300 // dpi
    characters = of_bdf(path, font) if told["orientation"] == "portrait" else None
    for line, first in enumerate(lines):
        for column in range(16):
            code = 16 * first + column
            field = [row[gap + column * wide:gap + (column + 1) * wide]
                     for row in rows[gap + line * high:gap + (line + 1) * high]]
            if code not in codes:
                assert not any("1" in row for row in field), f"{path} {font}: no gap at {code}"
                continue
            assert trimmed(field[:7 * scale]) == code_drawn(code, scale), f"{path}: code {code}"
            below = field[7 * scale + gap // 2:]
            if characters:
                assert below == field_drawn(characters, code, wide, len(below)), (path, font, code)
            elif 0 < code < 128:
                assert trimmed(below) == trimmed(dots_of_label(
                    path, font, chr(code), "--ink")), f"{path} {font}: character {code}"


# ---- what is said ----

def codes_of(caption):
    made = set()
    for part in caption.removeprefix("Codes: ").split(", "):
        first, _, last = part.partition(" to ")
        made |= set(range(int(first), int(last or first) + 1))
    return made


def check_font(section, told, path):
    rows = {words(row["inside"][0]): words(row["inside"][1]) for row in every(section, "tr")}
    bold = told["weight"] >= 3
    assert rows["Symbol set"].startswith(told["set"] + ": "), rows
    assert rows["Spacing"] == told["spacing"]
    assert rows["Pitch"] == f"{told['pitch']:.2f} characters to the inch"
    assert rows["Height"] == f"{told['height']:.2f} points"
    assert rows["Style"].startswith(f"{told['style']}: ")
    assert rows["Weight"].startswith(f"{told['weight']}: ")
    assert ("closed series" in rows["Weight"]) == bold
    assert len(list(every(section, "p", class_="closed"))) == bold
    assert rows["Typeface"].split(":")[0] == str(told["face"])
    assert rows["Orientation"] == told["orientation"]
    assert rows["Resolution"] == f"{told['dpi']} dots to the inch"
    assert rows["Characters"] == str(told["characters"])
    number = str(told["font"])
    name = told["name"].rstrip(" ").replace("\\", "\\\\")
    if name.isascii() and name.isprintable():
        assert words(next(every(section, "h4"))) == f"Font {number}" + (
            f', "{name}"' if name else ""), words(section)
    if os.path.basename(path).startswith("cm"):  # the samples are as the library writes them
        assert rows["Bytes"] == f"{os.path.getsize(path)} as a font stream", (rows["Bytes"], path)
    said = run("specimen", *salvage, "--profile", "--font", number,
               path).stdout.decode().split("\n")[:-1]
    met = said == [f"font {number} meets the profile"]
    rules = [words(item) for item in every(section, "li")]
    assert rules == ([] if met else said), (rules, said)
    assert f"Profile of spine labels: {'met' if met else 'not met'}\n" in words(section)
    if told["characters"]:
        check_pictures(section, told, path)


def check_pictures(section, told, path):
    number, pictures = str(told["font"]), list(every(section, "img"))
    captions = [words(each) for each in every(section, "figcaption")]
    codes = codes_of(captions[0])
    assert len(codes) == told["characters"]
    lacking = [letter for at, letter in enumerate(SAMPLE)
               if letter != " " and ord(letter) not in codes and at == SAMPLE.index(letter)]
    known = any(ord(letter) in codes for letter in SAMPLE.replace(" ", ""))
    expected = "Sample: " + SAMPLE + (
        "; the font has no letter of it" if not known
        else "; not in the font: " + " ".join(lacking) if lacking else "")
    assert captions[1] == expected, captions[1]
    if not pictures:
        return
    characters_drawn(pictures[0], path, told, codes)
    assert len(pictures) == 1 + known
    turns = ["portrait", "landscape", "reverse portrait", "reverse landscape"]
    if known:
        assert dots_of_png(pictures[1]["attributes"]["src"]) == dots_of_label(
            path, number, SAMPLE, "--turn", str(turns.index(told["orientation"]))), path
    counts["pictures"] += len(pictures)


def note_said(told):
    said = "skipped by salvage" if told["kind"] == "skipped" else told["kind"]
    said += f" at byte {told['byte']}" if "byte" in told else ""
    said += f", length {told['length']}" if "length" in told else ""
    said += f", font {told['font']}" if "font" in told and told["kind"] != "passed over" else ""
    said += f", code {told['code']}" if "code" in told else ""
    return said + ": " + told["text"]


def check_file(article, path):
    ran = run("fonts", *salvage, "--json", path)
    told = [json.loads(line) for line in ran.stdout.decode("utf-8", "replace").split("\n")[:-1]]
    fonts = [each for each in told if each["kind"] == "font"]
    sections = list(every(article, "section"))
    assert len(sections) == len(fonts) == int(article["attributes"]["data-fonts"]), path
    for section, font in zip(sections, fonts):
        check_font(section, font, path)
    notes, skipped = ([words(item) for each in every(article, "ul", class_=name)
                       for item in every(each, "li")] for name in ("notes", "skipped"))
    expected = [note_said(each) for each in told
                if each["kind"] not in ("font", "sums", "incomplete", "skipped")]
    assert [each for each in notes if not each.startswith("incomplete")] == expected, (
        path, notes, expected)
    expected = [note_said(each) for each in told if each["kind"] == "skipped"]
    assert skipped == expected, (path, skipped, expected)
    missing = [each for each in told if each["kind"] == "incomplete"]
    assert sum(each.startswith("incomplete") for each in notes) == len(
        {each["font"] for each in missing}), path
    state = article["attributes"]["data-state"]
    fontless = any(each["kind"] == "no font" for each in told) and not told[-1]["refused"]
    assert state == ("no-font" if fontless else "damaged" if ran.returncode else "whole"), path
    assert f"commands done {told[-1]['done']}, refused {told[-1]['refused']}." in words(article)
    assert int(article["attributes"]["data-bytes"]) == os.path.getsize(path)
    counts["notes"] += len(notes)
    return {section["attributes"]["id"]: (path, font) for section, font in zip(sections, fonts)}


def dots_key(path, told):
    """The font's dots and their places, by way of BDF."""
    made = as_bdf(path, str(told["font"])).split("\nCHARS ")[1]
    return told["orientation"], re.sub(r"(?m)^[SD]WIDTH .*$", "", made)


def check_groups(page, fonts):
    groups = {}
    for name, (path, told) in fonts.items():
        if told["characters"]:
            groups.setdefault(dots_key(path, told), []).append(name)
    expected = [group for group in groups.values() if len(group) > 1]
    found = [[link["attributes"]["href"][1:] for link in every(item, "a")]
             for each in every(page, "ol", id="groups")
             for item in each["inside"] if not isinstance(item, str)]
    assert found == expected, (found, expected)
    counts["groups"] = len(found)


def check_sums(page, articles, fonts):
    sums = {words(row["inside"][0]): int(words(row["inside"][1]))
            for table in every(page, "table", id="summary") for row in every(table, "tr")}
    states = [each["attributes"]["data-state"] for each in articles]
    for name, state in [("whole", "whole"), ("damaged", "damaged"), ("without a font", "no-font")]:
        assert sums[name] == states.count(state), (name, sums)
    assert sums["unreadable"] + sums.get("Folders that cannot be read", 0) == states.count(
        "unreadable")
    assert sums.get("Links to folders, not gone into", 0) == states.count("link")
    assert sums["Files"] == sum(
        sums[name] for name in ("whole", "damaged", "without a font", "unreadable"))
    assert sums["Fonts"] == len(fonts)
    assert sums["bold or heavier: closed series"] == sum(
        told["weight"] >= 3 for _, told in fonts.values())
    assert sums["fit for spine labels"] == words(page).count("Profile of spine labels: met\n")


# ---- the figures ----

def drawn_figures(path, told):
    """Of each character of a font its code, black dots, width as it is kept, and delta X: by the
    drawn rows and the properties of its BDF."""
    head, *parts = as_bdf(path, str(told["font"])).split("STARTCHAR ")
    exact = {int(code): int(value)
             for code, value in re.findall(r"(?m)^_PCL_DELTA_X_(\d+) (\d+)$", head)}
    pitch = int(re.search(r"(?m)^_PCL_PITCH (\d+)$", head)[1])
    for part in parts:
        code = int(re.search(r"ENCODING (\d+)", part)[1])
        dots = int(re.search(r"DWIDTH (\d+)", part)[1])
        sides = [int(side) for side in re.search(r"BBX (\d+) (\d+)", part).groups()]
        rows = part.split("BITMAP\n")[1].split("ENDCHAR")[0].split()
        usual = pitch if told["spacing"] == "fixed" else min(4 * dots, 32767)
        yield (code, sum(bin(int(row, 16)).count("1") for row in rows),
               sides["landscape" in told["orientation"]], exact.get(code, usual))


def expected_figures(fonts):
    by_code = {}
    for path, told in fonts.values():
        if told["characters"]:
            for code, *numbers in drawn_figures(path, told):
                by_code.setdefault(code, []).append(numbers)
    made = []
    for code, all_numbers in sorted(by_code.items()):
        dots, widths, moved = zip(*all_numbers)
        made.append([code, len(dots), sum(dots), min(widths), max(widths), sum(moved),
                     *divmod(sum(moved), len(moved))])
    return made


def check_chart(page, expected):
    chart, = every(page, "svg")
    assert chart["attributes"]["role"] == "img" and words(next(every(chart, "title")))
    most = max(row[1] for row in expected)
    first = next(row[0] for row in expected if row[1] == most)
    assert words(next(every(chart, "desc"))).endswith(
        f"The highest, {most}, is that of code {first}."), words(chart)
    bars = [{key: float(value) for key, value in bar["attributes"].items()}
            for bar in every(chart, "rect")]
    assert [bar["x"] for bar in bars] == [16 + 3 * row[0] for row in expected]
    for bar, row in zip(bars, expected):
        assert abs(bar["height"] - max(3, 128 * row[1] / most)) < 0.06, (bar, row)
        assert abs(bar["y"] + bar["height"] - 150) < 0.11 and bar["width"] == 2, bar


def check_figures(page, articles, fonts):
    expected = expected_figures(fonts)
    found = [[int(words(cell)) for cell in row["inside"]]
             for table in every(page, "table", id="by-code") for row in every(table, "tr")
             if row["inside"][0]["attributes"]["scope"] == "row"]
    assert found == expected, [pair for pair in zip(found, expected) if pair[0] != pair[1]] or (
        len(found), len(expected))
    counts["codes"] = len(found)
    if not expected:
        assert "There are no characters.\n" in words(page) and not list(every(page, "svg"))
        return
    files = sum(each["attributes"]["data-fonts"] != "0" for each in articles)
    assert (f"characters {sum(row[1] for row in expected)}, black dots "
            f"{sum(row[2] for row in expected)}, fonts {len(fonts)}, files with a font {files}.\n"
            in words(page)), words(page)[:2000]
    check_chart(page, expected)


page_name, folder, programs, *salvage = sys.argv[1:]  # --salvage, or nothing
counts = {"pictures": 0, "notes": 0, "groups": 0, "codes": 0}
digit_rows = digits()
whole = Page(open(page_name, encoding="utf-8", errors="strict", newline="").read()).root
safe(whole)
parts = list(every(whole, "article"))
shown = [original(words(next(every(part, "h3")))) for part in parts]
page_inode = os.stat(page_name).st_ino
there = []
for base, folders, files in os.walk(os.fsencode(folder)):
    there += [os.path.relpath(os.path.join(base, name), os.fsencode(folder)) for name in files
              + [each for each in folders if os.path.islink(os.path.join(base, each))]]
there = [name for name in there if not os.path.exists(os.path.join(os.fsencode(folder), name))
         or os.stat(os.path.join(os.fsencode(folder), name)).st_ino != page_inode]
unread = [name for name, part in zip(shown, parts)
          if "a folder that cannot be read" in words(part) or "File name too long" in words(part)]
assert set(there) == set(shown) - set(unread) and len(shown) == len(set(shown)), (there, shown)
kept = {}
for name, part in zip(shown, parts):
    if part["attributes"]["data-state"] not in ("unreadable", "link"):
        kept.update(check_file(part, os.fsdecode(os.path.join(os.fsencode(folder), name))))
check_groups(whole, kept)
check_sums(whole, parts, kept)
check_figures(whole, parts, kept)
print(f"{len(parts)} files, {len(kept)} fonts, {counts['notes']} notes, {counts['pictures']} "
      f"pictures, {counts['groups']} groups, figures of {counts['codes']} codes")
