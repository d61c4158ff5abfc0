#!/usr/bin/env python3
"""Draws shows and looks at the pictures: tests/c/pictures.py FOLDER, where timeline, diagram and frame_loop are in the
folder.

Every picture is read as XML. What it should show is taken from the show file, from the score of the shipped shows, from
what the frame loop counts, or from a show made here for the purpose.
"""
import collections
import itertools
import pathlib
import re
import subprocess
import sys
import xml.etree.ElementTree as xml

FOLDER = pathlib.Path(sys.argv[1])
SHOWS = sorted(pathlib.Path("examples/shows").glob("*.show"))
SVG = "{http://www.w3.org/2000/svg}"
SIZES = {"page-title": 19, "title": 14, "plain": 11.5, "heading": 11.5, "small": 11, "value": 11, "count": 10,
         "fault": 10, "choice-name": 10, "late": 9, "badge": 8.5, "part": 8.5, "side": 8.5}
CROSSING_COLOUR, CHOICE_COLOUR, OPEN_COLOUR, OFFERED_COLOUR = "#a4123f", "#0b7261", "#e9eff6", "#dff3ec"

EMPTY, CUE, LEVEL, SEQUENCE, BESIDE, EITHER = range(6)
NODES = ["pass", "silent", "cue", "level", "both", "left", "right", "first", "second", "then", "chain", "regroup right",
         "regroup left", "spread", "front", "choose", "mark first", "mark second"]
BOTH, THEN, CHAIN, CHOOSE = 4, 9, 10, 15
UNLISTED_SLICE = 19

# The bytes of the last section of a patch, with its count.
TOTALS = 10


def run(program, *words, status=0, stdout=subprocess.PIPE):
    """What a program writes to standard output and to the error stream."""
    done = subprocess.run([FOLDER / program, *map(str, words)], stdout=stdout, stderr=subprocess.PIPE, timeout=300)
    told = done.stderr.decode()
    assert done.returncode == status, f"{program} {words}: status {done.returncode}, not {status}: {told}"
    return done.stdout, told


def draw(program, *words):
    return xml.fromstring(run(program, *words)[0])


def texts(picture, look=None):
    return [text for text in picture.iter(SVG + "text") if look is None or text.get("class") == look]


def words_of(picture, look=None):
    return [text.text or "" for text in texts(picture, look)]


def groups(picture, kind):
    return [group for group in picture.iter(SVG + "g") if group.get("class") == kind]


def titles(picture, kind):
    return [group.find(SVG + "title").text for group in groups(picture, kind)]


def panels(picture):
    return words_of(picture, "title")


def box(text):
    """The room that a text takes at least: half its size for each character."""
    size, x, y = SIZES[text.get("class")], float(text.get("x")), float(text.get("y"))
    width = 0.5 * size * len(text.text)
    left = {"start": x, "middle": x - width / 2, "end": x - width}[text.get("text-anchor")]
    return left, left + width, y - 0.7 * size, y


def no_overlap(picture):
    boxes = [(box(text), text.text) for text in texts(picture) if text.text]
    for (one, words), (other, others) in itertools.combinations(boxes, 2):
        apart = one[1] <= other[0] or other[1] <= one[0] or one[3] <= other[2] or other[3] <= one[2]
        assert apart, f"'{words}' and '{others}' lie on top of one another"
    width, height = float(picture.get("width")), float(picture.get("height"))
    for (left, right, top, bottom), words in boxes:
        assert left >= 0 and right <= width and top >= 0 and bottom <= height, f"'{words}' is not on the page"


def section(contents):
    return bytes([len(contents) // 256, len(contents) % 256]) + bytes(contents)


def write_show(name, types, nodes, slices=(), lanes="", end=b"", totals=bytes(8)):
    path = FOLDER / f"{name}.show"
    patch = section(types) + section(nodes) + section(totals)
    path.write_bytes(section(patch) + b"".join(section(section(s)) for s in slices) + end)
    path.with_suffix(".lanes").write_text(lanes, encoding="utf-8")
    return path


def patch_of(show):
    stream = show.read_bytes()
    patch = stream[2:2 + stream[0] * 256 + stream[1]]
    type_end = 2 + patch[0] * 256 + patch[1]
    return patch, list(patch[2:type_end]), list(patch[type_end + 2:-TOTALS])


def names_of(show, side):
    lines = show.with_suffix(".lanes").read_text(encoding="utf-8").splitlines()
    return [line.split(" ", 2)[2] for line in lines if line.startswith(side)]


def type_end(bytes_of_type, place):
    """Where the type ends that begins at a place."""
    due = 1
    while due > 0:
        due += (2 if bytes_of_type[place] >= SEQUENCE else 0) - 1
        place += 1
    return place


def node_names(nodes):
    """The names of nodes in preorder; some carry a value or a type behind them."""
    names, place = [], 0
    while place < len(nodes):
        name, place = NODES[nodes[place]], place + 1
        if name == "level":
            name, place = f"{name} {nodes[place] * 256 + nodes[place + 1]}", place + 2
        elif name in ("silent", "mark first", "mark second"):
            place = type_end(nodes, place)
        names.append(name)
    return names


# The time line.

def every_show_is_drawn():
    for show in SHOWS:
        picture = draw("timeline", show, 0, 7, 19)
        assert [words.split(":")[0] for words in panels(picture)] == ["As recorded", "Cut by seed 7", "Cut by seed 19"]
        no_overlap(picture)
        small, plain = words_of(picture, "small"), words_of(picture, "plain")
        assert small.count("frame") == 3 and small.count("seconds") == 3
        for name in names_of(show, "in") + names_of(show, "out"):
            assert plain.count(name) >= 3, f"{show}: '{name}' is cut or not there"
        no_overlap(draw("timeline", show, 19, "--frames", 20, 40))


def seconds_are_beside_frames():
    """Below the number of a frame is its time: 60 frames are a second."""
    picture = draw("timeline", "examples/shows/comet_to_saturn.show")
    small = [text for text in texts(picture, "small") if re.fullmatch(r"[\d.]+", text.text)]
    pairs = [(one.text, other.text) for one, other in itertools.permutations(small, 2)
             if one.get("x") == other.get("x") and float(one.get("y")) < float(other.get("y"))]
    assert len(pairs) >= 8 and all(abs(int(frame) / 60 - float(second)) < 0.006 for frame, second in pairs), pairs


def damage_is_marked():
    """The score of damaged.show has five bad slices, in frames 10 to 26, and breaks off in frame 48."""
    show, numbers = "examples/shows/damaged.show", [14, 11, 14, 12, 13]
    picture = draw("timeline", show, 0, 2)
    marked = re.compile(r"frame (\d+): refused with (\d+): byte \d+")
    marks = [marked.match(words).groups() for words in titles(picture, "refused")]
    assert [int(number) for _, number in marks] == numbers * 2, marks
    assert [int(frame) for frame, _ in marks[:5]] == [10, 14, 18, 22, 26]
    drawn = [words for group in groups(picture, "refused") for words in words_of(group)]
    assert drawn == [str(number) for number in numbers] * 2
    assert words_of(picture, "fault").count("the file ends inside this slice") == 2
    assert len(groups(picture, "broken-off")) == 2
    listed = "\n".join(words_of(picture, "small"))
    assert len(re.findall(r"^frame \d+: refused with", listed, re.M)) == 5
    assert "the file ends inside the slice of frame 48" in listed
    assert "frame 48" in run("timeline", show)[1]
    part = draw("timeline", show, "--frames", 12, 20)
    assert len(groups(part, "refused")) == 2 and not groups(part, "broken-off")
    whole = draw("timeline", "examples/shows/lamp_fade.show", 0, 2)
    assert not groups(whole, "refused") and not groups(whole, "broken-off")


def broken_length_is_marked():
    show = write_show("broken", [CUE], [0], [[1]], end=b"\0")
    assert len(groups(draw("timeline", show), "broken-off")) == 1


def refusals_marked(picture):
    """How many refused slices each mark is for."""
    several = re.compile(r"(\d+) slices are refused from frame \d+ to frame \d+; the first in frame \d+: refused with ")
    return [int(found.group(1)) if (found := several.match(words)) else 1 for words in titles(picture, "refused")]


def many_refusals_are_marked():
    """A mark each where there is room, and one for all that came in the same frame."""
    show = write_show("refusals", [CUE], [0], [[UNLISTED_SLICE]] * 400)
    assert refusals_marked(draw("timeline", show)) == [1] * 400
    marked = refusals_marked(draw("timeline", show, 3))
    assert sum(marked) == 400 and max(marked) == 3
    picture = draw("timeline", write_show("thirteen", [CUE], [0], [[UNLISTED_SLICE]] * 13), 3)
    assert "and 1 more slice is refused" in words_of(picture, "small")
    assert set(words_of(picture, "fault")) == {"12", "12 ×2"}
    no_overlap(picture)


def pictures_of_long_shows_are_small():
    """100,000 refused slices have no more marks than there are columns of pixels; each is in the count of one."""
    show = write_show("long", [CUE], [0], [[UNLISTED_SLICE], [3]] * 50_000)
    drawn, _ = run("timeline", show, 0, 3)
    assert len(drawn) < 1_000_000, f"{len(drawn)} bytes"
    picture = xml.fromstring(drawn)
    marked = refusals_marked(picture)
    assert len(marked) < 2 * float(picture.get("width")) and sum(marked) == 200_000
    assert "and 99988 more slices are refused" in words_of(picture, "small")
    no_overlap(picture)
    part = draw("timeline", show, "--frames", 50_000, 50_099)
    assert refusals_marked(part) == [1] * 100, "refused slices before or behind the part are marked in it"


def frames_asked_for_are_drawn():
    """Of a show with 60 frames, cut by a seed that brings its last slice late."""
    show = write_show("sixty", [CUE], [0], [[1]] * 60)
    late = next(seed for seed in range(1, 99) if b"frame 1 to frame 61," in run("timeline", show, seed)[0])
    for words, first, last, told in [
            ([], 1, 60, ""), (["--frames", 50, 60], 50, 60, ""),
            (["--frames", 50, 100], 50, 60, "the show has 60 frames: it is drawn up to frame 60"),
            ([late, "--frames", 60, 70], 60, 61, "60 frames, and late slices up to frame 61: it is drawn up to")]:
        drawn, messages = run("timeline", show, *words)
        assert told in messages and (told or not messages), messages
        assert words_of(xml.fromstring(drawn), "small")[0].startswith(f"frame {first} to frame {last},")
    for words, told in [(["--frames", 61, 70], "60 frames: there is no frame 61"),
                        ([late, "--frames", 62, 62], "up to frame 61: there is no frame 62")]:
        drawn, messages = run("timeline", show, *words, status=2)
        assert drawn == b"" and told in messages, messages


def show_without_slices_has_no_frames():
    """Neither the page nor a panel speaks of frames or of late slices, and the axis has no numbers."""
    show = write_show("no_slices", [CUE], [0])
    picture = draw("timeline", show, 0, 7)
    assert panels(picture) == ["The show has no frames: nothing comes in"] * 2
    small = [words for words in words_of(picture, "small") if words != "cues and levels: 0"]
    assert small[0] == "no frames" and not any(re.search(r"\d", words) for words in small), small
    assert not groups(picture, "counted")
    no_overlap(picture)
    assert "the show has 0 frames: there is no frame 1" in run("timeline", show, "--frames", 1, 1, status=2)[1]
    assert panels(draw("timeline", write_show("no_slices", [CUE], [0], [[1]]))) == ["As recorded: no slice is late"]


def low_levels_are_seen():
    """Of four levels 0, 1 and 500 come: three pale bars a side, and in those of 1 and 500 a bar that can be seen."""
    types = [BESIDE, LEVEL, BESIDE, LEVEL, BESIDE, LEVEL, LEVEL]
    nothing = [7, 0, 7, 0, 7, 0, 3]
    show = write_show("low", types, [0], [[7, 4, 0, 0, 7, 4, 0, 1, 7, 4, 1, 244, 3]] + [nothing] * 20)
    bars = collections.defaultdict(list)
    for bar in draw("timeline", show).iter(SVG + "rect"):
        if float(bar.get("width")) > 100:
            bars[bar.get("fill-opacity"), bar.get("fill")].append(float(bar.get("height")))
    pale, seen = bars["0.22", "#f0b03f"], bars["0.85", "#f0b03f"]
    assert len(pale) == 6 and len(seen) == 4 and min(seen) >= 2 and max(seen) < pale[0] / 2, bars


def empty_lanes_have_no_band():
    """
    A sequence of a cue and an empty part, beside an empty part: in their place is a dashed line from where each opens.
    A band that is as wide as a sign of the legend is the legend's.
    """
    show = write_show("empty_parts", [BESIDE, SEQUENCE, CUE, EMPTY, EMPTY], [0], [[7, 5, 1, 0]] * 9 + [[7, 6, 2, 0, 0]])
    picture, words = draw("timeline", show), "an empty part: nothing comes"
    bands = [(float(band.get("x")), float(band.get("width"))) for band in picture.iter(SVG + "rect")
             if band.get("fill") == OPEN_COLOUR and band.get("width") != "26.0"]
    dashes = [path.get("d") for path in picture.iter(SVG + "path") if path.get("stroke-dasharray")]
    ends = [tuple(map(float, re.fullmatch(r"M([\d.]+) [\d.]+H([\d.]+)", dash).groups())) for dash in dashes][1:]
    left, crossed, right = bands[0][0], sum(bands[0]), float(picture.get("width")) - 16
    expected = [(crossed, right), (left, right)] * 2
    assert len(bands) == 2 and len(ends) == 4, (len(bands), ends)
    assert all(abs(met - due) < 0.2 for met, due in zip(sum(ends, ()), sum(expected, ()))), (ends, expected)
    assert words_of(picture, "small").count(words) == 1 and "that is no empty part" in words_of(picture, "plain")[0]
    no_overlap(picture)
    other = draw("timeline", "examples/shows/comet_to_saturn.show")
    assert words not in words_of(other, "small") and "empty" not in words_of(other, "plain")[0]


def counts(picture):
    """What the rows of counts tell of one panel, arrived and sent: for each bar its first frame, and how many."""
    told = re.compile(r"frames? (\d+)(?: to \d+)?: (\d+) (arrived|sent)")
    found = [told.fullmatch(words).groups() for words in titles(picture, "counted")]
    return [{int(frame): int(count) for frame, count, row in found if row == done} for done in ("arrived", "sent")]


def arrivals_in(slices):
    """How many cues and levels come in each slice, by frame: its kinds 2 and 4. Behind a 4 are two bytes of a value."""
    arrivals = {}
    for frame, contents in enumerate(slices, 1):
        kinds = re.sub(rb"\x04..", b"\x04", bytes(contents), flags=re.S)
        arrivals[frame] = kinds.count(2) + kinds.count(4)
    return {frame: count for frame, count in arrivals.items() if count > 0}


def slices_of(show):
    stream, slices = show.read_bytes(), []
    place = 2 + stream[0] * 256 + stream[1]
    while place + 2 <= len(stream):
        length = stream[place] * 256 + stream[place + 1]
        slices.append(stream[place + 4:place + 2 + length])
        place += 2 + length
    return slices


def counts_are_those_of_the_slices():
    """As recorded, what arrives is what the slices have. The damaged show's refused ones and its end bring nothing."""
    for show in SHOWS:
        slices = slices_of(show)
        if show.name == "damaged.show":
            slices = [[] if frame in (10, 14, 18, 22, 26, 48) else contents for frame, contents in enumerate(slices, 1)]
        assert counts(draw("timeline", show))[0] == arrivals_in(slices), show


def counts_are_those_of_the_lanes():
    """In every frame there are as many marks of cues and levels as are counted, on both sides together, and there."""
    for show, seed in itertools.product(SHOWS, [0, 19]):
        picture = draw("timeline", show, seed)
        marks = collections.Counter(int(re.search(r" in frame (\d+)", words)[1]) for words in titles(picture, "moment"))
        arrived, sent = counts(picture)
        assert marks == collections.Counter(arrived) + collections.Counter(sent), (show, seed)
        middles = {float(bar.get("x")) + float(bar.get("width")) / 2 for group in groups(picture, "counted")
                   for bar in group.iter(SVG + "rect")}
        for shape in (path.get("d") for group in groups(picture, "moment") for path in group.iter(SVG + "path")):
            x = float(re.match(r"M([\d.]+) ", shape)[1])
            assert any(abs(x - middle) < 0.2 for middle in middles), (show, shape)


def counts_are_those_of_the_frame_loop():
    """In each second, and in all; the totals stand at the rows, the same in every panel."""
    told = re.compile(r"^second \d+.*: (nothing|\d+) arrived in \d+ slices?, (nothing|\d+) sent$", re.M)
    for show, seed in itertools.product(SHOWS, [0, 7, 19]):
        played = run("frame_loop", show, "--fast", "--seed", seed)[0].decode()
        seconds = [[0 if count == "nothing" else int(count) for count in line] for line in told.findall(played)]
        drawn = [collections.Counter(), collections.Counter()]
        for row, frames in zip(drawn, counts(draw("timeline", show, seed))):
            for frame, count in frames.items():
                row[(frame - 1) // 60] += count
        assert [[row[second] for row in drawn] for second in range(len(seconds))] == seconds, (show, seed)
        arrived, sent = re.search(r"^Cues and levels: (\d+) arrived, (\d+) sent\.$", played, re.M).groups()
        small = words_of(draw("timeline", show, 0, 7, 19), "small")
        labels = [words for words in small if words.startswith("cues and levels")]
        assert labels == [f"cues and levels: {arrived}", f"cues and levels: {sent}"] * 3, labels


def counts_can_be_read():
    """Of 1, 2, 5 and 120 levels in a frame: a bar each, higher for more, with its number."""
    due, slices, come = {40: 1, 80: 2, 120: 5, 160: 120}, [], 0
    for frame in range(1, 201):
        count = due.get(frame, 0)
        parts = [[0] if lane < come else [4, 4, 2] if lane < come + count else [3] for lane in range(128)]
        slices.append([byte for part in parts[:-1] for byte in [7] + part] + parts[-1])
        come += count
    show = write_show("counted", [BESIDE, LEVEL] * 127 + [LEVEL], [0], slices)
    picture = draw("timeline", show)
    assert counts(picture) == [due] * 2
    for side in groups(picture, "counted")[:4], groups(picture, "counted")[4:]:
        heights = [float(bar.get("height")) for group in side for bar in group.iter(SVG + "rect")]
        assert heights == sorted(heights) and heights[0] >= 2 and heights[-1] == 12, heights
        assert [words_of(group, "count") for group in side] == [["1"], ["2"], ["5"], ["120"]]
    no_overlap(picture)
    part = draw("timeline", show, "--frames", 100, 140)
    assert counts(part) == [{120: 5}] * 2 and words_of(part, "small").count("cues and levels: 5 of 128") == 2
    no_overlap(part)


def counts_of_long_shows_are_added():
    """Of 100,000 frames many share a bar. A cue comes in frame 50,001, a level in the next, and a cue at the end."""
    slices = [[7, 1, 7, 3, 1]] * 50_000 + [[7, 2, 7, 3, 1], [7, 0, 7, 4, 0, 2, 1]]
    slices += [[7, 0, 7, 0, 1]] * 49_997 + [[7, 0, 7, 0, 2]]
    show = write_show("long_counted", [BESIDE, CUE, BESIDE, LEVEL, CUE], [0], slices)
    told = re.compile(r"frames (\d+) to (\d+): (\d+) (?:arrived|sent)")
    bars = [tuple(map(int, told.fullmatch(words).groups())) for words in titles(draw("timeline", show), "counted")]
    assert [count for _, _, count in bars] == [2, 1] * 2, bars
    assert all(first <= 50_001 and 50_002 <= last and last - first < 200 for first, last, _ in bars[::2]), bars
    assert all(first < last == 100_000 for first, last, _ in bars[1::2]), bars
    assert counts(draw("timeline", show, "--frames", 50_001, 50_010)) == [{50_001: 1, 50_002: 1}] * 2


def lateness_is_told():
    """Seed 19 brings the comet's last cue, of frame 120, with the crossing and the rings in frame 122."""
    show, legend = "examples/shows/comet_to_saturn.show", ["+2"]
    late = draw("timeline", show, 19, "--frames", 115, 125)
    assert words_of(late, "late") == legend + ["+2"] * 2 and words_of(late, "badge") == legend + ["+1"] * 2
    in_time = draw("timeline", show, 0)
    assert words_of(in_time, "late") == words_of(in_time, "badge") == legend


def lines(picture, colour):
    """The straight lines of a colour, each as x and y of both ends."""
    paths = [path.get("d") for path in picture.iter(SVG + "path") if path.get("stroke") == colour]
    found = [re.fullmatch(r"M([\d.]+) ([\d.]+)L([\d.]+) ([\d.]+)", path) for path in paths]
    return [tuple(map(float, line.groups())) for line in found if line]


def write_fade(first, step):
    """A show with twelve levels from a frame on, so many frames apart; each comes with the crossing to it."""
    values = [[4, *divmod(5000 * level, 256)] for level in range(1, 13)]
    slices = [[5, 3]] * (first - 1) + [[5, *values[0]]]
    for place, value in enumerate(values[1:], 2):
        slices += [[5, 0]] * (step - 1) + [[6, 0, 5, *value] if place < 12 else [6, 0, *value]]
    return write_show("fade", [SEQUENCE, LEVEL] * 11 + [LEVEL], [0], slices + [[0]] * (300 - len(slices)))


def lateness_is_in_its_lane():
    """It is not written behind the end of its lane, however short; at the left edge the pointer alone tells it."""
    told = re.compile(r".+: level (\d+) in frame (\d+)(?:, (\d+) frames? later than recorded)?")
    for first, step in (21, 20), (21, 4), (1, 1):
        picture = draw("timeline", write_fade(first, step), 7)
        moments = groups(picture, "moment")
        marks = [lines(moment, "#8a5a00")[0][0] for moment in moments]
        before = missing = 0
        for place, (moment, words) in enumerate(zip(moments, titles(picture, "moment"))):
            level, frame, late = (int(number or 0) for number in told.fullmatch(words).groups())
            assert level == place % 12 * 5000 + 5000 and frame - late == first + place % 12 * step, words
            missing += late > 0 and not texts(moment, "late")
            for text in texts(moment, "late"):
                left, right, _, _ = box(text)
                ends = marks[place + 1] if level < 60000 else float(picture.get("width"))
                arrow = 11 if place % 12 > 0 else 0
                assert right < marks[place] - arrow or marks[place] < left < right < ends - 2, words
                assert text.text == f"+{late}", words
                before += right < marks[place]
        assert before > 0 and (missing > 0) == (first == 1), (first, step, before, missing)


def late_crossings_are_told_from_lanes():
    """How late a crossing is is written on its line, between two lanes."""
    picture = draw("timeline", "examples/shows/comet_to_saturn.show", 19, "--frames", 115, 125)
    between = {y for _, y, _, end in lines(picture, "#dde2e8") if y == end}
    for badge in texts(picture, "badge")[1:]:
        x, y = float(badge.get("x")), float(badge.get("y")) - 3
        assert y in between
        assert any(left == right == x and top < y < bottom for left, top, right, bottom in lines(picture, CROSSING_COLOUR))


def bands_of(picture, colour):
    """The bands of a colour behind the legend's, each as its left and right edge and its top, from above."""
    bands = [[float(band.get(key)) for key in ("x", "width", "y")] for band in picture.iter(SVG + "rect")
             if band.get("fill") == colour and band.get("width") != "26.0"]
    return sorted(((left, left + width, top) for left, width, top in bands), key=lambda band: band[2])


def choices_are_marked():
    """
    Behind a crossing in frame 10 a cue or a level may be chosen, the level is in frame 20, and it comes in frame 30. Both
    lanes are offered from the crossing to the choice; then the cue's ends, with a bar, and the level's is open.
    """
    slices = [[5, 1]] * 9 + [[6, 2, 8]] + [[8]] * 9 + [[10, 3]] + [[3]] * 9 + [[4, 1, 44]] + [[0]] * 30
    show = write_show("choice", [SEQUENCE, CUE, EITHER, CUE, LEVEL], [0], slices)
    picture, words = draw("timeline", show), "lane may be chosen"
    assert titles(picture, "choice") == [f'frame 20: second chosen: "{side} 3", not "{side} 2"' for side in ("in", "out")]
    offered, opened = bands_of(picture, OFFERED_COLOUR), bands_of(picture, OPEN_COLOUR)
    assert len(offered) == 4 and len(opened) == 4, (offered, opened)
    for side in range(2):
        (cue_from, cue_to, cue_top), (level_from, level_to, level_top) = offered[2 * side:2 * side + 2]
        (_, crossed, _), (chosen, ends, top) = opened[2 * side:2 * side + 2]
        assert cue_from == level_from and cue_to == level_to and cue_to + 100 < ends, (offered, opened)
        assert abs(cue_from - crossed) < 0.2 and abs(cue_to - chosen) < 0.2, (offered, opened)
        assert cue_top < level_top == top
        bars = [line for line in lines(groups(picture, "choice")[side], CHOICE_COLOUR) if line[3] - line[1] < 17]
        assert len(bars) == 1 and bars[0][0] == chosen and cue_top < bars[0][1] < bars[0][3] < level_top, bars
    no_overlap(picture)
    assert words_of(picture, "side")[:2] == ["1", "2"] and words_of(picture, "small").count(words) == 1
    other = draw("timeline", "examples/shows/comet_to_saturn.show")
    assert words not in words_of(other, "small") and not groups(other, "choice") and not words_of(other, "side")
    late = next(seed for seed in range(1, 99) if '>+2</text>' in marked_late(show, seed))
    assert titles(draw("timeline", show, late), "choice")[0].startswith("frame 22: second chosen")


def marked_late(show, seed):
    """The badges of late choices, as they are drawn."""
    drawn = run("timeline", show, seed)[0].decode()
    return "".join(re.findall(rf'fill="{CHOICE_COLOUR}" stroke="#fff"/>\n<text[^\n]*', drawn))


def open_choices_are_offered():
    """As long as nothing is chosen, all lanes that may be are offered, to the edge; a choice in a choice waits on."""
    types, right = [EITHER, EITHER, CUE, CUE, CUE], 900 - 16
    offered = [bands_of(draw("timeline", write_show("offered", types, [0], slices)), OFFERED_COLOUR)
               for slices in ([[8]] * 20, [[8]] * 9 + [[9, 8]] + [[8]] * 10)]
    assert [band[1] for band in offered[0]] == [right] * 6, offered[0]
    assert [band[1] == right for band in offered[1]] == [True, True, False] * 2, offered[1]


def arrows_are_seen_beside_cues():
    """
    Both cues of a sequence and the crossing come in the first frame: arrow and diamond are seen, and on no band. The
    first of each, and the first two bands, are the legend's.
    """
    picture = draw("timeline", write_show("at_once", [SEQUENCE, CUE, CUE], [0], [[6, 2, 2]] + [[0]] * 300))
    shapes = [path.get("d") for path in picture.iter(SVG + "path")]
    arrows = [re.fullmatch(r"M([\d.]+) ([\d.]+)l-(\d+) -(\d+)v\d+z", shape) for shape in shapes]
    arrows = [tuple(map(float, arrow.groups())) for arrow in arrows if arrow][1:]
    diamonds = [re.match(r"M([\d.]+) ([\d.]+)l5.5 5.5", shape) for shape in shapes]
    diamonds = [(float(diamond[1]), float(diamond[2]) + 5.5) for diamond in diamonds if diamond][1:]
    bands = [float(band.get("x")) + float(band.get("width")) for band in picture.iter(SVG + "rect")
             if band.get("fill") in ("#f3dfe5", "#e0bcc8")][2:]
    assert len(arrows) == 2 and len(diamonds) == 4
    for x, y, length, _ in arrows:
        assert (x, y) in diamonds and length >= 5.5 + 4 and x - length >= max(bands)


def long_names_are_whole():
    long, strange = "a name as long as a line of a file of names can have it, sixty", 'Käthe\'s <&> "lamp" 土星'
    show = write_show("names", [BESIDE, CUE, LEVEL], [0], [[7, 2, 3]], f"in 1 {long}\nin 2 {strange}\n")
    renamed = FOLDER / f"{'a long name of a show ' * 9}.show"
    renamed.write_bytes(show.read_bytes())
    for program in "timeline", "diagram":
        no_overlap(draw(program, renamed))
        picture = draw(program, show)
        assert long in words_of(picture, "plain") and strange in words_of(picture, "plain")
        no_overlap(picture)


# The diagram.

def points(path):
    numbers = [float(number) for number in re.findall(r"-?[\d.]+", path)]
    return tuple(numbers[:2]), tuple(numbers[-2:])


def lanes_reached(picture):
    """For each lane that is sent on, from above, the lanes of the input from which lines lead there."""
    leads = collections.defaultdict(set)
    for path in picture.iter(SVG + "path"):
        if re.fullmatch(r"M[\d. ]+C[\d. ]+", path.get("d")):
            begins, ends = points(path.get("d"))
            leads[ends].add(begins)
    every = set(leads) | set().union(*leads.values())
    first, last = min(x for x, _ in every), max(x for x, _ in every)
    inputs = sorted(point for point in every if point[0] == first)

    def sources(point):
        return {point} if point[0] == first else set().union(*map(sources, leads[point]))

    return len(inputs), [sorted(map(inputs.index, sources(point))) for point in sorted(every) if point[0] == last]


def nodes_are_boxes():
    for show in SHOWS:
        picture, (_, _, nodes) = draw("diagram", show), patch_of(show)
        assert [title.split(", byte")[0] for title in titles(picture, "node")] == node_names(nodes)
        plain = words_of(picture, "plain")
        assert [name for name in plain if name in names_of(show, "in")] and set(names_of(show, "out")) <= set(plain)
        no_overlap(picture)


def lanes_lead_to_their_names():
    """A lane that is sent on has the name of the lane that it comes from, with more behind it in one show."""
    for show in (show for show in SHOWS if not show.name.startswith("choose")):
        ins, outs = names_of(show, "in"), names_of(show, "out")
        count, reached = lanes_reached(draw("diagram", show))
        assert count == len(ins)
        own = [name for name in outs if name.startswith("opening")]
        expected = [[place for place, name in enumerate(ins) if f"{out} (".startswith(f"{name} (")] for out in outs]
        assert reached == expected and expected.count([]) == len(own), f"{show}: {reached}"


def chosen_parts_meet():
    """What either part of choose sends goes to the same lanes; a lane that a mark rules out leads from nowhere."""
    for show in SHOWS:
        if show.name.startswith("choose"):
            picture = draw("diagram", show)
            assert lanes_reached(picture) == (8, [[0], [1], [], [2], [3, 5], [4, 6], [7]])
            assert words_of(picture, "choice-name") == ["first chosen", "second chosen"]
            assert "or cue" in words_of(picture, "small")
            ruled_out = [path for path in picture.iter(SVG + "path") if path.get("stroke-dasharray")]
            assert len(ruled_out) == 1 + 1, "the legend's and that of the archive's welcome"


def patch_alone_is_drawn():
    """From its file, or from its bytes in decimal; a show in its place is told."""
    show = SHOWS[0]
    path = FOLDER / "alone.patch"
    path.write_bytes(patch_of(show)[0])
    for given in path, " ".join(map(str, patch_of(show)[0])):
        alone = draw("diagram", "--patch", given)
        assert titles(alone, "node") == titles(draw("diagram", show), "node") and "in 1" in words_of(alone, "plain")
        no_overlap(alone)
    hint = "The file is a show and no patch"
    assert hint in run("diagram", "--patch", show, status=1)[1]
    assert hint not in run("diagram", "--patch", "0 1 1 0 1 5 0 8" + 8 * " 0", status=1)[1]


def missing_totals_are_told():
    """A patch of before totals is refused by both, with the program that adds them; its show too."""
    stream, patch = SHOWS[0].read_bytes(), patch_of(SHOWS[0])[0]
    path, alone = FOLDER / "old.show", FOLDER / "old.patch"
    path.write_bytes(section(patch[:-TOTALS]) + stream[2 + len(patch):])
    alone.write_bytes(patch[:-TOTALS])
    for words in ["timeline", path], ["diagram", path], ["diagram", "--patch", alone]:
        drawn, told = run(*words, status=1)
        assert drawn == b"" and "refused with 1" in told and "add_totals" in told, told


def totals_change_nothing():
    """What is drawn is the show, whatever its patch has counted before; what full totals refuse is marked."""
    slices = [[1], [2], [0]]
    drawn = [run(program, write_show("counted", [CUE], [0], slices, totals=totals))[0]
             for program in ("timeline", "diagram") for totals in (bytes(8), bytes(range(8)))]
    assert drawn[0] == drawn[1] and drawn[2] == drawn[3]
    full = draw("timeline", write_show("full", [CUE], [0], slices, totals=b"\xff" * 8))
    assert any("refused with 31: " in words for words in titles(full, "refused")), titles(full, "refused")


def every_kind_is_drawn():
    """A node of each kind, on a type that it takes."""
    sequence, beside = [SEQUENCE, CUE, LEVEL], [BESIDE, CUE, LEVEL]
    trees = {(0,): beside, (1, 4, 0, 0): beside, (2,): beside, (3, 1, 2): beside, (4, 0, 2): beside, (5,): beside,
             (6,): beside, (7,): sequence, (8,): sequence, (9, 0, 2): sequence, (10, 14, 8): beside,
             (11,): [SEQUENCE] + sequence + [CUE], (12,): [SEQUENCE, LEVEL] + sequence,
             (13,): [SEQUENCE, LEVEL] + beside, (14,): beside, (15, 0, 0): [EITHER, LEVEL, LEVEL],
             (16, 1): beside, (17, 1): beside}
    expected = {(0,): [[0], [1]], (1, 4, 0, 0): [[], []], (2,): [[]], (3, 1, 2): [[]], (4, 0, 2): [[0], [1], []],
                (5,): [[0]], (6,): [[1]], (7,): [[0]], (8,): [[1]], (9, 0, 2): [[0], []], (10, 14, 8): [[0], [1]],
                (11,): [[0], [1], [2]], (12,): [[0], [1], [2]], (13,): [[0], [1], [0], [2]], (14,): [[], [0], [1]],
                (15, 0, 0): [[0, 1]], (16, 1): [[0], [1], []], (17, 1): [[], [0], [1]]}
    assert {nodes[0] for nodes in trees} == set(range(len(NODES)))
    for nodes, types in trees.items():
        picture = draw("diagram", write_show("kind", types, nodes))
        assert titles(picture, "node")[0].startswith(NODES[nodes[0]])
        assert lanes_reached(picture)[1] == expected[nodes], f"{nodes}: {lanes_reached(picture)}"


def balanced(lanes, kinds):
    return [next(kinds)] if lanes == 1 else [BESIDE] + balanced(lanes - lanes // 2, kinds) + balanced(lanes // 2, kinds)


def nested(kind, count):
    return [0] if count == 1 else [kind, 0] + nested(kind, count - 1)


def largest_patches_are_drawn():
    """128 lanes and 63 nodes: lanes are counted, and the picture stays small enough to open."""
    side_by_side = balanced(128, itertools.cycle([CUE, LEVEL]))
    in_turn = [SEQUENCE, LEVEL] * 127 + [LEVEL]
    for types, nodes in [(side_by_side, nested(CHAIN, 32)), (in_turn, nested(THEN, 32)),
                         ([CUE], nested(BOTH, 32)), (side_by_side, [BOTH, 2] * 31 + [2]),
                         ([EITHER, LEVEL] * 127 + [LEVEL], nested(CHAIN, 32)),
                         ([EITHER, CUE] * 31 + [CUE], nested(CHOOSE, 32))]:
        show = write_show("largest", types, nodes)
        drawn, _ = run("diagram", show)
        picture = xml.fromstring(drawn)
        assert len(groups(picture, "node")) == 63 and len(drawn) < 2_000_000
        assert len(types) < 255 or "128 lanes" in words_of(picture, "plain")
        no_overlap(picture)
        no_overlap(draw("timeline", show))


# What both do alike.

def documents_have_what_is_drawn():
    for name, show in [("comet_to_saturn", "comet_to_saturn"), ("choose_a_sky", "choose_a_sky_north")]:
        path = f"examples/shows/{show}.show"
        for picture, words in [(name, ["timeline", path, 0, 19]), (f"{name}_patch", ["diagram", path])]:
            drawn = run(*words)[0]
            assert pathlib.Path(f"docs/{picture}.svg").read_bytes() == drawn, f"docs/{picture}.svg is not what is drawn"


def refused_patch_has_status_1():
    show = write_show("refused", [CUE], [5])
    (FOLDER / "refused.patch").write_bytes(patch_of(show)[0])
    for words in ["timeline", show], ["diagram", show], ["diagram", "--patch", FOLDER / "refused.patch"]:
        drawn, told = run(*words, status=1)
        assert drawn == b"" and "refused with 7" in told, told


def damaged_files_are_survived():
    """With a byte changed, or cut at any place, a show is drawn, refused or not read, and never crashes a program."""
    path = FOLDER / "hurt.show"
    for show, program in itertools.product(SHOWS, ["timeline", "diagram"]):
        whole = show.read_bytes()
        for place in [*range(0, 40, 3), *range(40, len(whole), len(whole) // 12)]:
            for hurt in whole[:place], whole[:place] + b"\xff" + whole[place + 1:]:
                path.write_bytes(hurt)
                done = subprocess.run([FOLDER / program, path], capture_output=True, timeout=300)
                assert done.returncode in (0, 1, 2), f"{program}, {show} at {place}: {done}"
                assert (done.returncode == 0) == (done.stdout != b""), f"{program}, {show} at {place}"
                if done.returncode == 0:
                    xml.fromstring(done.stdout)
                else:
                    assert b": " in done.stderr, f"{program}, {show} at {place}: nothing is told"


def unusable_has_status_2():
    """The word that cannot be used is told, or that there is none."""
    show = SHOWS[0]
    for words, wrong in [
            (["timeline"], "the words are"), (["diagram"], "the words are"), (["timeline", show, "x"], '"x"'),
            (["diagram", show, "x"], '"x"'), (["diagram", "--patch"], '"--patch"'), (["diagram", "--x"], '"--x"'),
            (["diagram", "--patch", "a", "b"], '"b"'), (["timeline", "--frames", 1, 2], '"--frames"'),
            (["timeline", show, "--frames", 5, 4], '"4"'), (["timeline", show, "--frames", 0, 4], '"0"'),
            (["timeline", show, "--frames", 5], '"--frames"'), (["timeline", show, *range(17)], '"16"'),
            (["timeline", "nothing.show"], "nothing.show"), (["diagram", "nothing.show"], "nothing.show"),
            (["diagram", "--patch", "nothing"], "nothing"), (["diagram", "--patch", "0 256"], '"256"')]:
        drawn, told = run(*words, status=2)
        assert drawn == b"" and wrong in told, (words, told)
    for program in "timeline", "diagram":
        with open("/dev/full", "wb") as full:
            assert "cannot be written" in run(program, show, status=2, stdout=full)[1]


def main():
    failed = 0
    for test in [every_show_is_drawn, seconds_are_beside_frames, damage_is_marked, broken_length_is_marked,
                 many_refusals_are_marked, pictures_of_long_shows_are_small, frames_asked_for_are_drawn,
                 show_without_slices_has_no_frames, low_levels_are_seen, empty_lanes_have_no_band,
                 counts_are_those_of_the_slices, counts_are_those_of_the_lanes, counts_are_those_of_the_frame_loop,
                 counts_can_be_read, counts_of_long_shows_are_added, lateness_is_told, lateness_is_in_its_lane,
                 late_crossings_are_told_from_lanes, choices_are_marked, open_choices_are_offered,
                 arrows_are_seen_beside_cues, long_names_are_whole, nodes_are_boxes, lanes_lead_to_their_names,
                 chosen_parts_meet, patch_alone_is_drawn, missing_totals_are_told, totals_change_nothing,
                 every_kind_is_drawn, largest_patches_are_drawn,
                 documents_have_what_is_drawn, refused_patch_has_status_1, damaged_files_are_survived,
                 unusable_has_status_2]:
        try:
            test()
        except Exception as fault:  # a picture that is no XML, a program that does not end, a thing that does not hold
            failed += 1
            print(f"{test.__name__}: FAILED: {type(fault).__name__}: {fault}")
    return failed > 0


sys.exit(main())
