#!/usr/bin/env python3
"""Looks at the pictures that bump_replay draws, each beside the JSON of its run: whether each point stands where its size and its
misses put it, each way is as wide as its count, and no text lies over another or outside the picture.

    checks/lib/replay_pictures.py PROGRAM          status 1 where a picture is wrong; what is wrong is told
"""
import json
import math
import re
import subprocess
import sys
import tempfile
import xml.etree.ElementTree as Xml
from pathlib import Path

TOP = Path(__file__).resolve().parent.parent.parent
LOGS = TOP / "examples/logs"
SVG = "{http://www.w3.org/2000/svg}"
# How wide a letter and a digit of 13 units are in a wide font, and how far a text reaches above its foot and below.
LETTER, DIGIT, ABOVE, BELOW = 7.4, 8.3, 10, 3
# How far a point may be off: half of what is printed of its place, and of its share.
NEAR = 1.0
# The widest way, and the thinnest that is drawn.
WIDEST, THINNEST = 24.0, 0.5
# The ways in the order of the counts that are printed.
WAYS = ["linked", "hot_to_warm", "warm_to_cold", "cold_to_warm", "hot_to_cold", "warm_to_warm", "evicted"]


class Text:
    def __init__(self, node, down):
        self.words, self.color = node.text, re.sub(r"fill:", "", node.get("style", ""))
        self.x, self.y = float(node.get("x")), float(node.get("y")) + down
        width = sum(DIGIT if letter.isdigit() else LETTER for letter in self.words)
        begin = {"mid": self.x - width / 2, "end": self.x - width}.get(node.get("class"), self.x)
        self.left, self.right, self.above, self.below = begin, begin + width, self.y - ABOVE, self.y + BELOW

    def is_over(self, other):
        return (self.left < other.right and other.left < self.right
                and self.above < other.below and other.above < self.below)


def texts_of(root):
    for node in root.findall(f"{SVG}text"):
        yield Text(node, 0)
    for group in root.findall(f"{SVG}g"):
        down = float(re.fullmatch(r"translate\(0 ([\d.]+)\)", group.get("transform"))[1])
        for node in group.findall(f"{SVG}text"):
            yield Text(node, down)


def text_faults(root):
    texts = list(texts_of(root))
    wide, high = map(float, root.get("viewBox").split()[2:])
    for place, text in enumerate(texts):
        if text.left < 0 or text.right > wide or text.above < 0 or text.below > high:
            yield f"is outside: {text.words}"
        for other in texts[place + 1:]:
            if text.is_over(other):
                yield f"lie over each other: {text.words}, {other.words}"


def shares_of(run, name):
    """The percents of misses by size, of a policy in the JSON, to the nearest hundredth, a half upwards."""
    for size in sorted(run["sizes"], key=lambda size: size["items"]):
        hits, misses = size[name]["hits"], size[name]["misses"]
        gets = max(1, hits + misses)
        yield size["items"], (20_000 * misses + gets) // (2 * gets) / 100


def places_of(root, shares, axis):
    """Where points have to be: by sizes from the left, evenly or by logarithms; by shares between the axis' ends."""
    sizes = [size for size, _ in shares]
    is_far = sizes[-1] >= 10 * sizes[0]
    even = math.log if is_far else float
    (low, bottom), (high, top) = axis[0], axis[-1]
    for size, share in shares:
        part = (even(size) - even(sizes[0])) / (even(sizes[-1]) - even(sizes[0])) if sizes[-1] > sizes[0] else 0.5
        yield 60 + 520 * part, bottom + (share - low) / (high - low) * (top - bottom)


def axis_of(root):
    """The named shares with their heights, from below."""
    marks = [float(re.fullmatch(r"M60 ([\d.]+)H580", path.get("d"))[1])
             for path in root.findall(f"{SVG}path") if path.get("class") == "axis"]
    names = [text for text in root.findall(f"{SVG}text") if text.get("class") == "end"]
    for mark, name in zip(marks, names, strict=True):
        assert abs(float(name.get("y")) - mark - 4) < 0.2, "a share's name isn't at its line"
        yield float(name.text), mark


def axis_faults(axis, shares, is_full):
    """Whether the axis is of all shares, or fits those that there are: a step less at an end would cut some off."""
    names = [name for name, _ in axis]
    step = names[1] - names[0]
    if is_full:
        if names[0] != 0 or names[-1] != 100:
            yield "the axis isn't of all shares"
    elif len(set(shares)) > 1 and not (names[0] <= min(shares) < names[0] + step + 0.01
                                       and names[-1] - step - 0.01 < max(shares) <= names[-1] + 0.01):
        yield f"the axis from {names[0]} to {names[-1]} doesn't fit {min(shares)} to {max(shares)}"
    if len(names) > 6 or any(abs(after - before - step) > 0.001 for before, after in zip(names, names[1:])):
        yield f"the axis has other steps: {names}"


def line_faults(root, run, is_full):
    names = [name for name in run["sizes"][0] if name == "bump" or name in run["options"]["compare"]]
    colors = {text.text: text.get("style").removeprefix("fill:")
              for text in root.findall(f"{SVG}text") if text.get("style")}
    if set(colors) != set(names) or len(set(colors.values())) != len(names):
        yield f"there are names or colors of others: {colors}"
        return
    axis = list(axis_of(root))
    yield from axis_faults(axis, [share for name in names for _, share in shares_of(run, name)], is_full)
    for name in names:
        wanted = list(places_of(root, list(shares_of(run, name)), axis))
        drawn = [(float(dot.get("cx")), float(dot.get("cy"))) for dot in root.findall(f"{SVG}circle")
                 if dot.get("fill") == colors[name]]
        if len(drawn) != len(wanted) or any(abs(x - u) > NEAR or abs(y - v) > NEAR
                                            for (x, y), (u, v) in zip(drawn, wanted)):
            yield f"{name}: points at {drawn}, not {wanted}"
        lines = [line.get("points").split() for line in root.findall(f"{SVG}polyline") if line.get("stroke") == colors[name]]
        is_point = len({size["items"] for size in run["sizes"]}) == 1
        corners = [tuple(map(float, corner.split(","))) for line in lines for corner in line]
        if corners != ([] if is_point else drawn):
            yield f"{name}: its line doesn't go through its points"


def flow_faults(root, run):
    sizes = sorted(run["sizes"], key=lambda size: size["items"])
    counts = [[size["flow"].get(way, size.get(way)) for way in WAYS] for size in sizes]
    most = max(max(one) for one in counts)
    groups = [group for group in root.findall(f"{SVG}g") if group.find(f"{SVG}rect") is not None]
    for group, ways, size in zip(groups, counts, sizes, strict=True):
        printed = [text.text.split()[0] for text in group.findall(f"{SVG}text") if re.fullmatch(r"\d+ [→←↺]", text.text)]
        widths = [float(path.get("stroke-width")) for path in group.findall(f"{SVG}path")]
        wanted = [max(THINNEST, WIDEST * count / max(1, most)) for count in ways if count]
        if group.find(f"{SVG}text").text != f"of {size['items']} items" or printed != [str(count) for count in ways]:
            yield f"of {size['items']} items: counts are {printed}, not {ways}"
        if len(widths) != len(wanted) or any(abs(width - other) > 0.11 for width, other in zip(widths, wanted)):
            yield f"of {size['items']} items: widths are {widths}, not {wanted}"


def faults_of(root, run, is_full):
    yield from text_faults(root)
    yield from line_faults(root, run, is_full)
    yield from flow_faults(root, run)


def run_of(program, words, folder):
    picture = Path(folder) / "picture.svg"
    done = subprocess.run([program, *words, "--json", "--svg", picture], capture_output=True, check=True)
    return Xml.parse(picture).getroot(), json.loads(done.stdout)


def tries(policies):
    """Logs, sizes, and other words."""
    far = ",".join(str(int(10 * 1.145 ** place)) for place in range(40))
    near = ",".join(str(100 + 20 * place) for place in range(40))
    for log in ("zipf", "scan", "shift"):
        for words in (["--items", "30,100,300,1000"], ["--items", "1000,100,300,30", "--full"], ["--items", "300"],
                      ["--items", "300", "--full"], ["--items", "100,300,100"], ["--items", "100,999"],
                      ["--items", "100,300,1000"], ["--items", "1"]):
            yield log, [*words, "--compare", policies]
    for sizes in (far, near, "1,2,3,999998", "999997,999998"):
        yield "zipf", ["--items", sizes, "--compare", policies]
    yield "zipf", ["--items", "30,100"]


def main():
    program, failed, looked = str(Path(sys.argv[1]).resolve()), 0, 0
    told = subprocess.run([program, "--help"], capture_output=True, text=True, check=True).stdout
    policies = re.search(r"--compare .*?\[possible values: (.*?)\]", told, re.S)[1].replace(" ", "")
    with tempfile.TemporaryDirectory() as folder:
        for log, words in tries(policies):
            looked += 1
            root, run = run_of(program, [LOGS / f"{log}.log", *words], folder)
            for fault in faults_of(root, run, "--full" in words):
                failed += 1
                print(f"checks/lib/replay_pictures.py: {log} {' '.join(words)}: {fault}", file=sys.stderr)
    print(f"checks/lib/replay_pictures.py: {looked} pictures looked at, {failed} faults")
    sys.exit(1 if failed else 0)


main()
