#!/usr/bin/env python3
"""Draws the pictures of this folder: tables of boxes and arrows, one for each. Run it after a change.

    docs/pictures/draw.py            writes them
    docs/pictures/draw.py --check    names those that are other ones than it would write, with status 1: checks/docs does it

replay.svg isn't one of them: bump_replay draws it, and checks/replay compares it.

A box is its left upper corner, its width, its lines of text and its colour; it is as high as its lines want. An arrow
is its corners, a label and where the label begins. Each picture has a light ground of its own, so that it reads the
same on a dark page."""
import sys
from pathlib import Path
from xml.sax.saxutils import escape

LINE, PAD = 17, 9
STEP, END, MOVE, REST = "#dbe9f6", "#ffffff", "#dff0dc", "#f6e7d2"
DARK, GREY = "#1c2733", "#4a5a6a"
MARKER = ('<defs><marker id="head" viewBox="0 0 8 8" refX="7" refY="4" markerWidth="8" markerHeight="8" orient="auto">'
          f'<path d="M0 0 L8 4 L0 8 z" fill="{GREY}"/></marker></defs>')


def words(x, y, text, rest):
    return f'<text x="{x}" y="{y}" {rest}>{escape(text)}</text>'


def arrow(corners, label, at):
    points = " ".join(f"{x},{y}" for x, y in corners)
    yield f'<polyline points="{points}" fill="none" stroke="{GREY}" stroke-width="1.4" marker-end="url(#head)"/>'
    for line, text in enumerate(label.split("\n") if label else []):
        yield words(at[0], at[1] + line * 15, text, 'font-size="12"')


def box(x, y, wide, text, fill):
    lines = text.split("\n")
    high = LINE * len(lines) + 2 * PAD - 2
    yield f'<rect x="{x}" y="{y}" width="{wide}" height="{high}" rx="5" fill="{fill}" stroke="{GREY}"/>'
    for line, text in enumerate(lines):
        yield words(x + wide / 2, y + PAD + 12 + line * LINE, text, 'text-anchor="middle"')


def picture(width, height, titles, boxes, arrows):
    """The text of a picture."""
    out = [f'<svg xmlns="http://www.w3.org/2000/svg" viewBox="0 0 {width} {height}" width="{width}" height="{height}"'
           f' font-family="Helvetica, Arial, sans-serif" font-size="13" fill="{DARK}">', MARKER,
           f'<rect width="{width}" height="{height}" rx="8" fill="#f4f6f8"/>']
    out += [words(x, y, text, 'font-weight="bold"') for x, y, text in titles]
    out += [part for one in arrows for part in arrow(*one)]
    out += [part for one in boxes for part in box(*one)]
    return "\n".join(out + ["</svg>"]) + "\n"


def hit():
    steps = ["set FETCHED", "set ACTIVE", "look at the segment", "take a reference", "push the bump",
             "the ring: bumps n, n+1, .."]
    ends = ["First", "Already", "store the time: Marked", "clear ACTIVE: Dropped",
            "give it back, clear ACTIVE: Dropped"]
    lane = ["take the next bump", "look at the head", "store the time", "clear ACTIVE", "to the front of WARM",
            "give the reference back"]
    across = ["was clear", "was set", "HOT, WARM, TEMP", "at the limit", "no room"]
    down = ["was set", "was clear", "COLD", "taken", "accepted: Queued(n)"]
    lane_down = ["", "linked", "COLD", "was set", "Moved"]
    row = [45 + 68 * i for i in range(6)]
    boxes = [(20, y, 200, text, STEP) for y, text in zip(row, steps)]
    boxes += [(345, y, 262, text, END) for y, text in zip(row, ends)]
    boxes += [(660, y, 190, text, MOVE) for y, text in zip(row, lane)]
    arrows = [([(220, y + 16), (345, y + 16)], text, (228, y + 10)) for y, text in zip(row, across)]
    arrows += [([(120, y + 33), (120, y + 68)], text, (128, y + 55)) for y, text in zip(row, down)]
    arrows += [([(755, y + 33), (755, y + 68)], text, (763, y + 55)) for y, text in zip(row, lane_down)]
    arrows += [([(220, 401), (625, 401), (625, 61), (660, 61)], "in order, once each", (400, 395)),
               ([(850, 129), (945, 129), (945, 408), (850, 408)], "unlinked:\nGone", (950, 250)),
               ([(850, 197), (872, 197), (872, 396), (850, 396)], "", None),
               ([(850, 265), (872, 265), (872, 396), (850, 396)], "elsewhere,\nor was\nclear:\nTimeOnly", (877, 280))]
    titles = [(20, 26, "A reader's hit: no lock, no wait"), (345, 26, "What it answers"),
              (660, 26, "Its lane, under the class's lock")]
    return picture(1015, 440, titles, boxes, arrows)


def chunk():
    boxes = [(20, 200, 110, "UNUSED\nfree", REST), (250, 60, 110, "HOT", STEP), (520, 60, 110, "WARM", STEP),
             (520, 200, 110, "COLD", STEP), (250, 330, 110, "TEMP", STEP), (760, 195, 125, "DYING\nended, held", REST),
             (760, 340, 125, "RETIRED\nfree for good", REST)]
    arrows = [([(75, 200), (75, 77), (250, 77)], "link: the next generation", (82, 70)),
              ([(75, 250), (75, 346), (250, 346)], "link_temp", (100, 339)),
              ([(360, 77), (520, 77)], "pull, was ACTIVE", (385, 70)),
              ([(305, 93), (305, 210), (520, 210)], "pull, over its limit", (325, 203)),
              ([(545, 93), (545, 200)], "pull,\nover its\nlimit", (493, 130)),
              ([(605, 200), (605, 93)], "pull or applied bump,\nwas ACTIVE", (612, 150)),
              ([(630, 68), (665, 68), (665, 86), (630, 86)], "pull, was ACTIVE: to its front", (672, 80)),
              ([(630, 217), (760, 217)], "unlink, evict", (662, 211)),
              ([(360, 346), (690, 346), (690, 230), (760, 230)], "unlink, of each list", (480, 339)),
              ([(822, 245), (822, 340)], "nobody holds it,\nand this was\nthe last\ngeneration", (712, 275)),
              ([(885, 217), (905, 217), (905, 420), (45, 420), (45, 250)],
               "nobody holds it: found by the end itself, by a bump's end, or by a sweep", (250, 413))]
    titles = [(20, 28, "Where a chunk stands, and what moves it: always to the front of a list")]
    return picture(925, 440, titles, boxes, arrows)


def crates():
    at = {"bump_links": (330, 600), "bump_rules": (330, 540), "model_state": (60, 460), "bump_core": (60, 380),
          "bump_word": (620, 480), "bump_steps": (620, 420), "bump_readers": (620, 360), "bump_heads": (520, 300),
          "bump_ring": (720, 300), "bump_class": (620, 240), "bump_unlocked": (620, 180), "bump_store": (475, 120),
          "bump_handles": (620, 120), "bump_c": (620, 60), "open_box": (455, 60), "trace_lines": (330, 460),
          "bump_trace": (200, 300), "worked_traces": (150, 225), "store_trace": (330, 180), "bumpsim": (330, 110), "cache_lists": (900, 320),
          "cache_part": (900, 268), "cache_shelf": (900, 216), "cache_config": (900, 164), "cache_readers": (1080, 240), "cache_index": (1080, 300),
          "call_log": (900, 400), "packed_words": (900, 460),
          "seen_words": (1080, 360), "keyed_hash": (1080, 460), "bump_cache": (900, 112), "entry_cache": (760, 118), "replay_runs": (900, 60), "bump_replay": (1080, 60),
          "access_logs": (1080, 120), "replay_policies": (1080, 180), "cache_handles": (760, 60)}
    down = [("bump_rules", "bump_links"), ("model_state", "bump_rules"), ("bump_core", "model_state"),
            ("bump_word", "bump_rules"), ("bump_steps", "bump_word"), ("bump_readers", "bump_steps"),
            ("bump_heads", "bump_readers"), ("bump_ring", "bump_readers"), ("bump_class", "bump_heads"),
            ("bump_class", "bump_ring"), ("bump_unlocked", "bump_class"), ("bump_store", "bump_unlocked"),
            ("bump_handles", "bump_unlocked"), ("bump_c", "bump_handles"), ("trace_lines", "bump_rules"),
            ("bump_trace", "trace_lines"), ("bump_trace", "bump_core"), ("worked_traces", "bump_trace"), ("store_trace", "bump_trace"), ("bumpsim", "store_trace"),
            ("cache_shelf", "cache_part"), ("cache_part", "cache_lists"),
            ("cache_readers", "cache_index"), ("cache_index", "seen_words"), ("cache_config", "cache_shelf"), ("bump_cache", "cache_config"),
            ("replay_runs", "bump_cache"),
            ("bump_replay", "access_logs"), ("cache_handles", "bump_cache"), ("cache_handles", "bump_handles")]
    used = {"bump_core", "bump_store", "bump_c", "bumpsim", "bump_links", "bump_cache", "entry_cache", "bump_replay"}
    boxes = [(x, y, 130, name, MOVE if name in used else STEP) for name, (x, y) in at.items()]
    arrows = [([(at[a][0] + 65, at[a][1] + 33), (at[b][0] + 65, at[b][1])], "", None) for a, b in down]
    arrows += [([(460, 196), (500, 196), (500, 153)], "", None), ([(620, 76), (585, 76)], "", None), ([(750, 76), (760, 76)], "", None),
               ([(900, 180), (750, 190)], "", None), ([(900, 336), (750, 262)], "", None), ([(890, 134), (900, 134)], "", None), ([(1030, 284), (1080, 310)], "", None),
               ([(1030, 180), (1050, 180), (1050, 250), (1080, 250)], "", None),
               ([(1080, 76), (1030, 76)], "", None), ([(1210, 76), (1225, 76), (1225, 196), (1210, 196)], "", None),
               ([(1030, 88), (1055, 88), (1055, 650), (20, 650), (20, 290), (240, 290), (240, 300)], "", None)]
    titles = [(20, 28, "Who stands on whom: an arrow goes to what is below"), (60, 360, "the World"),
              (475, 112, "the store"), (620, 50, "from C"), (330, 100, "the program"),
              (475, 621, "lists of indices"), (900, 50, "the cache"), (900, 392, "and under it"), (1080, 50, "access logs")]
    return picture(1245, 670, titles, boxes, arrows)



def get():
    glance = ["look up the key's tag in the index", "read the item's head: are both marks set?",
              "read its row: expiry, key, value", "read the head again: is it the same item?",
              "answer the value"]
    held = ["take a reference: a step on the head", "read key and expiry: is it the key's item?",
            "set the mark that is clear;\nif it was the second, and in COLD, queue a bump", "read the value",
            "give the reference back", "answer the value"]
    left = [45 + 78 * i for i in range(5)]
    right = [123, 201, 279, 357, 423, 489]
    boxes = [(20, y, 300, text, STEP if text != glance[-1] else END) for y, text in zip(left, glance)]
    boxes += [(520, y, 330, text, MOVE if text != held[-1] else END) for y, text in zip(right, held)]
    boxes += [(20, 475, 300, "answer nothing: a miss", END)]
    arrows = [([(170, y + 33), (170, y + 78)], text, (178, y + 60)) for y, text in zip(left, ["a tag is there", "yes", "the key's, and unexpired", "yes"])]
    arrows += [([(685, a + high), (685, b)], text, (693, a + high + 20)) for a, b, high, text in
               zip(right, right[1:], (33, 33, 50, 33, 33), ("", "yes", "", "", ""))]
    arrows += [([(320, y + 16), (420, y + 16), (420, 139), (520, 139)], "no", (332, y + 10)) for y in left[1:4]]
    arrows += [([(20, 62), (8, 62), (8, 491), (20, 491)], "", None),
               ([(520, 217), (475, 217), (475, 491), (320, 491)], "none left, or expired", (330, 485)),
               ([(850, 217), (872, 217), (872, 139), (850, 139)], "no: the next\nplace of the\nindex", (878, 165))]
    titles = [(20, 28, "A glance: it writes nothing"), (520, 106, "Where that is unsure, the item is held"), (20, 466, "no such tag")]
    return picture(975, 540, titles, boxes, arrows)


def put():
    steps = ["take the lock of the key's part", "each eighth put: apply bumps that wait", "look for the key's item",
             "write expiry, key and value into a free chunk", "one store: the new item begins, in HOT or TEMP",
             "lead the index to it", "end the key's old item, if it had one", "each eighth put: balance HOT and WARM",
             "give the lock back;\nanswer what the key had, and what was evicted"]
    room = ["apply all bumps if COLD's last one is held; those\nin use go to WARM, at most 8", "COLD's last item ends;\nelse WARM's, HOT's or TEMP's",
            "free ended items that nobody holds any more,\nand apply all bumps"]
    at = [45 + 62 * i for i in range(9)]
    boxes = [(20, y, 340, text, STEP) for y, text in zip(at[:-1], steps)] + [(20, at[-1], 340, steps[-1], END)]
    boxes += [(500, y, 355, text, MOVE) for y, text in zip((85, 169, 253), room)]
    boxes += [(500, 337, 355, "give the lock back; answer NoRoom:\nthe key keeps what it had", END)]
    arrows = [([(190, y + 33), (190, y + 62)], "", None) for y in at[:-1]]
    arrows += [([(360, 180), (430, 180), (430, 105), (500, 105)], "a fresh key,\nand the part is full", (368, 70)),
               ([(677, 135), (677, 169)], "", None), ([(677, 303), (677, 337)], "still none", (685, 326)),
               ([(500, 190), (450, 190), (450, 242), (360, 242)], "", None),
               ([(360, 252), (470, 252), (470, 270), (500, 270)], "no chunk is free", (476, 246)),
               ([(500, 295), (400, 295), (400, 262), (360, 262)], "one came free", (405, 310))]
    titles = [(20, 28, "A put: readers go on meanwhile"), (500, 28, "Room, where there is none")]
    return picture(880, 600, titles, boxes, arrows)


def proved():
    boxes = [(20, 45, 170, "your program,\nin Rattle", END), (230, 45, 190, "your program,\nin C, C++, Rust or Go", END),
             (440, 45, 130, "c/python", REST), (590, 45, 130, "c/server", REST),
             (230, 125, 490, "the headers in c/, and c/memory.c", REST),
             (20, 205, 170, "bump_cache", MOVE), (230, 205, 490, "bump_c: each call from C does its call, and tells its answer", MOVE),
             (20, 275, 700, "the cache: index, lists, expiry, what is evicted, under a lock of each part", MOVE),
             (20, 345, 700, "the store: items held, notes in rings, applied once and in order", MOVE),
             (20, 415, 700, "single steps on shared words: one rule that holds between any two steps of any threads", MOVE),
             (20, 485, 700, "the toolchain and its library, the C library, the processor", STEP)]
    arrows = [([(x, a), (x, b)], "", None) for x, a, b in
              [(105, 95, 205), (325, 95, 125), (505, 78, 125), (655, 78, 125), (475, 158, 205), (105, 238, 275), (475, 238, 275),
               (370, 308, 345), (370, 378, 415), (370, 448, 485)]]
    boxes += [(760, 205, 220, "green: proved,\nin whatever order threads run", MOVE), (760, 125, 220, "brown: only tested", REST),
              (760, 485, 220, "blue: trusted", STEP),
              (760, 290, 220, "only tested of the green, too:\nthat a get finds what is there,\nand a put free room", REST),
              (760, 395, 220, "not claimed of any:\ntime, progress, fairness", END)]
    return picture(1000, 540, [(20, 28, "Who stands on whom, and what is proved of it")], boxes, arrows)


PICTURES = (hit, chunk, crates, get, put, proved)


def main():
    others = []
    for made in PICTURES:
        file, text = Path(__file__).parent / f"{made.__name__}.svg", made()
        if sys.argv[1:] != ["--check"]:
            file.write_text(text)
        elif not file.exists() or file.read_text() != text:
            others.append(file.name)
    if others:
        sys.exit(f"docs/pictures/draw.py writes others: {', '.join(others)}")


if __name__ == "__main__":
    main()
