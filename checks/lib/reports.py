"""What the checks of the built program share: how it is run, and what is wrong with a report of par."""
import re
import subprocess
import sys
from pathlib import Path


def run(program, mode, trace, *more):
    """How a run ended, what it printed, and what it said on standard error. Where there is no program the check ends in one line."""
    try:
        ended = subprocess.run([program, mode, trace, *more], capture_output=True, timeout=1200)
    except OSError:
        check = Path(sys.argv[0]).name
        sys.exit(f"checks/{check}: no built program at {program}: `rt run` in crates/bumpsim builds it, or name one behind -p")
    return ended.returncode, ended.stdout.decode(), ended.stderr.decode()


def moves_faults(text):
    """What is wrong with the `moves` lines of a run on one thread: wherever they stand, those of a worker add up to the bumps of that worker
    which the text before told to have moved an item to WARM. A line for a class and a worker that were told already begins another time."""
    wrong = []
    moved, counted = {}, {}

    def compare():
        sums = {}
        for (_, worker), count in counted.items():
            sums[worker] = sums.get(worker, 0) + count
        wrong.extend(f"worker {w}: {n} moves, of {moved.get(w, 0)}" for w, n in sums.items() if n != moved.get(w, 0))
        counted.clear()

    for line in [*text.splitlines(), ""]:
        if match := re.fullmatch(r"moves (\d+) (\d+) (\d+)", line):
            of, worker, count = (int(n) for n in match.groups())
            if (of, worker) in counted:
                compare()
            counted[of, worker] = count
            continue
        compare()
        if match := re.fullmatch(r"bump (\d+) \d+ \d+\.\d+ warm", line):
            worker = int(match.group(1))
            moved[worker] = moved.get(worker, 0) + 1
    return wrong


def report_faults(lines, text):
    """What is wrong with the report of par: of each worker the accounts add up, and each bump that was accepted is applied; the answers of
    the lines behind par add up to their number; there is a `moves` line for each class and worker, and those of a worker are no more than
    its applied bumps; the sizes of a class's lists add up to its chunks."""
    wrong = []
    chunks = [int(line.split()[1]) for line in lines if line.startswith("class ")]
    report = text.splitlines()
    at = max((i for i, line in enumerate(report) if line.startswith("total ")), default=None)
    if at is None:
        return ["no report"]
    workers = int(next(line for line in lines if line.startswith("store ")).split()[1])
    told = [line for line in report[:at] if line.startswith("worker ")][-workers:]
    if len(told) != workers:
        wrong.append(f"{len(told)} workers are told")
    left = []
    for line in told:
        attempted, accepted, full, busy, refs, applied = (int(n) for n in re.findall(r" (\d+)", line)[1:])
        left.append(applied)
        if attempted != accepted + full + busy + refs or accepted != applied:
            wrong.append(line)
    totals = [int(n) for n in re.findall(r" (\d+)", report[at])]
    behind = lines[lines.index("par") + 1:] if "par" in lines else []
    if sum(totals) != sum(line.startswith("get ") for line in behind):
        wrong.append(report[at])
    moves, sizes = report[at + 1:][:len(chunks) * workers], report[at + 1:][len(chunks) * workers:]
    for number, line in enumerate(moves):
        match = re.fullmatch(r"moves {} {} (\d+)".format(*divmod(number, workers)), line)
        left[number % workers] -= int(match.group(1)) if match else 0
        if not match or left[number % workers] < 0:
            wrong.append(line)
    if len(sizes) != len(chunks):
        wrong.append(f"{len(sizes)} lines behind those of moves")
    for line, count in zip(sizes, chunks):
        if sum(int(n) for n in re.findall(r" (\d+)", line)[1:]) != count:
            wrong.append(line)
    return wrong


def told_in_order(lines, drainers):
    """Whether it is known what the lines behind `par` come to: where they stand in one thread, or where no thread sees what another does. So it
    is where they are all of maintenance, by one drainer or without a `drain`; and where all are `get` lines, of which no two workers have one
    of the same name."""
    behind = lines[lines.index("par") + 1:] if "par" in lines else []
    gets = [line.split() for line in behind if line.startswith("get ")]
    if gets:
        return len(gets) == len(behind) and len({(w, name) for _, w, name in gets}) == len({name for _, _, name in gets})
    return drainers == 1 or "drain" not in behind


def in_order(lines):
    """The same trace with its lines behind `par` in their order, on one thread, and at its end what is done before a report: all holds are
    given back, all workers closed, and all lists and counters printed."""
    workers = int(next(line for line in lines if line.startswith("store ")).split()[1])
    holds = sorted({line.split()[3] for line in lines if line.startswith("hold ")})
    rest = [f"close {worker}" for worker in range(workers)] + ["moves", "show"]
    return ["#" if line == "par" else line for line in lines], holds, rest


def report_of(lines, text):
    """The report of par, by what the same trace tells in its order."""
    told = text.splitlines()
    par = lines.index("par") if "par" in lines else len(lines)
    gets = sum(line.startswith("get ") for line in lines[:par])
    answers = [line.split()[3:] for line in told if line.startswith("get ")][gets:]
    kinds = {}
    for answer in answers:
        word = answer[-1] if len(answer) == 1 else answer[1]
        kinds[word] = kinds.get(word, 0) + 1
    total = " ".join(f"{kind} {kinds.get(kind, 0)}" for kind in ("first", "already", "marked", "queued", "dropped", "miss", "refs", "busy", "closed"))
    classes = sum(line.startswith("class ") for line in lines)
    workers = int(next(line for line in lines if line.startswith("store ")).split()[1])
    moves = [line for line in told if line.startswith("moves ")][-classes * workers:]
    shown = told[max(i for i, line in enumerate(told) if line == moves[-1]) + 1:]
    sizes = [{} for _ in range(classes)]
    for line in shown:
        if line.startswith("class "):
            _, of, place, count = line.split()[:4]
            sizes[int(of)][place] = count
    rows = [line for line in shown if line.startswith("worker ")]
    rows += [f"total {total}"] + moves
    for of, size in enumerate(sizes):
        row = " ".join(f"{place} {size[place]}" for place in ("hot", "warm", "cold", "dying", "unused", "retired"))
        rows.append(f"sizes {of} {row}" + (f" temp {size['temp']}" if "temp" in size else ""))
    return rows


def order_faults(program, lines, text, file):
    """What is wrong with a report of par of which all is known: where it isn't what the model tells of the lines in their order."""
    first, holds, rest = in_order(lines)
    _, model, _ = run(program, "model", write(file, first))
    taken = {match.group(1) for match in re.finditer(r"^hold \d+ \w+ (\w+) held$", model, re.MULTILINE)}
    held = [hold for hold in holds if hold in taken and last_of(model, hold) == "hold"]
    ended, model, _ = run(program, "model", write(file, first + [f"drop {hold}" for hold in held] + rest))
    if ended != 0:
        return [f"in their order the lines end with {ended}"]
    wanted = report_of(lines, model)
    told = text.splitlines()[-len(wanted):]
    return [f"{row!r} in place of {want!r}" for row, want in zip(told, wanted) if row != want]


def last_of(text, hold):
    """Whether a hold name was last taken or given back, where it was taken."""
    found = re.findall(rf"^(hold|drop) (?:\d+ \w+ )?{hold}(?: held)?$", text, re.MULTILINE)
    return found[-1] if found else None


def write(file, lines):
    """The file with these lines."""
    file.write_text("\n".join(lines) + "\n")
    return file
