"""The model of the warnings about releases that may be forgotten, by paths; the program runs in steps for it."""
import csv
import re
import subprocess

from explain import places, region_of, spelled
from model import assemble, certify, dests, exits, inner, verdict

UNITS, MOST_EVENTS, MOST_WARNED, LEAST_SHARE = 4, 100_000, 4, 50
SAID = "from here on task "


def released(op):
    return set(op[1]) if op[0] == "release" else set()


def ways(program, start):
    """The instructions that paths from one come to, and this one."""
    seen, ahead = set(), [start]
    while ahead:
        i = ahead.pop()
        if i not in seen and i < len(program.code):
            seen.add(i)
            ahead += inner(program, i)
    return seen


def leads_on(program, i):
    op, _, stop = program.code[i]
    return bool(exits(program, i)) or (op[0] in ("jr", "jalr") and bool(stop))


def due(program):
    """By instruction, the registers that come there unsent from the one above, and from elsewhere, and are not written again."""
    found = {}
    written = lambda seen: {r for k in seen for r in dests(program.code[k][0])}
    for i in sorted(set().union(*(ways(program, task[1]) for task in program.tasks))):
        ends = sorted({j for j in inner(program, i) if j < len(program.code)})
        for j in ends if len(ends) == 2 else []:
            seen = ways(program, j)
            left = written(ways(program, i)) - dests(program.code[i][0]) - written(seen)
            left -= {r for k in seen for r in released(program.code[k][0])}
            if left and any(leads_on(program, k) for k in seen):
                above, afar = found.setdefault(j, (set(), set()))
                (above if i == j - 1 else afar).update(left)
    return dict(sorted(found.items()))


def run(bench, text, *words):
    return subprocess.run([bench.program, "run", "--least", "--schedule", "steps", "--budget", str(MOST_EVENTS), *words, "-"],
                          input=text.encode("latin-1"), capture_output=True).stdout.decode("latin-1").split("\n")[:-1]


def trial(bench, text):
    """The output and the steps of a run that halts."""
    report = run(bench, text)
    if report[-1] != "halted":
        return None
    return report[:-2], int(re.match(r"steps (\d+),", run(bench, text, "--emit", "summary")[-1])[1])


def with_release(text, program, j, above, afar):
    """The text with a release at an instruction, before its label where it comes only from above."""
    code, lines = places(text)[1], text.split("\n")
    words = "release " + ",".join(spelled(text, r) for r in sorted(above | afar))
    if not afar:
        lines.insert(code[j - 1][0], words)
        return "\n".join(lines)
    line, column, _ = code[j]
    lines[line - 1:line] = [lines[line - 1][:column - 1] + words, lines[line - 1][column - 1:]]
    return "\n".join(lines)


def forgotten(bench, program, text):
    """The warnings: what each is about, its sentence, what it tells of the gain, and the text with its release."""
    places_due, before = due(program), None
    if places_due and "@" not in text:
        before = trial(bench, text)
    if before is None:
        return []
    rows = list(csv.DictReader(run(bench, text, "--emit", "waits", "--format", "csv")))
    waited, names = {}, [task[0] for task in program.tasks]
    for row in rows:
        for j, (above, afar) in places_due.items():
            reaching = [task for task in program.tasks if j in ways(program, task[1])]
            is_due = row["sent"] == "no" and int(row["register"]) in above | afar and program.tasks[names.index(row["from"])] in reaching
            if is_due and j not in waited and len(waited) < MOST_WARNED and all(above | afar <= task[2] for task in reaching):
                waited[j] = row
    said = []
    for j, row in waited.items():
        above, afar = places_due[j]
        new = with_release(text, program, j, above, afar)
        changed = assemble(new.encode("latin-1"))
        after = None if verdict(changed, certify(changed)) else trial(bench, new)
        if not after or after[0] != before[0] or before[1] - after[1] <= before[1] // LEAST_SHARE:
            continue
        registers, it = ",".join(spelled(text, r) for r in sorted(above | afar)), "it" if len(above | afar) == 1 else "them"
        where = "at its end" if row["place"] == "stopped" else "here"
        said.append((tuple(places(text)[1][j]),
                     f"{SAID}{row['from']} writes {registers} no more, and sends {it} only where it ends.",
                     f"{where} task {row['task']} waits {row['waits']} steps for {spelled(text, int(row['register']))}; a run on "
                     f"{UNITS} units takes {before[1]} steps, with the release {after[1]}.", new))
    return sorted(said, key=lambda it: it[0][:2])


def bare(text):
    """The lines of a text without blanks at their ends."""
    return [line.strip() for line in text.split("\n")]


def other_warnings(bench, program, text, results, changed):
    """What is wrong with the warnings about releases among some results; None where nothing is."""
    told = [(region_of(it["locations"][0]), it["message"]["text"], it["relatedLocations"][0]["message"]["text"]) for it in results]
    wanted = forgotten(bench, program, text)
    if told != [it[:3] for it in wanted]:
        return f"other releases: {told}, not {[it[:3] for it in wanted]}"
    for it, result in zip(wanted, results):
        if bare(changed(text, result)) != bare(it[3]):
            return f"another text with a release:\n{changed(text, result)}"
    return None


def text_with_branch(random):
    """A loop whose task writes a register on one way of a branch, and not on the other."""
    register, second = random.sample([9, 13, 14, 16], 2)
    both = random.random() < .4
    mask = ",".join(f"${r}" for r in sorted({8, 10, 11, 12, register} | ({second} if both else set())))
    tail = "nop\n" * random.randrange(6)
    more = f"addiu ${second},${second},2 !f\n" if both else ""
    branch = random.choice(["beq $10,$0,upd", "bne $10,$0,skip"])
    other = random.choice(["nop\n", "", f"release ${register}\n"])
    body = f"{branch}\n{other}j skip\nupd:\naddiu ${register},${register},1 !f\n{more}" if branch.startswith("beq") else f"{branch}\naddiu ${register},${register},1 !f\n{more}"
    reads = random.choice([f"addu $12,${register},$8 !f\n", f"addu $12,${register},${second} !f\n" if both else "addu $12,$8,$8 !f\n"])
    ends = random.choice(["", "beq $8,$0,over\n"])
    return (f".start INIT\n.task INIT create=$8,${register},${second} targets=A\n.task A create={mask} targets=A,B\n.task B create=- targets=-\n"
            f"INIT:\nli ${register},0 !f\nli ${second},0 !f\nli $8,0 !f !s\nA:\naddiu $8,$8,1 !f\nandi $10,$8,{random.choice([1, 3, 7])} !f\n{ends}{body}"
            f"skip:\nslti $11,$8,{random.randrange(20, 60)} !f\n{reads}{tail}bne $11,$0,A !s\nB:\nout ${register}\nhalt\n" + ("over:\nhalt\n" if ends else ""))
