#!/usr/bin/env python3
"""Marks homework: judges the work in links of the page with the program, and writes a table.

    web/mark.py LINKS.. [--program PROGRAM] [--csv]

LINKS are links, or files with a link on each line, before which may stand a name and a tab. Each goal of each exercise
(exercises.json) is judged anew, by the proved program; nothing that a link claims is believed. Status 1: a link is damaged.
"""
import argparse, base64, csv, functools, json, pathlib, re, subprocess, sys, tempfile, urllib.parse, zlib

HERE = pathlib.Path(__file__).resolve().parent
VERSION = '1'
EXERCISES = json.loads((HERE / 'exercises.json').read_text())
IS_TEXT = re.compile(r'(text|script|kept)\d?')
WORK = re.compile(r'(text|script|answer)(\d)(?:\.(\w+))?')
MOST_UNITS = 16
PATIENCE = 120


def unpacked(packed):
    """The text of a word of a link."""
    inflate = zlib.decompressobj(-15)
    text = inflate.decompress(base64.urlsafe_b64decode(packed + '=' * (-len(packed) % 4)), 4_000_000)
    if not inflate.eof:
        raise ValueError('it is cut')
    return text.decode()


def seal_of(words):
    lines = ''.join(sorted(f'{name}={value}\n' for name, value in words))
    return f'{VERSION}-{zlib.crc32(lines.encode()):08x}'


def read_link(link):
    """The words of a link, and what is wrong with it, or None."""
    words = urllib.parse.parse_qsl(link.partition('#')[2], keep_blank_values=True)
    seal = dict(words).get('v')
    words = [it for it in words if it[0] != 'v']
    state, fault = {}, None
    if seal is None:
        fault = 'it has no seal: it is cut at its beginning, or of an earlier page'
    elif re.fullmatch(r'\d+-.*', seal) and seal.split('-')[0] != VERSION:
        fault = f"it is of version {seal.split('-')[0]}, not {VERSION}"
    elif seal != seal_of(words):
        fault = 'it is cut or damaged'
    for name, value in words:
        try:
            state[name] = unpacked(value) if IS_TEXT.fullmatch(name) else value
        except (ValueError, zlib.error):
            fault = 'it is cut or damaged'
    return state, fault


def works_of(state):
    """The work on each exercise that a link holds, by its number: the text, the script by hand, the answers."""
    works = {}
    for word, value in state.items():
        found = WORK.fullmatch(word)
        if not found or not 1 <= int(found[2]) <= len(EXERCISES):
            continue
        number = int(found[2])
        start = {'text': start_of(number), 'script': '', 'answers': {}}
        work = works.setdefault(number, start)
        if found[1] == 'answer':
            work['answers'][found[3]] = value
        else:
            work[found[1]] = value
    return works


def start_of(number):
    return ''.join(f'{line}\n' for line in EXERCISES[number - 1]['program'])


class Program:
    """The program, on texts in a folder."""

    def __init__(self, program, folder):
        self.program, self.folder = program, pathlib.Path(folder)

    @functools.cache
    def __call__(self, *words, text, script=''):
        (self.folder / 'program.s').write_text(text)
        (self.folder / 'script.events').write_text(script)
        ran = subprocess.run([self.program, *words], cwd=self.folder, stdin=subprocess.DEVNULL, capture_output=True, encoding='utf-8', errors='replace', timeout=PATIENCE)
        if ran.returncode not in range(4):
            sys.exit(f'mark.py: {self.program} {words[0]} ended with {ran.returncode}: {ran.stderr[:300]}')
        return ran.returncode, ran.stdout

    def summary(self, text, units):
        return self('run', '--least', '--schedule', 'steps', '--units', str(units), '--budget', '20000', '--predict', 'first', '--emit', 'summary', 'program.s', text=text)[1]


def bare(program, text):
    """The instructions of a text without marks, task lines, releases and places; None if it is refused."""
    status, said = program('print', 'program.s', text=text)
    if status:
        return None
    lines = [it for it in said.rstrip().split('\n') if not re.match(r'(\.task|\.start|\.text|release|sll \$0,\$0,0)\b', it) and not it.endswith(':')]
    return [re.sub(r',?@\d+$', '', re.sub(r' !\w+', '', it)) for it in lines]


def played(program, work):
    """The events of a script by hand; None if it does not run."""
    script = work['script'].rstrip('\n') + '\n' if work['script'].strip() else ''
    _, said = program('replay', '--least', '--units', str(MOST_UNITS), '--emit', 'json', 'program.s', 'script.events', text=work['text'], script=script)
    return [json.loads(it) for it in said.splitlines()] if said.startswith('{') else None


def is_wasted(events, task, least):
    """Whether a task was squashed after so many instructions."""
    queue = []
    for event in events:
        lost = None
        for change in event.get('changes', []):
            kind, position = change['change'], change.get('position')
            if kind == 'began':
                queue.append([change['task'], 0])
            elif kind == 'executed':
                queue[position][1] += 1
            elif kind in ('squashed', 'dropped'):
                lost = position if lost is None else min(lost, position)
                if kind == 'squashed' and queue[position][0] == task and queue[position][1] >= least:
                    return True
            elif kind == 'retired':
                del queue[0]
        if lost is not None:
            del queue[lost:]
    return False


def number_in(word):
    return int(word, 0) if re.fullmatch(r'0x[0-9a-fA-F]+', word.strip()) else int(word) if re.fullmatch(r'\d+', word.strip(), re.A) else None


def is_reached(program, goal, number, work):
    kind, text = goal['kind'], work['text']
    if kind == 'right':
        return program('check', '--least', 'program.s', text=text)[0] == 0
    if kind == 'same':
        return bare(program, text) is not None and bare(program, text) == bare(program, start_of(number))
    if kind == 'prints':
        status, said = program('seq', '--budget', '100000', 'program.s', text=text)
        return status == 0 and said.rstrip().split('\n')[:-1] == [str(it) for it in goal['words']]
    if kind == 'steps':
        steps = re.search(r'^steps (\d+),', program.summary(text, goal['units']), re.M)
        return steps is not None and int(steps[1]) <= goal['most']
    if kind == 'unsquashed':
        row = re.search(r'^ +\d+ +\d+ +(\d+) .*\(all\)$', program.summary(text, goal['units']), re.M)
        return row is not None and int(row[1]) == 0
    if kind == 'answer':
        expected = next(it['expected'] for it in EXERCISES[number - 1]['fields'] if it['name'] == goal['name'])
        return number_in(work['answers'].get(goal['name'], '')) == expected
    events = played(program, work)
    if events is None:
        return False
    if kind == 'wasted':
        return is_wasted(events, goal['task'], goal['least'])
    if kind == 'ended':
        return events[-1].get('end') == 'halted'
    put_out = [it['word'] for event in events for it in event.get('changes', []) if it['change'] == 'put_out']
    return put_out == goal['words']


def judged(program, number, work):
    """How the work on an exercise stands: `solved`, `solved, further`, or how many goals are reached."""
    goals = [(it, is_reached(program, it, number, work)) for it in EXERCISES[number - 1]['goals']]
    needed = [reached for it, reached in goals if not it.get('isFurther')]
    further = [reached for it, reached in goals if it.get('isFurther')]
    if not all(needed):
        return f'{sum(needed)} of {len(needed)}'
    return 'solved, further' if further and all(further) else 'solved'


def links_of(words):
    """Links with the names that stand before them."""
    for word in words:
        is_link = '#' in word or '=' in word
        for line in [word] if is_link and not pathlib.Path(word).is_file() else pathlib.Path(word).read_text().splitlines():
            name, tab, link = line.rpartition('\t')
            if '=' in link:
                yield name.strip() if tab else '', link.strip()


def row_of(program, at, name, link):
    state, fault = read_link(link)
    works = works_of(state)
    said = [judged(program, it, works[it]) if it in works else '-' for it in range(1, len(EXERCISES) + 1)]
    who = ''.join(it if it.isprintable() else '?' for it in name or state.get('name', '') or f'link {at}')
    return [who, *said, f"{sum(it.startswith('solved') for it in said)}", fault or '']


def main():
    words = argparse.ArgumentParser(description=__doc__.split('\n')[0])
    words.add_argument('links', nargs='+', metavar='LINKS')
    words.add_argument('--program', type=pathlib.Path, default=HERE.parent / 'multiscalar')
    words.add_argument('--csv', action='store_true', help='write comma-separated values')
    asked = words.parse_args()
    with tempfile.TemporaryDirectory() as folder:
        program = Program(asked.program.resolve(), folder)
        heading = ['name', *(f'exercise {it + 1}' for it in range(len(EXERCISES))), 'solved', 'the link']
        rows = [row_of(program, at, *it) for at, it in enumerate(links_of(asked.links), 1)]
    if asked.csv:
        csv.writer(sys.stdout, lineterminator='\n').writerows([heading, *rows])
    else:
        widths = [max(len(row[at]) for row in [heading, *rows]) for at in range(len(heading))]
        for row in [heading, *rows]:
            print('  '.join(f'{it:{width}}' for it, width in zip(row, widths)).rstrip())
    sys.exit(any(row[-1] for row in rows))


if __name__ == '__main__':
    main()
