"""Compares the built program with the model over random inputs.
fuzz.py PROGRAM [--seed N] [--seconds S] [--subs a,b] [--corners] [--large] [--out FILE]"""
import argparse, collections, os, subprocess, sys, tempfile, time
import curve, ending, marks
from accepted import *
from corners import corners, large
A = argparse.ArgumentParser()
A.add_argument('program'); A.add_argument('--seed', type=int, default=int(time.time())); A.add_argument('--seconds', type=float, default=120)
A.add_argument('--subs', default='seq,print,check,annotate,replay,run,curve'); A.add_argument('--corners', action='store_true'); A.add_argument('--large', action='store_true')
A.add_argument('--out', default='findings.txt'); A.add_argument('--max', type=int, default=8)
O = A.parse_args()
PROG = os.path.abspath(O.program)
TMP = tempfile.mkdtemp(prefix='fuzz')
lat = lambda s: s if isinstance(s, bytes) else s.encode('latin-1')
def run(words, files):
    paths = []
    for k, f in enumerate(files):
        p = '%s/f%d' % (TMP, k)
        with open(p, 'wb') as h: h.write(lat(f))
        paths.append(p)
    r = ending.run([PROG, words[0], *paths, *words[1:]], capture_output=True)
    return r.stdout.decode('latin-1'), r.returncode, r.stderr.decode('latin-1')
# The name of the program that `run` runs.
NAME = 'f0'
def known(sub): return subprocess.run([PROG, sub, '--help'], capture_output=True).returncode == 0
# A program whose help says so writes a trace as lines of JSON, too.
TRACES = ['trace'] + ['json'] * ('json' in subprocess.run([PROG, 'replay', '--help'], capture_output=True, text=True).stdout)
CSV = 'csv' in subprocess.run([PROG, 'curve', '--help'], capture_output=True, text=True).stdout
STEPS = ['report', 'script', 'summary', *TRACES] + ['waits'] * ('waits' in subprocess.run([PROG, 'run', '--help'], capture_output=True, text=True).stdout)
# A program whose help says so plays the first events of a script alone, and says how the units then stand.
CUT = '--until' in subprocess.run([PROG, 'replay', '--help'], capture_output=True, text=True).stdout
STATES, UNTIL = [*TRACES, *['state'] * CUT], [[], [], *[['--until', n] for n in ('1', '7', '40', '1000000') if CUT]]
SUBS = [s for s in O.subs.split(',') if known(s)]
print('subcommands', SUBS, flush=True)
def marked(text):
    try: return marks.marked(text.decode('latin-1')), 0
    except Fault as fault: return fault.text(), 1
def curve_text(text, cert, units, budget, predict):
    p, said = accepted_program(text, cert)
    return (said, 1) if said else curve.table(curve.rows_of(p, units, budget, predict))
def tabled(as_csv, said, status):
    """a table, if there is one, as comma separated values"""
    return (csv_of(said) if as_csv and said.startswith(('assigned', 'units')) else said), status
def model(words, files, got):
    """what is written, and the status; of a trace of threads, what its own events write, with the status if that fits"""
    f = [lat(x) for x in files]
    w, least = words[0], '--least' in words
    given = [x for x in words if x != '--least']
    opt = dict(zip(given[1::2], given[2::2]))
    if least: f.insert(1, least_cert(f[0]))
    if w == 'seq': return seq_text(f[0], int(opt.get('--budget', 1000000)))
    if w == 'print': return print_text(f[0])
    if w == 'check': return check_text(*f)
    if w == 'annotate' and opt.get('--emit') == 'marks': return marked(f[0])
    as_csv = opt.get('--format') == 'csv'
    if w == 'curve': return tabled(as_csv, *curve_text(f[0], f[1], int(opt['--units']), int(opt['--budget']), opt['--predict']))
    if w == 'annotate': return annotate_text(f[0], opt.get('--emit', 'text'))
    if w == 'replay':
        until = int(opt['--until']) if '--until' in opt else None
        return tabled(as_csv, *replay_text(*f, int(opt.get('--units', 4)), opt.get('--emit', 'answers'), until, NAME))
    if w == 'run' and opt.get('--schedule') == 'steps':
        return steps_text(f[0], f[1], int(opt['--units']), int(opt['--budget']), opt['--predict'], opt['--emit'] + ' csv' * as_csv, NAME)
    if w == 'run' and opt.get('--emit') in TRACES:
        said, statuses = traced_run(f[0], f[1], int(opt['--units']), got[0], NAME, opt.get('--predict', 'first'), int(opt.get('--budget', 1000000)))
        return said, got[1] if got[1] in statuses else max(statuses, default=-1)
    if w == 'run': return run_text(f[0], f[1])
found = collections.Counter(); nfound = 0
def differs(words, files):
    try: got = run(words, files)
    except subprocess.TimeoutExpired: return ('an end', 0), ('TIMEOUT', -1, '')
    want = model(words, files, got)
    if (got[0], got[1]) != want or got[2]: return want, got
    return None
def shrink(words, files):
    files = [x if isinstance(x, str) else x.decode('latin-1') for x in files]
    t0 = time.time()
    for k in range(len(files)):
        for cut in ('\n', ''):
            step = max(1, len(files[k].split(cut) if cut else files[k]) // 2)
            while step and time.time() - t0 < 40:
                parts = files[k].split('\n') if cut else list(files[k])
                i, changed = 0, False
                while i < len(parts) and time.time() - t0 < 40:
                    q = parts[:i] + parts[i + step:]
                    g = files[:k] + [cut.join(q)] + files[k + 1:]
                    if differs(words, g): parts, files, changed = q, g, True
                    else: i += step
                step = step // 2 if not changed or step > 1 else (1 if changed else 0)
                if step == 0: break
    return files
def report(words, files, d, name=''):
    global nfound
    nfound += 1
    small = shrink(words, files) if sum(map(len, files)) < 20000 else files
    d = differs(words, small) or d
    key = (words[0], d[0][0].split(' line')[0][:30], d[1][0].split(' line')[0][:30])
    found[key] += 1
    if found[key] > 3: return
    with open(O.out, 'a') as h:
        h.write('==== %s %s seed %d: multiscalar %s\n' % (time.strftime('%H:%M:%S'), name, O.seed, ' '.join(words)))
        for f in small: h.write('---- file (%d bytes)\n%s\n' % (len(f), f if len(f) < 3000 else repr(f[:200])) + '     repr %s\n' % (repr(f) if len(f) < 600 else ''))
        h.write('---- wanted status %d\n%s---- got status %d\n%s---- stderr %s\n' % (d[0][1], d[0][0][:1500], d[1][1], d[1][0][:1500], d[1][2][:500]))
    print('DIFFERENCE', key, flush=True)
    if nfound >= O.max: finish()
def finish():
    print(dict(done), 'findings', nfound, dict(found), 'seed', O.seed, flush=True); sys.exit(1 if nfound else 0)
done = collections.Counter()
def case(words, files, name=''):
    done[words[0]] += 1
    d = differs(words, files)
    if d: report(words, files, d, name)
R.seed(O.seed)
text_sub = [s for s in ('seq', 'print', 'annotate') if s in SUBS]
if O.corners:
    for t in corners():
        for s in text_sub: case([s] + (['--budget', '200'] if s == 'seq' else []), [t], 'corner')
        if 'annotate' in SUBS: case(['annotate', '--emit', 'marks'], [t], 'corner')
if O.large:
    for n, t in large():
        for s in text_sub[:2]: case([s] + (['--budget', '200'] if s == 'seq' else []), [t], n)
end = time.time() + O.seconds
# a third of the checks, replays and runs make the least certificate themselves
def certified(words, t, c, *rest):
    return case(words, [t, c, *rest]) if R.random() < .67 else case([words[0], '--least', *words[1:]], [t, *rest])
def mutate_cert(t):
    for _ in range(R.choice([1, 1, 2])):
        x = R.random(); ls = t.split('\n'); p = R.randrange(len(ls))
        if x < .15: del ls[p]
        elif x < .25: ls.insert(R.randrange(len(ls) + 1), ls[p])
        elif x < .35 and len(ls) > 1: q = R.randrange(len(ls)); ls[p], ls[q] = ls[q], ls[p]
        elif x < .7:
            m = list(re.finditer(r'[0-9a-f]', ls[p])) 
            if m: k = R.choice(m).start(); ls[p] = ls[p][:k] + R.choice('0123456789abcdefA gx') + ls[p][k + 1:]
        elif x < .8: ls[p] = R.choice(['', ' ', 'task T0', 'task T1', 'task T99', 'task', 'task 1x', 'task A ', '4095 ' + '0' * 16, '4096 ' + '0' * 16, '4096 ' + '0' * 8, '99999 ' + '0' * 16, '100000 ' + '0' * 16, '0 ' + 'f' * 16, '0 00000003ffffffff', '0 0000000400000000', '00 ' + '0' * 16, '0  ' + '0' * 16, '0 ' + '0' * 16 + ' ', 'cert 1', 'cert 2', 'cert 3', ls[p] + '\r', ls[p].upper()])
        elif x < .9: t2 = '\n'.join(ls); return t2[:R.randrange(len(t2) + 1)]
        else: ls[p] = ls[p] + R.choice([' ', '0', '\t', '\r', '#'])
        t = '\n'.join(ls)
    return t
def one():
    s = R.choice(SUBS)
    if s in ('seq', 'print', 'annotate') and (s != 'annotate' or R.random() < .5):
        t = program()
        if s == 'seq': return case(['seq', '--budget', str(R.choice([1, 2, 5, 17, 100, 400]))], [t])
        return case([s] + (['--emit', R.choice(['text', 'cert', 'keep', 'marks'])] if s == 'annotate' else []), [t])
    p, lists = accepted(); t = print_program(p)
    if s == 'annotate': return case(['annotate', '--emit', R.choice(['text', 'cert', 'keep', 'marks'])], [t])
    if R.random() < (.75 if s == 'check' else .1):
        y = R.random()
        if y < .5:
            for _ in range(R.choice([1, 1, 2, 4])):
                k = R.randrange(len(lists))
                if not lists[k]: continue
                i = R.randrange(len(lists[k])); e = lists[k][i]
                z = R.random()
                if z < .6: lists[k][i] = (e[0], e[1] ^ 1 << R.choice([8, 9, 10, 11, 12, 31, 32, 33, 0, R.randrange(34)]))
                elif z < .8: del lists[k][i]
                else: lists[k].append((R.choice([len(p.code), 4095, lists[k][-1][0] + 1]), R.choice([0, 0x100])))
        elif y < .8:
            t = R.choice([lambda: t.replace(' !f', '', 1), lambda: t.replace(' !s', '', 1), lambda: re.sub(r'(create=[^ ]*),\$\d+', r'\1', t, count=1), lambda: re.sub(r'(targets=[^\n]*),\w+', r'\1', t, count=1), lambda: t.replace(' !st', ' !sn', 1), lambda: t.replace('halt\n', '', 1), lambda: re.sub(r'\$9,', '$10,', t, count=1)])()
    sp = 2 if any(m >> 32 for l in lists for _, m in l) or R.random() < .5 else 1
    c = cert_text(lists, p, sp)
    if R.random() < (.3 if s == 'check' else .05): c = mutate_cert(c)
    if s == 'check': return certified(['check', '--workers', str(R.choice([1, 1, 2, 3, 16]))], t, c)
    predict = ['--predict', R.choice(['first', 'last', '1,0', '3,1,2,0,15'])]
    def form(emit=None): return R.choice([[], ['--format', 'text'], ['--format', 'csv']]) if CSV and emit in (None, 'summary', 'waits') else []
    if s == 'curve': return certified(['curve', '--units', str(R.choice([1, 2, 3, 5, 16])), '--budget', str(R.choice([1, 7, 60, 400, 1000])), *predict, *form()], t, c)
    machine = ['--units', str(R.choice([1, 2, 3, 4, 16])), '--budget', str(R.choice([1, 7, 60, 400, 3000])), *predict]
    if s == 'run' and R.random() < .6:
        emit = R.choice(STEPS)
        return certified(['run', '--schedule', 'steps', *machine, '--emit', emit, *form(emit)], t, c)
    if s == 'run' and R.random() < .4: return certified(['run', *machine, '--workers', str(R.choice([1, 2, 16])), '--emit', R.choice(TRACES)], t, c)
    if s == 'run':
        try: q = assemble(lat(t)); cert_parse(lat(c), q)
        except (Fault, CertFault): return
        if not verdict(q, cert_parse(lat(c), q)):
            if run_text(lat(t), lat(c), 20000)[1] == 3: return
        return case(['run', '--units', str(R.choice([1, 2, 4, 16])), '--predict', R.choice(['first', 'last', '1,0', '3,1,2,0,15'])], [t, c])
    u = R.choice([1, 2, 3, 4, 16])
    ev = '\n'.join(events_for(Machine(p, u), R.choice([5, 30, 100, 300]))) + R.choice(['', '\n'])
    if R.random() < .1:
        k = R.randrange(len(ev) + 1); ev = ev[:k] + R.choice(['\n', ' ', 'x', '0', '-', '\r', '$', '34']) + ev[k + R.choice([0, 1]):]
    return certified(['replay', '--units', str(u)] + R.choice([[], [], ['--emit', 'summary', *form('summary')], ['--emit', R.choice(STATES)]]) + R.choice(UNTIL), t, c, ev)
while time.time() < end and SUBS: one()
finish()
