"""Random accepted programs, with certificates and event scripts."""
from programs import *
import programs as gen

def rand_op(n):
    x = R.random(); r = lambda: R.choice([8, 9, 10, 11, 12])
    z = lambda: R.choice([8, 9, 10, 11, 12, 0, 16, 17])
    if x < .2: return (R.choice(THREE), R.choice([r(), r(), 0]), z(), z())
    if x < .25: return (R.choice(SHIFTBY), r(), z(), R.randrange(32))
    if x < .30: return (R.choice(SHIFTVAR), r(), z(), z())
    if x < .42: return (R.choice(IMM), r(), z(), R.choice([0, 1, -1, 2, 5, R.randrange(-9, 9)]))
    if x < .46: return (R.choice(LOGIC), r(), z(), R.randrange(65536))
    if x < .48: return ('lui', r(), R.randrange(65536))
    if x < .52: return (R.choice(MULT), z(), z())
    if x < .56: return (R.choice(MOVEFROM), r())
    if x < .58: return (R.choice(MOVETO), z())
    if x < .66: return (R.choice(LOAD), R.choice([r(), r(), 0]), R.choice([16, 16, 17, 17, z()]), R.choice([0, 0, 4, 8, 1, 2, -4, 100]))
    if x < .71: return (R.choice(STORE), z(), R.choice([16, 16, 16, 17, z()]), R.choice([0, 0, 4, 8, 1, 2, 100]))
    if x < .80: return (R.choice(BR2), z(), z(), R.randrange(n))
    if x < .88: return (R.choice(BR1), z(), R.randrange(n))
    if x < .92: return (R.choice(['j', 'jal']), R.randrange(n))
    if x < .94: return ('jr', R.choice([31, 31, 31, z()]))
    if x < .945: return ('jalr', r(), 31)
    if x < .97: return ('out', z())
    if x < .98: return ('halt',)
    return ('release', frozenset(R.sample([8, 9, 10, 11, 12, 31, 32, 33], R.randrange(1, 3))))

def accepted(n=None):
    """(program, certificate lists): the marks are proposed, then some forwards
    are dropped, some targets added; create masks may be larger than needed."""
    while True:
        n = n or R.choice([3, 5, 8, 12, 20, 30])
        pre = [('lui', 16, 0x1001), ('lui', 17, 0x1000), ('addiu', 8, 0, R.randrange(1, 6))]
        if R.random() < .5: pre += [('lui', 31, 0x40), ('ori', 31, 31, 4 * R.randrange(n))]
        ops = pre + [rand_op(n) for _ in range(n - len(pre) - 1)] + [R.choice([('halt',), ('j', 0)])]
        n = len(ops)
        code = []
        for op in ops:
            s = None
            if op[0] in ('jr', 'jalr'): s = 's'
            elif op[0] in BR1 + BR2: s = R.choice([None, None, 's', 'st', 'sn'])
            elif op[0] != 'halt' and R.random() < .15: s = 's'
            code.append((op, False, s))
        p = Prog(); p.code = code; p.data = bytes(R.randrange(256) for _ in range(R.choice([0, 0, 4, 9, 16]))); p.fixed = bytes(R.randrange(256) for _ in range(R.choice([0, 0, 4, 9, 16])))
        p.start = R.choice([0, 0, 0, R.randrange(n)])
        entries, todo, ex = [], [p.start], {}
        while todo:
            e = todo.pop()
            if e in ex: continue
            entries.append(e)
            mem = members(p, e)
            # no inner edge may fall off
            ex[e] = sorted({x for i in mem for x in exits(p, i)})
            todo += ex[e]
            if any(op[0] == 'jr' for i in mem for op in [p.code[i][0]]) and R.random() < .5: todo.append(R.randrange(n))
        if any(e >= n for e in entries) or any(j >= n for e in entries for i in members(p, e) for j in inner(p, i)): continue
        if any(len(ex[e]) > 12 for e in entries): continue
        R.shuffle(entries)
        p.tasks = []
        for k, e in enumerate(entries):
            tg = list(ex[e]) + [R.choice(entries) for _ in range(R.choice([0, 0, 1, 3]))]
            R.shuffle(tg)
            p.tasks.append(('T%d' % k, e, frozenset(), tg))
        q = propose(p)
        for k, t in enumerate(q.tasks):
            extra = frozenset(x for x in [8, 9, 10, 31, 33] if R.random() < .1)
            q.tasks[k] = (t[0], t[1], t[2] | extra, t[3])
        q.code = [(op, f and R.random() < .85, s) for op, f, s in q.code]
        # a release may be wrong; turn it into a nop then
        mask, succ = least(q)
        q.code = [(('sll', 0, 0, 0), False, s) if op[0] == 'release' and op[1] & set().union(*[mask[j] for j in succ[i]]) else (op, f, s) for i, (op, f, s) in enumerate(q.code)]
        lists = certify(q)
        if verdict(q, lists): continue
        try: build(q)
        except Fault: continue
        return q, lists

def events_for(m, steps, wild=.1):
    """A random script on machine m (which it changes): [(event, text)]"""
    out = []
    names = [t[0] for t in m.p.tasks]
    def text(e):
        if e[0] == 'assign': return 'assign ' + names[e[1]]
        if e[0] in ('transfer', 'drain'): return '%s %d $%d' % e
        return ' '.join(map(str, e))
    for _ in range(steps):
        k = R.randrange(m.units + (1 if R.random() < wild else 0)) if not m.queue or R.random() < wild else R.randrange(len(m.queue))
        x = R.random()
        if R.random() < .25 and m.head_event(): e = m.head_event()
        elif x < .2: 
            tg = m.targets(m.queue[-1]) if m.queue else [m.next]
            e = ('assign', m.entry[R.choice(tg)]) if tg and R.random() > wild else ('assign', R.randrange(len(names)))
        elif x < .65: e = ('exec', k)
        elif x < .80:
            e = ('transfer', k, R.choice([8, 9, 10, 11, 12, 16, 17, 31, 32, 33, 0]))
            if m.queue and k < len(m.queue) and k and R.random() < .8:
                c = [r for r in range(1, 34) if r not in m.queue[k].arrived and m.passes(m.queue[k - 1], r) is not None]
                if c: e = ('transfer', k, R.choice(c))
        elif x < .88:
            e = ('drain', k, R.randrange(34))
            if m.queue and k < len(m.queue):
                c = sorted(m.create(m.queue[k]))
                if c: e = ('drain', k, R.choice(c))
        elif x < .92: e = ('squash', k)
        elif x < .96: e = ('retire',)
        elif x < .97: e = ('fault',) if R.random() < .3 else ('retire',)
        else: e = ('drop', k)
        try: m.apply(e)
        except Refuse: pass
        out.append(text(e))
    return out
