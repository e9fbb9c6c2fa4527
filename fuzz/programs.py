"""Random program texts: valid ones in many spellings, and broken ones."""
import random, re
from model import *
R = random.Random()
REGSPELL = {}
for w, n in REGNAMES.items(): REGSPELL.setdefault(n, []).append('$' + w)

def reg(r, hilo=False): return R.choice(REGSPELL[r]) if R.random() < .5 else '$%d' % r
POOL = [0, 1, 2, 8, 9, 10, 11, 12, 16, 29, 31]
def g(): return R.choice(POOL) if R.random() < .9 else R.randrange(32)
def num(v):
    x = R.random()
    if x < .6: return str(v)
    if x < .9:
        h = '%x' % abs(v); h = ''.join(R.choice((c, c.upper())) for c in h)
        return ('-' if v < 0 else '') + '0x' + R.choice(('', '', '0', '000')) + h
    return ('-' if v < 0 else '') + '0' * R.randrange(3) + str(abs(v))
def corner16(): return R.choice([0, 1, -1, 32767, -32768, 4, 8, -4, R.randrange(-32768, 32768)])
def corneru(): return R.choice([0, 1, 65535, 32768, 32767, R.randrange(65536)])
def corner32(): return R.choice([0, 1, -1, 32767, 32768, 65535, 65536, -32768, -32769, 2147483647, -2147483648, 4294967295, 0x80000000, 0x10010000, 0x1001fffc, 0x10000000, 0x1000fffe, 0x0ffffffc, 0x10020000, 0x400000, R.randrange(-2**31, 2**32)])

class Gen:
    def __init__(self, size=None, annotated=False):
        self.n = size or R.choice([1, 2, 3, 5, 8, 13, 20, 40])
        self.annotated = annotated
        self.labels, self.data_labels = [], []
    def place(self, back=.3):
        if self.codelabels and R.random() < .8: return R.choice(self.codelabels)
        return '@' + '0' * R.choice([0, 0, 0, 1, 2]) + str(R.choice([R.randrange(self.n + 2), R.randrange(self.n + 2), 4096 if R.random() < .1 else 0]))
    def ins(self):
        x = R.random()
        o = lambda *a: a
        sep = lambda: R.choice([',', ', ', ' , ', ',\t'])
        def j(m, *ops): return m + R.choice([' ', '  ', '\t']) + sep().join(ops)
        if x < .22: return j(R.choice(THREE), reg(g()), reg(g()), reg(g()))
        if x < .28: return j(R.choice(SHIFTBY), reg(g()), reg(g()), num(R.choice([0, 1, 31, R.randrange(32)])))
        if x < .33: return j(R.choice(SHIFTVAR), reg(g()), reg(g()), reg(g()))
        if x < .43: return j(R.choice(IMM), reg(g()), reg(g()), num(corner16()))
        if x < .48: return j(R.choice(LOGIC), reg(g()), reg(g()), num(corneru()))
        if x < .50: return j('lui', reg(g()), num(R.choice([0x1001, 0x1000, 0x40, corneru()])))
        if x < .53: return j(R.choice(MULT), reg(g()), reg(g()))
        if x < .56: return j(R.choice(MOVEFROM + MOVETO), reg(g()))
        if x < .64: return '%s %s%s%s%s(%s%s%s)' % (R.choice(LOAD), reg(g()), sep(), num(R.choice([0, 0, 1, 2, 4, corner16()])), R.choice(['', ' ']), R.choice(['', ' ']), reg(g()), R.choice(['', ' ']))
        if x < .70: return '%s %s%s%s(%s)' % (R.choice(STORE), reg(g()), sep(), num(R.choice([0, 0, 1, 2, 4, corner16()])), reg(g()))
        if x < .75: return j(R.choice(BR2), reg(g()), reg(g()), self.place())
        if x < .79: return j(R.choice(BR1), reg(g()), self.place())
        if x < .81: return j(R.choice(['j', 'jal']), self.place())
        if x < .82: return j('jr', reg(g()))
        if x < .83: return R.choice([j('jalr', reg(g())), j('jalr', reg(g()), reg(g()))])
        if x < .87: return j('out', reg(g()))
        if x < .885: return 'release ' + sep().join(reg(R.choice([8, 9, 10, 31, 32, 33, 1, 2])) for _ in range(R.choice([1, 1, 2, 3])))
        if x < .895: return 'halt'
        if x < .91: return 'nop'
        if x < .93: return j('move', reg(g()), reg(g()))
        if x < .975: return j('li', reg(g()), num(corner32()))
        if self.alllabels: return j('la', reg(g()), R.choice(self.alllabels))
        return j('li', reg(g()), num(corner32()))
    def marks(self, ins):
        m = ins.split()[0]
        ms = []
        wrong = R.random() < .03
        dest = m in THREE + SHIFTBY + SHIFTVAR + IMM + LOGIC + MULT + MOVEFROM + MOVETO + LOAD + ['lui', 'jal', 'jalr', 'move', 'li', 'la']
        zero = re.match(r'\w+\s+\$(0|zero)\b', ins) and m not in MULT + MOVETO + ['jal']
        if m == 'jalr' and ins.count('$') == 1: zero = False
        if R.random() < .25 and (dest and not zero or wrong): ms.append('!f')
        if m in ('jr', 'jalr'):
            if R.random() < .9: ms.append('!s')
        elif m in BR1 + BR2:
            if R.random() < .4: ms.append(R.choice(['!s', '!st', '!sn']))
        elif m != 'halt' or wrong:
            if R.random() < .12: ms.append(R.choice(['!s', '!st', '!sn']) if wrong else '!s')
        R.shuffle(ms)
        return R.choice([' ', '', '  ']).join([''] + ms) if ms else ''
    def text(self):
        names = ['A', 'B', 'C', 'D', 'loop_1', '_x', 'j', 'create', 'targets', 'add', 'T' * 32, 'Zz9', 'halt', 'f', 'L' + 'o' * 20]
        R.shuffle(names)
        ncode = R.randrange(1, min(6, self.n + 1) + 1)
        self.codelabels = names[:ncode]
        ndata = R.randrange(0, 3)
        self.data = names[ncode:ncode + ndata]
        self.alllabels = self.codelabels + self.data
        # positions of code labels
        at = {}
        cut = 0 if R.random() < .9 else R.randrange(self.n + 1)
        for k, l in enumerate(self.codelabels): at.setdefault(cut if k == 0 else R.randrange(self.n + (1 if R.random() < .05 else 0)), []).append(l)
        tasks = []
        used = set()
        for pos, ls in at.items():
            if R.random() < .7 or self.codelabels[0] in ls:
                tasks.append(self.codelabels[0] if self.codelabels[0] in ls else R.choice(ls))
        R.shuffle(tasks)
        head = []
        if R.random() < .5: head.append('.start ' + (self.codelabels[0] if R.random() < .95 else R.choice(self.codelabels)))
        for t in tasks:
            rs = [reg(R.choice([8, 9, 10, 11, 12, 16, 31, 32, 33, 1, 2])) for _ in range(R.choice([0, 1, 2, 4]))]
            ts = [R.choice(tasks) if R.random() < .9 else self.place() for _ in range(R.choice([0, 1, 2, 2, 3]))]
            c = R.choice([',', ', '])
            e = R.choice(['=', '=', ' = '])
            head.append('.task %s%screate%s%s targets%s%s' % (t, R.choice([' ', '\t']), e, c.join(rs) or '-', e, c.join(ts) or '-'))
        body = []
        for i in range(self.n):
            pre = ''
            for l in at.get(i, []):
                if R.random() < .5: body.append(l + R.choice([':', ' :', ': ']))
                else: pre += l + R.choice([': ', ':', ' : '])
            s = self.ins()
            body.append(pre + R.choice(['', '  ', '\t']) + s + self.marks(s))
        for i in at:
            if i >= self.n: body += [l + ':' for l in at[i]]
        if R.random() < .6: body.append('halt')
        # data lines
        for l in self.data:
            sec = R.choice(['.data', '.rodata'])
            blk = [sec]
            lab = l + ':'
            for _ in range(R.randrange(3)):
                blk.append(R.choice(['.word ' + R.choice([',', ', ']).join(num(corner32()) for _ in range(R.randrange(1, 5))),
                                     '.byte ' + ','.join(num(R.choice([0, 255, -128, 127, R.randrange(-128, 256)])) for _ in range(R.randrange(1, 6))),
                                     '.space ' + num(R.choice([0, 1, 2, 3, 4, 7, 100]))]))
            p = R.randrange(1, len(blk) + 1)
            if p < len(blk) and R.random() < .5: blk[p] = lab + ' ' + blk[p]
            else: blk.insert(p, lab)
            blk.append('.text')
            p = R.randrange(len(body) + 1)
            body[p:p] = blk
        lines = head + body if R.random() < .8 else body + head
        if R.random() < .1:
            lines.sort(key=lambda s: R.random() if s.startswith('.task') else 0)
        out = []
        nl = R.choice(['\n', '\n', '\r\n'])
        for l in lines:
            if R.random() < .05: out.append(R.choice(['', '   ', '# a comment !! $99 @', '\t#']) + nl)
            if R.random() < .08: l += R.choice([' # note', '#x', '   ', '\t'])
            out.append(l + (nl if R.random() < .98 else '\n'))
        t = ''.join(out)
        if R.random() < .15: t = t.rstrip('\n')
        return t

TOKS = ['A', 'B', 'zz', 'addiu', 'lw', 'j', '$8', '$0', '$hi', '$33', '$zero', '1', '-1', '0x10', '99999', '-', ',', ',', '(', ')', ':', '=', '@0', '@4096', '@4097', '!f', '!s', '!st', '!sn', '!q', '.word', '.data', '.text', '.rodata',
        '.start', '.task', '.byte', '.space', '.foo', 'create', 'targets', 'release', 'halt', 'nop', 'li', 'la', 'jalr', 'jr', 'out', 'beq', 'mult', 'mfhi', ' ', ' ', ' ', '\t', '#', '0x', '0x1G', '1a', '1_', '@', '@-1', '@0x1', '$8x', '$34', '$08', '$', '.', '!',
        '_' * 33, 'n' * 32, '--5', '4294967296', '-2147483649', '65536', '65535', '32768', '-32769', '32', '31', '256', '-129', '0' * 40 + '1', '9' * 40, '0x' + 'f' * 30, '-0', '- 5', '\r', '\x7f', '\xc3', '\x00', '\x0b', '*', '[', '%', '$T0', '$t10', '$a4', '$s8', '$fp', '0X1F', '!S', '.Word', '.w', '!f!s', '0b1', "'", '"', ';', '/', '<', '+', '@1_', '@00', '@9999999999999999999999']
def broken(t):
    for _ in range(R.choice([1, 1, 1, 2, 3])):
        x = R.random()
        if x < .35 and t:
            ms = list(re.finditer(r'[A-Za-z_$@.!\-0-9]+|[,():=#]|[ \t]+|\n', t))
            if not ms: continue
            m = R.choice(ms)
            t = t[:m.start()] + R.choice([R.choice(TOKS), '', R.choice(TOKS) + ' ']) + t[m.end():]
        elif x < .55:
            p = R.randrange(len(t) + 1); t = t[:p] + R.choice(TOKS) + t[p:]
        elif x < .7 and t:
            p = R.randrange(len(t)); t = t[:p] + t[p + 1:]
        elif x < .8:
            ls = t.split('\n'); p = R.randrange(len(ls)); q = R.randrange(len(ls) + 1)
            y = R.random()
            if y < .4: del ls[p]
            elif y < .7: ls.insert(q, ls[p])
            else: a = ls.pop(p); ls.insert(min(q, len(ls)), a)
            t = '\n'.join(ls)
        elif x < .9:
            ls = t.split('\n'); ls.insert(R.randrange(len(ls) + 1), R.choice(['', 'A: ', 'q: ']) + R.choice(['', ' ']).join(R.choice(TOKS) for _ in range(R.randrange(1, 7)))); t = '\n'.join(ls)
        else:
            rep = R.choice([('$8', '$hi'), (',', ' '), ('!s', '!st'), (' ', ''), ('!f', '!f !f'), ('1', '99999'), ('.text', ''), ('A', 'Q'), ('\n', '\r\n'), ('\n', '\r\r\n'), ('addiu', 'addi'), ('.data', '.rodata'), ('targets=', 'targets=A,B,C,D,A,B,C,D,A,B,C,D,A,B,C,D,'), ('create=', 'create=$0,')])
            if rep[0] in t:
                i = R.choice([m.start() for m in re.finditer(re.escape(rep[0]), t)])
                t = t[:i] + rep[1] + t[i + len(rep[0]):]
    return t

def program():
    t = Gen().text()
    return broken(t) if R.random() < .5 else t
