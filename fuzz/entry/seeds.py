"""Writes the cases that a fuzzer begins with, and its dictionary: seeds.py FOLDER COUNT SEED."""
import pathlib, sys
sys.path.insert(0, str(pathlib.Path(__file__).resolve().parent.parent))
from accepted import *
from corners import corners
from programs import TOKS
lat = lambda s: s if isinstance(s, bytes) else s.encode('latin-1')
def case(job, options, *texts): return bytes([job, options]) + b'%%\n'.join(t if t.endswith(b'\n') or k == len(texts) - 1 else t + b'\n' for k, t in enumerate(map(lat, texts)))
WORDS = ['explain\n--certificate\nc\np', 'explain\n--certificate=c\n--format=sarif\np', 'explain\n--certificate\n-\np', 'explain\n--certificate\nc\np\np', 'explain\np\np', 'explain\np\nc\ns', 'explain\n--format=sarif\np\ns', 'check\n--least\np\np\nmissing', 'check\n--least\n-\np\n-', 'annotate\n--report\np', 'annotate\n--report\n--emit=keep\np', 'run\n--least\n--schedule=steps\n--progress\n--emit\ntrace\np', 'curve\n--progress\n--least\np', 'curve\n--emit=svg\n--units=3\n--budget\n60\n--least\np', 'curve\n--emit\ntable\np\nc', 'run\n--schedule=steps\n--emit=json\n--units=3\n--budget=400\n--least\np', 'replay\n--emit=json\np\nc\ns', 'curve\np\nc', 'curve\n--least\np', 'curve\n--units\n3\n--budget=60\n--predict\nlast\np\nc', 'curve\n--least\np\nc', 'curve\np', 'curve\n--workers\n2\np\nc', 'explain\n--no-warnings\np', 'explain\n--format\nsarif\np', 'explain\n--format=sarif\np\nc', 'explain\n--format\ntext\n--no-warnings\n-\nc', 'explain\n--format\nxml\np', 'explain\n--no-warnings=1\np', 'annotate\n--emit\nmarks\np', 'annotate\n--emit=marks\n-', 'run\n--least\n--emit\ntrace\n--workers\n1\np', 'run\n--schedule=steps\n--emit=trace\n--units=3\np\nc', 'replay\n--emit\ntrace\np\nc\ns', 'replay\n--least\n--emit=trace\n--units=2\np\ns', 'replay\n--emit\nreport\np\nc\ns', 'curve\n--emit\ntrace\np\nc', 'help\ncurve', 'seq\np', 'seq\n--budget\n17\np', 'seq\n--budget=1000000\np', 'print\np', 'print\n--\np', 'explain\np', 'explain\n--\np', 'explain\n--help', 'explain\np\nc', 'explain\n-', 'explain\nc\np', 'check\n--least\np', 'check\np\n-', 'check\n--least\n--workers=3\n-', 'check\n--least\np\nc', 'check\np', 'check\n-\n-', 'run\n--least\np', 'run\n--least\n--schedule\nsteps\np', 'run\n--schedule=steps\n--units=16\n--emit=svg\np\nc', 'run\n--schedule=steps\n--emit=summary\n--predict=3,1,2,0,15\n--least\np', 'run\n--schedule\nsteps\n--emit\nscript\n--budget\n60\np\nc', 'run\n--schedule\nstep\np\nc', 'run\n--schedule=threads\n--workers=2\np\nc', 'run\n--units=3\n--workers=1\n--emit=svg\np\nc', 'replay\n--least\np\ns', 'replay\n--least\n--emit=svg\np\ns', 'replay\n--emit\nsvg\n--units\n2\np\nc\ns', 'replay\n--least\np\nc\ns', 'replay\np\ns', '-V', 'run\n--least=1\np', 'annotate\n-', 'annotate\n--emit\ntext\np', 'annotate\np\n--emit=cert', 'annotate\n--emit\nkeep\np', 'check\np\nc', 'check\n--workers\n16\np\nc', 'replay\n--units\n2\np\nc\ns', 'replay\np\nc\ns\n--emit\nsummary', 'run\n--units\n1\n--emit=summary\np\nc', 'run\np\nc\n--units=3\n--workers=2\n--predict=1,0\n--emit=script', 'run\n--units\n4\n--budget\n100\n--predict\nlast\np\nc', 'help', 'help\nrun', '--help', '-h', 'run\n-h', 'help\nhelp', 'seq\n--help', 'seq\nq', '--version', 'seq\n-x\np', 'seq\n--budget\n0\np', 'seq\n--budget\n1000001\np', 'run\n--predict\n16\np\nc', 'seq\np\np', 'se\np', 'check\n--worker\n2\np\nc', '', 'run\n--units\n\np\nc', 'replay\n--units=-1\np\nc\ns', 'seq\n--\n--budget', 'seq\n--budget\n3\n--budget\n4\np', 'seq\n\xff\xfe', 'seq\n' + 'x' * 3000]
def cases(count, seed):
    R.seed(seed)
    for w in WORDS:
        p, l = accepted(5); yield case(6, 0, w, print_program(p), cert_text(l, p, 2), '\n'.join(events_for(Machine(p, 4), 9)))
    some = corners(); R.shuffle(some)
    for t in some[:count // 4]: yield case(R.choice([1, 0, 2, 7, 13, 13, 14, 17, 18, 22]), R.randrange(256) & ~16, t)
    for _ in range(count):
        x = R.random()
        if x < .3: yield case(R.choice([0, 1, 2, 7, 12, 13, 13, 17, 18, 18, 22]), R.randrange(256) & ~16, program()); continue
        p, lists = accepted(R.choice([3, 5, 8, 12])); t = print_program(p)
        if x < .5: yield case(R.choice([7, 12, 14, 14, 16, 18, 21, 21, 22]), R.choice([R.randrange(256) & ~16, 128 | R.randrange(128)]), t); continue
        sp = 2 if any(m >> 32 for l in lists for _, m in l) or R.random() < .5 else 1
        c = cert_text(lists, p, sp)
        if x < .7:
            for _ in range(R.choice([0, 1, 2])):
                l = R.choice(lists)
                if l: i = R.randrange(len(l)); l[i] = (l[i][0], l[i][1] ^ 1 << R.randrange(34))
            if not any(m >> 32 for l in lists for _, m in l) or sp == 2: c = cert_text(lists, p, sp)
            yield case(R.choice([3, 8, 8, 16, 17, 22]), R.randrange(256) | 16, t, c); continue
        if x < .8: yield case(R.choice([5, 9, 9, 11, 16, 19, 19]), R.randrange(256), t, c); continue
        k = R.randrange(5); u = [1, 2, 3, 4, 16][k]
        yield case(R.choice([4, 10, 10, 12, 20, 20, 23]), k + 5 * R.randrange(51), t, c, '\n'.join(events_for(Machine(p, u), R.choice([5, 30, 60]))) + R.choice(['', '\n']))
def dictionary():
    words = set(TOKS) | set(THREE + SHIFTBY + SHIFTVAR + IMM + LOGIC + MULT + MOVEFROM + MOVETO + LOAD + STORE + BR2 + BR1)
    words |= {'lui', 'jal', 'move', 'cert 1\n', 'cert 2\n', 'task T0\n', ' 0000000000000000\n', ' 00000000\n', '%%\n', '!s\n', ' !f', ' !st\n', ' !sn\n', 'halt\n', 'create=', 'targets=', '.task A create=- targets=-\n', 'A: ', '.start A\n', '@1', '$hi', '$lo', '.space 65536\n', '--budget\n', '--units\n', '--workers\n', '--predict\n', '--emit\n', '--emit=', 'script\n', 'report\n', 'first\n', 'last\n', 'seq\n', 'run\n', 'check\n', 'replay\n', 'annotate\n', 'explain\n', 'summary\n', 'svg\n', 'trace\n', 'json\n', 'table\n', 'marks\n', 'curve\n', '--no-warnings\n', '--certificate\n', '--certificate=', '--report\n', '--progress\n', '--format\n', '--format=', 'sarif\n', 'text\n', 'answers\n', '--least\n', '--schedule\n', '--schedule=', 'steps\n', 'threads\n', '-\n', '-V\n', '--version\n', 'print\n', 'help\n', '--help\n', '-h\n', '--\n', '=', 'p\n', 'c\n', 's\n'}
    words |= {w + '\n' for w in ('assign T0', 'assign T1', 'exec 0', 'exec 1', 'transfer 1 $8', 'drain 0 $8', 'squash 0', 'retire', 'fault', 'drop 1')}
    return ''.join('"%s"\n' % ''.join(chr(b) if 32 <= b < 127 and b not in b'"\\' else '\\x%02x' % b for b in lat(w)) for w in sorted(words) if w)
if __name__ == '__main__':
    folder = pathlib.Path(sys.argv[1]); folder.mkdir(exist_ok=True)
    for k, data in enumerate(cases(int(sys.argv[2]), int(sys.argv[3]))): (folder / f'seed-{k:05}').write_bytes(data)
    (folder.parent / 'dictionary').write_text(dictionary())
