#!/usr/bin/env python3
"""Makes the page: one HTML file with the module, the examples, the exercises, the style and the script inside.

    bundle.py MODULE.wasm PAGE.html [--unproved]

With --unproved the page says that the module was compiled from the program without its proof.
"""
import base64, gzip, json, pathlib, re, sys

HERE = pathlib.Path(__file__).resolve().parent
EXAMPLES = HERE.parent / 'examples'
IMPORT = re.compile(r"^import \{[^}]*\} from '\./([\w]+\.js)';\n", re.M)
NAME = re.compile(r'^(?:export )?(?:async )?(?:function|class|const|let) (\w+)', re.M)
MOST = 3_000_000
# The examples of the page, in the order of its list, and what each is.
CHOSEN = {
    'count/program.s': 'a loop, a task for each iteration',
    'tutorial/plain.s': 'a loop before it is cut into tasks',
    'tutorial/cut.s': 'one mark is wrong',
    'tutorial/late.s': 'right marks, nothing forwarded',
    'tutorial/early.s': 'one register forwarded',
    'tutorial/marked.s': 'all registers forwarded',
    'tutorial/branch.s': 'a wrong prediction',
    'diamond/program.s': 'two paths that join again',
    'pair/program.s': 'two tasks that need nothing of each other',
    'release/program.s': 'a path that releases',
    'product/program.s': 'HI and LO',
    'read-only/program.s': 'a load that runs ahead',
    'wrong-path-load/program.s': 'a load that must not trap',
    'wrong-path-spin/program.s': 'a loop on a wrong path',
    'unlisted-jump/program.s': 'a jump to an unlisted place',
    'spin/program.s': 'a task that never ends',
    'five-findings/program.s': 'five wrong marks',
    'warnings/program.s': 'marks that cost speed',
    'from-c/reduction/masks.s': 'a sum from C, nothing forwarded',
    'from-c/reduction/forward.s': 'a sum from C, forwarded',
    'from-c/sort/program.s': 'a sort from C',
    'from-c/search/program.s': 'a search from C',
}


def ordered(root):
    """The modules that a module needs, and then itself, each once."""
    seen, order = set(), []

    def visit(name):
        if name in seen:
            return
        seen.add(name)
        text = (HERE / 'source' / name).read_text()
        for other in IMPORT.findall(text):
            visit(other)
        order.append((name, text))

    visit(root)
    return order


def bundled(root):
    """One script of all modules. Names at the top of two modules must differ, since they share one scope."""
    owners, parts = {}, []
    for name, text in ordered(root):
        for it in NAME.findall(text):
            if it in owners:
                sys.exit(f'bundle.py: {it} is a name of {owners[it]} and of {name}')
            owners[it] = name
        parts.append(re.sub(r'^export ', '', IMPORT.sub('', text), flags=re.M).strip())
    return '\n\n'.join(parts)


def example(path, title):
    folder = (EXAMPLES / path).parent
    scripts = {}
    for file in sorted(folder.glob('*.events')):
        if folder.name != 'tutorial' or file.stem == pathlib.Path(path).stem:
            scripts[file.name] = file.read_text()
    return {'title': title, 'text': (EXAMPLES / path).read_text(), 'scripts': scripts}


def check_used(*roots):
    left = {path.name for path in (HERE / 'source').glob('*.js')} - {name for root in roots for name, _ in ordered(root)}
    if left:
        sys.exit(f'bundle.py: no module needs {sorted(left)}')


def embedded(script, module):
    examples = {path.removesuffix('/program.s').removesuffix('.s'): example(path, title) for path, title in CHOSEN.items()}
    packed = base64.b64encode(gzip.compress(module, 9, mtime=0)).decode()
    script = script.replace('{/* the examples */}', json.dumps(examples))
    script = script.replace('[/* the exercises */]', json.dumps(json.loads((HERE / 'exercises.json').read_text())))
    script = script.replace("'/* the worker */'", json.dumps(bundled('worker.js')))
    return script.replace('/* the module */', packed).replace('</script', '<\\/script')


def footer(text, is_proved):
    """The page with what its last line must say of the module."""
    said = 'compiled from the proved program'
    if text.count(said) != 1:
        sys.exit(f'bundle.py: page.html must say once: {said}')
    return text if is_proved else text.replace(said, '<b>compiled from the program without its proof</b>')


def main(module, page, *words):
    check_used('main.js', 'worker.js')
    script = embedded(bundled('main.js'), pathlib.Path(module).read_bytes())
    text = footer((HERE / 'page.html').read_text(), '--unproved' not in words)
    text = text.replace('/* the style */', (HERE / 'style.css').read_text().strip()).replace('/* the script */', script)
    if len(text.encode()) > MOST:
        sys.exit(f'bundle.py: the page has {len(text.encode())} bytes, more than {MOST}')
    pathlib.Path(page).write_text(text)
    print(f'{page}: {len(text.encode())} bytes')


if __name__ == '__main__':
    main(*sys.argv[1:])
