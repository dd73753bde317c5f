#!/usr/bin/env python3
"""Turns recorded vectors (the folder VECTORS_IN) into antt examples over the definitions of specs/, and reads what the check says of them.

  definition_vectors.py gen  MODE [--from A] [--to B] [--per N] [--only I,J,..]   write the crates v0, v1, .. into vectors-check
  definition_vectors.py ask  MODE --only I,J,..                                     write crate vask, whose refused examples show what the definitions give
  definition_vectors.py read MODE LOG..                                             list the examples that failed in the logs of `rt check` in vK
  definition_vectors.py told MODE LOG                                               show what they say, beside the expected
  definition_vectors.py strip MODE                                                take out of the copied crates all but the definitions under test

MODE: program (printed lines), library (outcome and four buffers), reader (program sheets: refusal number or 0; needs crate sheet only),
      readlib (the same for the library's sheets and lent lengths).
Vectors are numbered from 0 in the order of the file.
"""
import argparse, os, re, shutil, sys

SHARED = os.environ.get('VECTORS_IN', 'vectors')
OUT = os.environ.get('VECTORS_OUT', 'vectors-check')
PROGRAM_LENT = (65536, 4096, 8192, 1024)


class Vector:
    def __init__(self, number, sheet, lent, lines=None, outcome=None, buffers=None):
        self.number, self.sheet, self.lent = number, sheet, lent
        self.lines, self.outcome, self.buffers = lines, outcome, buffers


def program():
    out = []
    for i, block in enumerate(open(SHARED + '/program.txt').read().rstrip('\n').split('\n\n')):
        ls = block.split('\n')
        assert ls[0].startswith('sheet'), ls[0]
        assert all(l.startswith('  ') for l in ls[1:]), block
        out.append(Vector(i, bytes.fromhex(ls[0][5:].strip()), PROGRAM_LENT, lines=[l[2:] for l in ls[1:]]))
    return out


def library():
    out = []
    for i, block in enumerate(open(SHARED + '/library.txt').read().rstrip('\n').split('\n\n')):
        ls = block.split('\n')
        lent = tuple(map(int, re.fullmatch(r'lent records (\d+) places (\d+) rows (\d+) answers (\d+)', ls[0]).groups()))
        assert ls[1].startswith('sheet')
        f = {}
        for l in ls[2:]:
            k, _, v = l.strip().partition(' ')
            f[k] = v
        b = {'records': list(bytes.fromhex(f['records']))}
        for k in ('places', 'rows', 'answers'):
            b[k] = list(map(int, f[k].split()))
        for k, n in zip(('records', 'places', 'rows', 'answers'), lent):
            assert len(b[k]) == n, (i, k)
        out.append(Vector(i, bytes.fromhex(ls[1][5:].strip()), lent, outcome=int(f['outcome']), buffers=b))
    return out


def refusal_of(v):
    if v.outcome is not None:
        return v.outcome
    if len(v.lines) == 1 and re.fullmatch(r'!\d+', v.lines[0]):
        return int(v.lines[0][1:])
    return 0


def vectors(mode):
    return program() if mode in ('program', 'reader') else library()


# ---------------------------------------------------------------- text of antt
def quoted(s):
    return '"' + s.replace('\\', '\\\\').replace('"', '\\"').replace('\n', '\\n') + '"'


def numbers(ns):
    return '(' + ''.join(f'{n} ∷ ' for n in ns) + '[])' if ns else '[]'


def lines_text(v):
    return ''.join(l + '\n' for l in v.lines)


HEAD = '''-- Made by tools/definition_vectors.py: vectors as examples.
use Rattle.std.specs.Prelude.{ℕ, zero, suc, ◌+◌, ◌*◌, ◌-◌, ◌≡◌, refl, Bool, true, false, cond, ◌&&◌, List, [], ◌∷◌, eqb, ltb}
use Prim.Native.Char.{code}
use Prim.Native.String.{String, [] as empty, ◌∷◌ as ◌before◌}
use Rattle.sheet.specs.Sheet.{%(uses_sheet)s}
%(uses)s

abbrev eq_list : List ℕ → List ℕ → Bool
eq_list [] [] = true
eq_list [] (b ∷ bs) = false
eq_list (a ∷ as') [] = false
eq_list (a ∷ as') (b ∷ bs) = eqb a b && eq_list as' bs

abbrev bytes_of_text : String → List ℕ
bytes_of_text empty = []
bytes_of_text (c before s) = code c ∷ bytes_of_text s

-- numbers as one number, in a base and behind a leading 1: a refused `refl` then shows them
abbrev packed : ℕ → List ℕ → ℕ → ℕ
packed base [] n = n
packed base (b ∷ bs) n = packed base bs (n * base + b)

-- (a λ, since antt computes every argument of a function, also those of `cond`)
abbrev by_bool : Bool → (ℕ → List ℕ) → (ℕ → List ℕ) → List ℕ
by_bool true f g = f 0
by_bool false f g = g 0

-- the line k of a text
abbrev line_of : List ℕ → ℕ → List ℕ
line_of [] k = []
line_of (b ∷ bs) zero = by_bool (eqb b 10) (λ u. []) (λ u. b ∷ line_of bs zero)
line_of (b ∷ bs) (suc k) = by_bool (eqb b 10) (λ u. line_of bs k) (λ u. line_of bs (suc k))

abbrev nibble : ℕ → ℕ
nibble c = cond (ltb c 58) (c - 48) (c - 87)

abbrev hex : String → List ℕ
hex empty = []
hex (a before empty) = []
hex (a before (b before s)) = (nibble (code a) * 16 + nibble (code b)) ∷ hex s

abbrev lent : ℕ → ℕ → ℕ → ℕ → Lengths
lent a b c d = record { records = a; places = b; rows = c; answers = d }
%(more)s
'''

READER_USES = '''use Rattle.sheet.specs.Sheet.Reading.{read_refused, got}
use Rattle.reader.specs.Reader.{refusal_number}'''
READER_MORE = '''
abbrev outcome_of : Reading Sheet → ℕ
outcome_of (read_refused e) = refusal_number e
outcome_of (got a x) = 0
'''
PROGRAM_USES = '''use Rattle.judge_rules.specs.Judged.{judged}
use Rattle.printout.specs.Printed.{printed}'''
LIBRARY_USES = '''use Rattle.judge_rules.specs.Judged.{Judgement, outcome_number, judged, records_after, places_after, rows_after, answers_after}'''
LIBRARY_MORE = '''
-- the outcome and the four buffers at exit, one after the other; the lengths are those lent
abbrev exits : Lengths → Judgement → List ℕ → List ℕ → List ℕ → List ℕ → ℕ → Bool
unfolding records_after places_after rows_after answers_after
exits l j a b c d n =
    eqb (outcome_number j) n && (eq_list (records_after l j) a && (eq_list (places_after l j) b && (eq_list (rows_after l j) c && eq_list (answers_after l j) d)))
'''


def head(mode):
    if mode in ('reader', 'readlib'):
        d = dict(uses=READER_USES, more=READER_MORE, uses_sheet='Lengths, Sheet, Reading, read_sheet')
    elif mode == 'program':
        d = dict(uses=PROGRAM_USES, more='', uses_sheet='Lengths')
    else:
        d = dict(uses=LIBRARY_USES, more=LIBRARY_MORE, uses_sheet='Lengths')
    return HEAD % d


def sheet_term(v):
    return 'hex ' + quoted(v.sheet.hex()) if BYTES == 'hex' else numbers(list(v.sheet))


def lent_term(v):
    return '(lent %d %d %d %d)' % v.lent


UNFOLD = {'reader': 'read_sheet', 'readlib': 'read_sheet', 'program': 'printed judged',
          'library': 'judged records_after places_after rows_after answers_after'}


def example(mode, v):
    n = f'e{v.number}'
    s, l = f'({sheet_term(v)})', lent_term(v)
    if mode in ('reader', 'readlib'):
        t = f'outcome_of (read_sheet {s} {l}) ≡ {refusal_of(v)}'
    elif mode == 'program':
        t = f'eq_list (printed (judged {s} {l})) (bytes_of_text {quoted(lines_text(v))}) ≡ true'
    else:
        b = ' '.join(numbers(v.buffers[k]) for k in ('records', 'places', 'rows', 'answers'))
        t = f'exits {l} (judged {s} {l}) {b} {v.outcome} ≡ true'
    return f'\n{n} : {t}\nunfolding {UNFOLD[mode]}\n{n} = refl\n'


def base(k):
    return 256 if k in ('lines', 'records', 'outcome') else 4294967296


def question(mode, v):
    n = f'e{v.number}'
    s, l = f'({sheet_term(v)})', lent_term(v)
    if mode in ('reader', 'readlib'):
        asks = [('outcome', f'outcome_of (read_sheet {s} {l}) ∷ []')]
    elif mode == 'program':
        asks = [('lines', f'printed (judged {s} {l})')]
    else:
        asks = [('outcome', f'outcome_number (judged {s} {l}) ∷ []')] + [(k, f'{k}_after {l} (judged {s} {l})') for k in ('records', 'places', 'rows', 'answers')]
    out = ''.join(f'\n{n}-{k} : packed {base(k)} ({t}) 1 ≡ 0\nunfolding {UNFOLD[mode]}\n{n}-{k} = refl\n' for k, t in asks)
    if mode == 'program':
        for j, line in enumerate(v.lines[:60]):
            t = f'line_of (printed (judged {s} {l})) {j}'
            m = f'{n}-text-{j}'
            out += f'\n{m} : packed 256 ({t}) 1 ≡ 0\nunfolding {UNFOLD[mode]}\n{m} = refl\n'
            m = f'{n}-line-{j}'
            out += f'\n{m} : eq_list ({t}) (bytes_of_text {quoted(line)}) ≡ true\nunfolding {UNFOLD[mode]}\n{m} = refl\n'
    elif mode == 'library':
        for k in ('records', 'places', 'rows', 'answers'):
            m = f'{n}-same-{k}'
            out += f'\n{m} : eq_list ({k}_after {l} (judged {s} {l})) {numbers(v.buffers[k])} ≡ true\nunfolding {UNFOLD[mode]}\n{m} = refl\n'
    return out


# ---------------------------------------------------------------- crates
def libraries():
    out = []
    for l in open(OUT + '/crates.txt'):
        l = l.split('#')[0].strip()
        if l:
            n = l.split(':')[0].strip()
            if not re.fullmatch(r'v(\d+|ask)', n):
                out.append(n)
    return out


def write_crate(name, body):
    d = f'{OUT}/crates/{name}'
    os.makedirs(d + '/src', exist_ok=True)
    os.makedirs(d + '/specs', exist_ok=True)
    open(d + '/src/lib.rt', 'w').write('// Vectors as examples.\n#![tactic(auto)]\n')
    open(d + '/specs/Lib.antt', 'w').write('pub mod Examples\n')
    open(d + '/specs/Examples.antt', 'w').write(body)


def list_crates(names):
    keep = [l.rstrip('\n') for l in open(OUT + '/crates.txt') if not re.match(r'v(\d+|ask)\s*:', l)]
    deps = ' '.join(libraries())
    open(OUT + '/crates.txt', 'w').write('\n'.join(keep + [f'{n}: {deps}' for n in names]) + '\n')


def clear():
    for n in os.listdir(OUT + '/crates'):
        if re.fullmatch(r'v(\d+|ask)', n):
            shutil.rmtree(f'{OUT}/crates/{n}')


def chosen(a):
    vs = vectors(a.mode)
    if a.only:
        want = set(map(int, a.only.split(',')))
        return [v for v in vs if v.number in want]
    return [v for v in vs if a.start <= v.number < (a.to if a.to is not None else len(vs))]


def gen(a):
    clear()
    vs = chosen(a)
    names = []
    for i in range(0, len(vs), a.per):
        names.append(f'v{i // a.per}')
        write_crate(names[-1], head(a.mode) + ''.join(example(a.mode, v) for v in vs[i:i + a.per]))
    list_crates(names)
    print(' '.join(names))


def ask(a):
    clear()
    vs = chosen(a)
    write_crate('vask', head(a.mode) + ''.join(question(a.mode, v) for v in vs))
    list_crates(['vask'])
    print('vask')


# ---------------------------------------------------------------- logs
def show(v):
    print(f'  sheet {v.sheet.hex()}')
    if v.outcome is not None:
        print('  lent %d %d %d %d' % v.lent)


def read(a):
    vs = {v.number: v for v in vectors(a.mode)}
    failed, odd, tested, unclear = set(), [], set(), {}
    for log in a.logs:
        name = re.sub(r'\.log$', '', os.path.basename(log))
        ex = open(f'{OUT}/crates/{name}/specs/Examples.antt').read()
        mine = set(map(int, re.findall(r'^e(\d+) :', ex, re.M)))
        tested |= mine
        text = open(log, errors='replace').read()
        bad = set()
        for m in re.finditer(r'error: `e(\d+)`: ', text):
            # a comparison that ended with other numbers, or with false, is a disagreement; anything else (stack, scope) is no verdict on the definitions
            said = ' '.join(re.split(r'\n\S*: error|\nlogic ', text[m.end():])[0].split())
            bad.add(int(m[1]))
            computed = re.search(r'computed as far as they go, the two types (?:are `Path (?:ℕ|Bool) (\w+) (\w+)` \(expected\) and `Path (?:ℕ|Bool) \1 \1` \(found\)|'
                                 r'differ only where one has `(\w+)` \(expected\) and the other has `(\w+)` \(found\))', said)
            sides = computed and {computed[1] or computed[3], computed[2] or computed[4]}
            differs = sides and len(sides) == 2 and (sides == {'true', 'false'} or all(x.isdigit() for x in sides))
            if not differs or 'deep recursion' in said:
                unclear[int(m[1])] = said[:600]
        bad &= mine
        failed |= bad
        own = text.split(f'\ncrate {name}: ')
        if len(own) != 2 or not bad and 'logic=proved functions=0' not in own[1] or bad and 'logic=proved' in own[1]:
            odd.append((name, text[-1500:]))
            tested -= mine
            failed -= mine
    for n, t in odd:
        print(f'== {n}: no verdict on its examples\n{t[:1500]}')
    for i in sorted(unclear)[:3]:
        print(f'e{i}: NO CLEAR VERDICT: {unclear[i]}')
    for i in sorted(failed):
        print(f'e{i} ' + ('gives no clear verdict' if i in unclear else 'disagrees'))
        show(vs[i])
        if a.mode == 'program':
            for l in vs[i].lines[:40]:
                print(f'  expected {l[:200]}')
        else:
            print(f'  expected outcome {refusal_of(vs[i])}')
    if odd:
        print('NOT EXAMINED: ' + ' '.join(n for n, _ in odd))
    print(f'{a.mode}: {len(tested) - len(failed)} agreed, {len(failed - set(unclear))} disagreed, {len(unclear)} without a clear verdict, of {len(tested)} examined')
    if failed:
        print('disagreed: ' + ','.join(map(str, sorted(failed))))
    open(f'{OUT}/failed-{a.mode}.txt', 'w').write(','.join(map(str, sorted(failed))))
    if failed or odd or not tested:
        sys.exit(1)


def unpacked(n, b):
    out = []
    while n > 1:
        out.append(n % b)
        n //= b
    return out[::-1]


def told(a):
    vs = {v.number: v for v in vectors(a.mode)}
    text = open(a.logs[0], errors='replace').read()
    if '\ncrate vask: ' not in text:
        print(f'what the definitions give is not known (a larger LIMIT, or fewer by MOST or --only): {text[-300:]}')
        return
    got, differs, texts = {}, {}, {}
    for part in re.split(r'(?=error: `e\d+-)', text)[1:]:
        m = re.match(r'error: `e(\d+)-([\w-]+)`', part)
        i, k = int(m[1]), m[2]
        part = ' '.join(part.split())
        if k.startswith(('line-', 'same-')):
            differs.setdefault(i, []).append(k)
            continue
        c = re.search(r'computed as far as they go, the two types (?:differ only where one has `0`[^`]*`(\d+)`|are `Path ℕ (\d+) 0`)', part)
        ns = unpacked(int(c[1] or c[2]), 256 if k.startswith('text-') else base(k)) if c else None
        (texts if k.startswith('text-') else got).setdefault(i, {})[k] = ns
    for i in sorted(set(got) | set(differs)):
        v = vs[i]
        print(f'== e{i}')
        show(v)
        for k, ns in got.get(i, {}).items():
            if a.mode == 'program':
                if ns is None:
                    for d in differs.get(i, []):
                        j = int(d.split('-')[1])
                        t = texts.get(i, {}).get(f'text-{j}')
                        x = '(too long to show)' if t is None else ''.join(map(chr, t))
                        print(f'  defined {x[:300]}\n  vector  {v.lines[j][:300]}')
                    if not differs.get(i):
                        print('  every line of the vector is there: the definitions give more lines, or another end')
                    continue
                gl = ''.join(map(chr, ns)).split('\n')
                gl, tail = gl[:-1], gl[-1]
                if tail:
                    gl.append(tail + ' (no newline)')
                for j in range(max(len(gl), len(v.lines))):
                    x = gl[j] if j < len(gl) else '(none)'
                    y = v.lines[j] if j < len(v.lines) else '(none)'
                    if x != y:
                        print(f'  defined {x[:300]}\n  vector  {y[:300]}')
            else:
                e = [refusal_of(v)] if k == 'outcome' else v.buffers[k]
                if ns is None and (k == 'outcome' or f'same-{k}' in differs.get(i, [])):
                    print(f'  {k} differs or is too long to show; vector {e}')
                elif ns is not None and ns != e:
                    print(f'  {k} defined {ns}\n  {k} vector  {e}')


# ---------------------------------------------------------------- definitions only
def types_of(s):
    """Of a source file, laid out by rt fmt, its structs and enums and the imports that these name."""
    head = re.search(r'^#!\[.*\]\n', s, re.M)
    items = re.findall(r'^(?:#\[[^\]\n]*\]\n)*(?:pub(?:\([^)\n]*\))? )?(?:struct|enum) [^\n{;]*(?:\([^\n]*\);|;|\{[^\n]*\}|\{\n(?:.*\n)*?\})\n', s, re.M)
    # a variant's own name is no import's
    words = set(re.findall(r'\w+', re.sub(r'//.*|^    [A-Z]\w*(?=[,( ])', '', ''.join(items), flags=re.M)))
    uses = []
    for path, names in re.findall(r'^use ([\w:]+?)(?:::(\w+|\{[^}]*\}));\n', s, re.M):
        uses += [f'use {path}::{n};\n' for n in re.findall(r'\w+', names) if n in words]
    return (head[0] if head else '') + '\n' + ''.join(uses) + '\n' + '\n'.join(items)


# where the definitions under test stand
ROOTS = {'reader': ['sheet.Sheet', 'reader.Reader'], 'library': ['judge_rules.Judged'], 'program': ['judge_rules.Judged', 'printout.Printed']}
ROOTS['readlib'] = ROOTS['reader']


def reached(mode):
    """The files of specs/ and proofs/ that the definitions under test import, and the types of the sources, by crate."""
    files, types = {}, {}
    todo = [(c, 'specs', m) for c, m in (r.split('.') for r in ROOTS[mode])]
    for c, _, _ in todo:
        types.setdefault(c, set())
    while todo:
        c, part, module = todo.pop()
        if not os.path.isdir(f'{OUT}/crates/{c}'):
            continue    # a library of the kit
        types.setdefault(c, set())
        path = module.split('.')
        if path[0] == 'declared':
            types[c].add('.'.join(path[1:]))
            continue
        # the path may go on into a type of the file
        while path and not os.path.exists(f'{OUT}/crates/{c}/{part}/{"/".join(path)}.antt'):
            path.pop()
        if not path:
            raise SystemExit(f'Rattle.{c}.{part}.{module}: no such file')
        file = f'{part}/{"/".join(path)}.antt'
        if file in files.setdefault(c, set()):
            continue
        files[c].add(file)
        todo += re.findall(r"^use Rattle\.(\w+)\.(specs|proofs)\.([\w.+'-]+?)\.\{", open(f'{OUT}/crates/{c}/{file}').read(), re.M)
    return files, types


def strip(a):
    files, types = reached(a.mode)
    lines = []
    for line in open(OUT + '/crates.txt'):
        n, _, deps = line.partition(':')
        if n.split()[:1] and n.split()[0] in types:
            lines.append(f'{n}:' + ''.join(f' {d}' for d in deps.split() if d in types) + '\n')
    open(OUT + '/crates.txt', 'w').writelines(lines)
    for n in os.listdir(OUT + '/crates'):
        d = f'{OUT}/crates/{n}'
        if n not in types:
            shutil.rmtree(d)
            continue
        for sub in os.listdir(d):
            if sub not in ('src', 'specs', 'proofs'):
                shutil.rmtree(f'{d}/{sub}') if os.path.isdir(f'{d}/{sub}') else os.remove(f'{d}/{sub}')
        for part in ('specs', 'proofs'):
            own = sorted(f for f in files.get(n, ()) if f.startswith(part + '/'))
            texts = {f: open(f'{d}/{f}').read() for f in own}
            shutil.rmtree(f'{d}/{part}', ignore_errors=True)
            for f, t in texts.items():
                os.makedirs(os.path.dirname(f'{d}/{f}'), exist_ok=True)
                open(f'{d}/{f}', 'w').write(t)
            if own:
                open(f'{d}/{part}/Lib.antt', 'w').write(''.join('pub mod ' + f[len(part) + 1:-5].replace('/', '.') + '\n' for f in own))
        # of the sources the types that the definitions speak of, in the files where they stand
        wanted = {t.split('.')[0] for t in types[n] if t[:1].islower()}
        for f in os.listdir(d + '/src'):
            p = f'{d}/src/{f}'
            if f != 'lib.rt' and f[:-3] not in wanted:
                shutil.rmtree(p) if os.path.isdir(p) else os.remove(p)
        for f in os.listdir(d + '/src'):
            p = f'{d}/src/{f}'
            t = open(p).read()
            mods = [m for m in re.findall(r'^(?:pub )?mod (\w+);\n', t, re.M) if m in wanted]
            open(p, 'w').write(types_of(t) + ''.join(f'\npub mod {m};\n' for m in mods))


p = argparse.ArgumentParser(description=__doc__, formatter_class=argparse.RawDescriptionHelpFormatter)
p.add_argument('command', choices=['gen', 'ask', 'read', 'told', 'strip'])
p.add_argument('mode', nargs='?', default='program', choices=['program', 'library', 'reader', 'readlib'])
p.add_argument('logs', nargs='*')
p.add_argument('--from', dest='start', type=int, default=0)
p.add_argument('--to', type=int)
p.add_argument('--per', type=int, default=150)
p.add_argument('--only')
p.add_argument('--bytes', choices=['hex', 'list'], default='list')
a = p.parse_args()
BYTES = a.bytes
dict(gen=gen, ask=ask, read=read, told=told, strip=strip)[a.command](a)
