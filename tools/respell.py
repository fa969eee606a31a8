#!/usr/bin/env python3
"""Respells this repository's own names of specs/ and proofs/, once, right after port.py, before anything else is changed.

Words, fields and lemmas go to snake case, a primed name gets an apostrophe, and a dash stays only between two names (a word of std, of a list's
operators, or of our own). Types, modules and the fixed numbers keep their capitals; functions, types and constants of src/ keep their names.
The old names are read from the commit that is checked out (HEAD), the turned ones from the files, declaration by declaration.
What is changed: specs/ and proofs/ of every crate, the clauses, `ghost use` lines and comments of src/, and the names in backticks of README and docs/.
With --map FILE the table of names is written there too. Names that would fall together stop it."""
import glob, json, os, re, subprocess, sys

ROOT = os.getcwd()
DECL = re.compile(r'^\s*(?:(?:unfoldable|abbrev|pub|axiom|pattern)\s+)*(?:(?:data|record|ruleset)\s+)?([^\s:(){};,.]+)(?:\s+\{[^}]*\})?\s*:\s')
MARKED = re.compile(r'^\s*(?:(?:unfoldable|abbrev|pub|pattern)\s+)+')
PARTS = r'([\s(){}\[\];,."`⟦⟧⌜⌝\\=|@?‹›]+)'
# words of std and of the operators on numbers and lists, which a dash may join
STD = set('''length append nil cons suc zero take drop set sets put get_or replicate map filter reverse sum min max add sub mul div mod pow le lt eq mem not cond
 part range insert sort merge lookup keys values fold count concat zip update fst snd table every'''.split())
MOVED = {'Contracts': 'CallContracts'}          # demands/specs/Contracts.antt: the module `contracts` is made by Rattle


def shared(path):
    return '/specs/' in path or (('/proofs/' in path) and os.path.basename(path) not in ('Proof.antt', 'Answers.antt', 'Invariants.antt'))


def declared(text):
    out = []
    for line in text.split('\n'):
        if line.strip().startswith('--'):
            continue
        m = DECL.match(line)
        if m:
            out.append((m.group(1), line))
    return out


def old(path):
    r = subprocess.run(['git', 'show', 'HEAD:' + path], capture_output=True, text=True)
    return r.stdout if r.returncode == 0 else ''


def snake(part):
    part = part.replace('′', "'")
    part = re.sub(r'getD', 'get_or', part)
    if re.match(r'^[a-z]', part) and not re.search(r'_[A-Z]', part):
        part = re.sub(r'(?<=[a-z0-9])([A-Z])', lambda m: '_' + m.group(1).lower(), part)
    return part


def is_type(line):
    return re.search(r'Type 0\s*$|:\s*Type', line) is not None


def spelled(name, words):
    """The name of a lemma: its words found greedily, a dash between two of them."""
    tokens = [snake(t) for t in name.split('-')]
    if len(tokens) == 1:
        return tokens[0]
    items, i = [], 0
    while i < len(tokens):
        j = len(tokens)
        while j > i and '_'.join(tokens[i:j]).rstrip("'") not in words:
            j -= 1
        if j > i:
            items.append(('_'.join(tokens[i:j]), True)); i = j
        else:
            items.append((tokens[i], tokens[i][:1].isupper() or not tokens[i][:1].isalpha())); i += 1
    out = items[0][0]
    for (a, named_a), (b, named_b) in zip(items, items[1:]):
        out += ('-' if named_a and named_b and b[:1].isalpha() else '-' if named_a and named_b else '_') + b
    return out


def main():
    files = sorted(glob.glob('crates/*/specs/**/*.antt', recursive=True) + glob.glob('crates/*/proofs/**/*.antt', recursive=True))
    pairs, words, fields = [], set(STD), set()
    for f in files:
        if not shared(f):
            continue
        before, after = declared(old(f)), declared(open(f).read())
        if len(before) != len(after):
            sys.exit(f'{f}: {len(before)} names before, {len(after)} after')
        for (a, line), (b, _) in zip(before, after):
            pairs.append((f, a, b))
            if '/specs/' in f and '-' not in a and a[:1].islower() and MARKED.match(line) and not line.startswith(' ') and not is_type(line):
                words.add(snake(a))
            if line.startswith(' '):
                fields.add(a)
    table, to, came, turned = {}, {}, {}, {}
    words_first = {spelled(a, words) for _, a, _ in pairs if '-' not in a}
    for f, a, b in pairs:
        # a field, or a name inside another proof, has no dash
        n = '_'.join(snake(t) for t in a.split('-')) if a in fields else spelled(a, words)
        if '-' in a and a not in fields and n in words_first:
            n += '_lem'                         # a lemma that would have its word's name
        came.setdefault(n, set()).add(a)
        turned.setdefault(b, {}).setdefault(n, set()).add(f)
        if b != n:
            table[b] = n
        to[a] = n
    local = {}                                  # where the turned name stands for two: each crate's own
    for b, ns in turned.items():
        if len(ns) > 1:
            print('by crate:', b, ns)
            table.pop(b, None)
            for n, fs in ns.items():
                for f in fs:
                    local.setdefault(f.split('/')[1], {})[b] = n
    for n, olds in came.items():
        if len(olds - fields) > 1 and len({o.replace('′', "'") for o in olds}) > 1:
            sys.exit(f'fall together: {n} of {sorted(olds)} in ' + str(sorted({f for f, a, b in pairs if a in olds})))
    # a turned name that is nobody's: where two old names share a turned one, the table is the same for both
    own = {line.split(':')[0].split()[0] for line in open('crates.txt') if line.strip() and not line.startswith('#')}

    def respell(text, camel, table):
        used = set()
        for m in re.finditer(r'^\s*(?:ghost )?use ([\w.·]+)\.\{([^}]*)\}', text, re.M):
            path = m.group(1).split('.')
            if not (path[0] == 'Rattle' and len(path) > 1 and path[1] in own):
                used |= {x.strip().split(' as ')[-1] for x in m.group(2).split(',')} | {x.strip().split(' as ')[0] for x in m.group(2).split(',')}
        def one(t):
            if t in used:
                return t
            if t in table:
                return table[t]
            if camel and re.match(r'^[a-z]', t) and re.search(r'[a-z0-9][A-Z]', t) and not re.search(r'_[A-Z]', t):
                return '-'.join(snake(p) for p in t.split('-'))
            return t.replace('′', "'")
        parts = re.split(PARTS, text)
        return ''.join(one(p) if i % 2 == 0 else p for i, p in enumerate(parts))

    def moved(text):
        for a, b in MOVED.items():
            text = text.replace(f'demands.specs.{a}', f'demands.specs.{b}')
        return text

    for f in files:
        text = open(f).read()
        new = moved(respell(text, True, {**table, **local.get(f.split('/')[1], {})}))
        if f == 'crates/demands/specs/Lib.antt':
            for a, b in MOVED.items():
                new = new.replace(f'mod {a}\n', f'mod {b}\n')
        if new != text:
            open(f, 'w').write(new)
    for a, b in MOVED.items():
        if os.path.exists(f'crates/demands/specs/{a}.antt'):
            os.rename(f'crates/demands/specs/{a}.antt', f'crates/demands/specs/{b}.antt')
    for f in sorted(glob.glob('crates/*/src/*.rt')):
        lines, out, inside = open(f).read().split('\n'), [], False
        for line in lines:
            s = line.strip()
            if s.startswith('ghost use') or s.startswith('//') or re.match(r'(requires|ensures|ghost)\b', s) or inside:
                if re.match(r'(requires|ensures)', s):
                    inside = True
                new = moved(respell(line, True, table))
                if inside and (s.endswith('}') and line.count('{') <= line.count('}') or s == '}'):
                    inside = False
                out.append(new)
            else:
                out.append(line)
        new = '\n'.join(out)
        if new != open(f).read():
            open(f, 'w').write(new)
    for f in ['README.md'] + sorted(glob.glob('docs/*.md')):
        if f in ('docs/PORT.md', 'docs/PORT-OTHER.md'):
            continue
        text = open(f).read()
        def name(m):
            t = m.group(0)
            return to.get(t, snake(t) if re.match(r"^[a-z]+(?:[A-Z][a-z]+)+'?$", t) and t in to else t)
        def ticked(m):
            return re.sub(r"[A-Za-z0-9_′'-]+", name, m.group(0))
        new = re.sub(r'`[^`\n]+`', ticked, text).replace('demands/specs/Contracts', 'demands/specs/CallContracts')
        if new != text:
            open(f, 'w').write(new)
    if '--map' in sys.argv:
        json.dump({'turned': table, 'old': to}, open(sys.argv[sys.argv.index('--map') + 1], 'w'), indent=0, ensure_ascii=False, sort_keys=True)


main()
