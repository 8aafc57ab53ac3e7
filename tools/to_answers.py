#!/usr/bin/env python3
"""to_answers.py NAMES.json CRATE [F..]: turns each proofs/F/Proof.antt over `tie.spec` of the crate's folder into Invariants.antt and Answers.antt.

NAMES.json is what `rt check --generated DIR --old-names` writes for the crate. Answers that say only `search rules` are left out.
What it can't place it prints.
"""
import glob, json, os, re, sys

names, crate = sys.argv[1], sys.argv[2].rstrip('/')
only = sys.argv[3:]
table = json.load(open(names))
cname = os.path.basename(os.path.abspath(crate))
norm = lambda s: re.sub(r'[-_]+', '-', s)

def split_args(text):
    """top-level juxtaposed arguments of a call"""
    out, depth, cur = [], 0, ''
    for ch in text:
        if ch in '([{': depth += 1
        if ch in ')]}': depth -= 1
        if ch.isspace() and depth == 0:
            if cur: out.append(cur)
            cur = ''
        else: cur += ch
    if cur: out.append(cur)
    return out

def decls(text):
    """top-level pieces: (kind, text)"""
    lines = text.split('\n')
    pieces, cur = [], []
    for ln in lines:
        if ln == '' :
            if cur: pieces.append('\n'.join(cur)); cur = []
            continue
        cur.append(ln)
    if cur: pieces.append('\n'.join(cur))
    # join pieces that begin with indentation to the one before
    out = []
    for p in pieces:
        if p[0].isspace() and out: out[-1] += '\n\n' + p
        else: out.append(p)
    return out

PATH = re.compile(r"(?<![\w.'’\-])([A-Za-zα-ω][\w₀-₉'’]*)((?:\.(?:[^\s(){};,.\[\]λ]+))+)")

def convert(path):
    d = os.path.dirname(path)
    rel = os.path.relpath(d, crate + '/proofs')
    key = f"Rattle-{cname}-proofs.{rel.replace('/', '.')}.Lts"
    if key not in table:
        print('NOKEY', path, key); return
    j = table[key]
    text = open(path).read()
    if 'tie.spec' not in text:
        print('NOTIE', path); return
    steps, facts, placemap = {}, {}, {}
    for (old, parent, st, callee, fs), new in zip(j['places'], j['places_by_name']):
        placemap[norm(old)] = new
        if st and st[0]:
            steps[norm(st[0])] = st[1]
            for a, b in fs: facts[(norm(st[0]), a)] = b
    def sub_path(m):
        base, rest = m.group(1), m.group(2)
        comps = rest[1:].split('.')
        if base in ('tie', 'goal'): return m.group(0)
        hit = False
        kept = []
        i = 0
        while i < len(comps):
            c = comps[i]
            if c == 'before':
                j2 = i
                while j2 < len(comps) and comps[j2] == 'before': j2 += 1
                if j2 == len(comps):
                    kept += comps[i:]
                    i = len(comps); continue
                i = j2; continue
            if norm(c) in steps and not hit:
                hit = True
                kept.append(steps[norm(c)])
                if i + 1 < len(comps) and (norm(c), comps[i+1]) in facts:
                    kept.append(facts[(norm(c), comps[i+1])]); i += 2; continue
                i += 1; continue
            kept.append(c); i += 1
        return base + '.' + '.'.join(kept)
    needs = [(norm(o), n) for o, n in j['needs']]
    need = dict(needs)
    def find_need(o):
        o = norm(o)
        cands = [o]
        for pre in ('overflow-', 'nonzero-', 'offset-', 'slice-'):
            if o.startswith(pre): cands.append(o[len(pre):])
        for c in cands:
            if c in need: return need[c]
        # bounds-x -> element_copy_out?
        for k, v in need.items():
            if norm(v) == o: return v
        return None
    module = f"Rattle.{cname}.proofs.{rel.replace('/', '.')}"
    uses, body, inv = [], [], []
    pieces = decls(text)
    specargs = None
    named = {}
    left = []
    for p in pieces:
        com = ''
        q = p
        while q.startswith('--'):
            a, _, q = q.partition('\n'); com += a + '\n'
        if q.startswith('use ') or q.startswith('pub use'):
            lines = [l for l in q.split('\n')]
            body.append(('use', com, q)); continue
        m = re.match(r'(?:abbrev )?(?:pub )?(\S+) : tie\.(invariant|decreases)(\S*)\n', q)
        if m:
            inv.append((m.group(1), m.group(2), m.group(3), com, q)); continue
        m = re.match(r'pub (\S+)[-_]spec\b[^\n]*', q)
        if m and 'tie.spec' in q:
            s = q[q.index('tie.spec') + len('tie.spec'):]
            s = s.rstrip()
            # drop the closing paren of (tie.spec ..)
            depth = 0; end = len(s)
            for i, ch in enumerate(s):
                if ch in '([{': depth += 1
                if ch in ')]}':
                    depth -= 1
                    if depth < 0: end = i; break
            specargs = split_args(s[:end]); continue
        m = re.match(r'(?:pub )?(\S+) : tie\.Need-(\S+)', q)
        if m:
            n = find_need(m.group(2))
            named[m.group(1)] = n
            if n is None:
                left.append(m.group(2)); body.append(('text', com, q)); continue
            lines = q.split('\n')
            out = []
            for l in lines:
                if l == lines[0]: out.append(f"pub {n} : goal.{n}")
                elif l.startswith(m.group(1) + ' '):
                    l = n + l[len(m.group(1)):]
                    l = re.sub(r'^(\S+ c) (κs|_)\b', r'\1', l)
                    l = re.sub(r'^(\S+ _) (κs|_)(?= )', r'\1', l)
                    out.append(l)
                else: out.append(l)
            body.append(('answer', com, '\n'.join(out))); continue
        body.append(('text', com, q))
    # positional
    extra = []
    nl = len(inv)
    if specargs is not None:
        a = specargs[nl:]
        if len(a) != len(needs):
            bad = [x for x in a if not re.match(r'\(λ \S+( \S+)?\.\s*search rules\)$', x) and x not in named]
            if bad: print('POS', path, len(a), len(needs), bad)
        else:
            for x, (o, n) in zip(a, needs):
                if re.match(r'\(λ \S+( \S+)?\.\s*search rules\)$', x): continue
                if x in named:
                    if named[x] is None or named[x] != n:
                        print('DIFF', path, x, named[x], n)
                    continue
                m = re.match(r'\(λ (\S+?)( κs| _)?\.\s*(.*)\)$', x, re.S)
                if m: extra.append(f"pub {n} : goal.{n}\n{n} {m.group(1)} = {m.group(3)}")
                else: extra.append(f"pub {n} : goal.{n}\n{n} c = {x} c")
    if left: print('LEFT', path, left, [n for n in needs])
    # invariants
    loops = {norm(o): (n, vs) for ((o, n), vs) in j['loops']}
    changed = {norm(o): ch for ((o, n), vs), ch in zip(j['loops'], j['changed'])}
    invtext = []
    for nm, kind, suffix, com, q in inv:
        lname = norm(suffix.lstrip('-'))
        if lname not in loops:
            print('LOOP', path, nm, suffix, list(loops)); continue
        newloop, vs = loops[lname]
        ch = changed[lname]
        m = re.search(r'^' + re.escape(nm) + r'((?: \S+)*) =', q, re.M)
        args = m.group(1).split()
        repl = [('l.initial.' + v if c else 'l.' + v) for v, c in zip(vs, ch)] + ['l.' + v for v, c in zip(vs, ch) if c]
        if len(args) != len(repl):
            print('ARGS', path, nm, args, vs, ch); continue
        bod = q[m.end():]
        mp = dict(zip(args, repl))
        def sv(mm):
            return mp.get(mm.group(0), mm.group(0))
        bod = re.sub(r"(?<![\w.'’\-])[A-Za-zα-ω_][\w₀-₉'’]*(?![\w₀-₉'’\-])", sv, bod)
        newname = f"{kind}-{newloop}"
        unf = re.findall(r'^unfolding .*$', q, re.M)
        invtext.append(com + f"abbrev pub {newname} : goal.{newname}\n" + ''.join(u + '\n' for u in unf) + f"{newname} l ={bod}")
    # helpers over a place's record: written out where they are used
    helpers = {}
    kept_body = []
    for b in body:
        if b[0] == 'text':
            m = re.match(r"(?:pub )?(\S+) : \((\w+) : tie\.[^()]*\)\s*→\s", b[2])
            if m:
                nm, var = m.group(1), m.group(2)
                cl = re.findall(r'^' + re.escape(nm) + r' ([^=\n]*?) =', b[2], re.M)
                if len(cl) == 1 and re.fullmatch(r'\w+', cl[0].strip()):
                    e = b[2][re.search(r'^' + re.escape(nm) + r' [^=\n]*? =', b[2], re.M).end():].strip()
                    unf = re.findall(r'^unfolding (.*)$', b[2], re.M)
                    helpers[nm] = (cl[0].strip(), e, ' '.join(unf).split())
                    continue
                print('HELPER', path, nm)
        kept_body.append(b)
    body = kept_body
    def inline(b):
        kind, com, q = b
        unf = set()
        for _ in range(6):
            hit = False
            for nm, (var, e, u) in helpers.items():
                pat = re.compile(r"(\()?(?<![\w.'’\-])" + re.escape(nm) + r" ([a-z]\w*)((?:\.before)*)(?![\w.'’\-])(\))?")
                def rep(m):
                    nonlocal hit
                    hit = True
                    unf.update(u)
                    ee = re.sub(r"(?<![\w.'’\-])" + re.escape(var) + r"(?=\.)", 'c', e)
                    ee = re.sub(r"(?<![\w.'’\-])" + re.escape(var) + r"(?![\w.'’\-])", 'c', ee)
                    pre, post = m.group(1) or '', m.group(4) or ''
                    if pre and post: return '(' + ee + ')'
                    return pre + '(' + ee + ')' + post
                q = pat.sub(rep, q)
            if not hit: break
        if unf:
            lines = q.split('\n')
            i = next((i for i, l in enumerate(lines) if l.startswith('unfolding ')), None)
            if i is None:
                j2 = next(i for i, l in enumerate(lines) if i > 0 and not l[0].isspace())
                lines.insert(j2, 'unfolding ' + ' '.join(sorted(unf)))
            else:
                have = lines[i].split()[1:]
                lines[i] = 'unfolding ' + ' '.join(have + sorted(unf - set(have)))
            q = '\n'.join(lines)
        return (kind, com, q)
    body = [inline(b) if b[0] != 'use' else b for b in body]
    extra = [inline(('answer', '', x))[2] for x in extra]
    def fix(t):
        t = PATH.sub(sub_path, t)
        t = re.sub(r'tie\.([A-Z][a-z]+[^\s()]*)((?: invariant-\S+?| decreases-\S+?)*)(?=\))', lambda m: 'goal.' + placemap.get(norm(m.group(1)), m.group(1)), t)
        return t
    usel = [b for b in body if b[0] == 'use']
    use_text = '\n'.join(b[1] + b[2] for b in usel)
    use_lines = [l for l in use_text.split('\n') if not l.endswith('.Statement.{statement}') and ' as tie' not in l]
    rest = [fix(b[1] + b[2]) for b in body if b[0] != 'use'] + [fix(e) for e in extra]
    if invtext:
        open(d + '/Invariants.antt', 'w').write('\n'.join(use_lines + [f"use {module}.Given as goal"]) + '\n\n' + '\n\n'.join(invtext) + '\n')
    if rest:
        open(d + '/Answers.antt', 'w').write('\n'.join(use_lines + [f"use {module}.Goals as goal"]) + '\n\n' + '\n\n'.join(rest) + '\n')
    os.remove(path)

for p in sorted(glob.glob(crate + '/proofs/**/Proof.antt', recursive=True)):
    rel = os.path.relpath(os.path.dirname(p), crate + '/proofs')
    if only and rel not in only: continue
    convert(p)
