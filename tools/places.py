#!/usr/bin/env python3
# Counts candidates for a better form in crates/*/src (docs/DESIGN-PASS.md). At the top of a checkout: python3 tools/places.py POINT [-l]
import re, sys, glob, difflib
from collections import defaultdict as dd
OPEN = {'(': ')', '{': '}', '[': ']'}
def close(s, i):                                  # index of the bracket that closes s[i]
    d, o, c = 0, s[i], OPEN[s[i]]
    for j in range(i, len(s)):
        d += (s[j] == o) - (s[j] == c)
        if d == 0: return j
def read(p): return re.sub(r'//[^\n]*', lambda m: ' ' * len(m[0]), open(p).read())
FILES = {p: read(p) for p in sorted(glob.glob('crates/*/src/**/*.rt', recursive=True))}
crate = lambda p: p.split('/')[1]
line = lambda p, i: FILES[p].count('\n', 0, i) + 1
def split(s):                                     # at the commas of the top level
    out, d, b = [], 0, 0
    for i, ch in enumerate(s):
        d += (ch in '([{<') - (ch in ')]}>' and s[i-1] not in '-=')
        if ch == ',' and d == 0: out.append(s[b:i].strip()); b = i + 1
    return [x for x in out + [s[b:].strip()] if x]
class Fn: pass
def fns():
    for p, s in FILES.items():
        for m in re.finditer(r'\bfn (\w+)(?=[<(])', s):
            f = Fn(); f.p, f.at, f.name, i, d = p, m.start(), m[1], m.end(), 0
            while d or s[i] != '(': d += (s[i] == '<') - (s[i] == '>' and s[i-1] != '-'); i += 1
            f.generics = s[m.end():i]
            j = close(s, i); f.params = [tuple(map(str.strip, x.split(':', 1))) for x in split(s[i+1:j]) if ':' in x]
            f.me = 'self' in s[i:j].split(':')[0]; f.clauses = []; k = j + 1
            r = re.match(r'\s*((?:->|where\b)(?:\[[^\]]*\]|[^{;\[])*?)?\s*(?=\brequires\b|\bensures\b|\{|;)', s[k:]); f.result = r[0].split('where')[0].strip(); k += r.end()
            while m2 := re.match(r'\s*(requires|ensures)\*?\s*(\w*)\s*\{', s[k:]):
                e = close(s, k + m2.end() - 1); f.clauses.append((m2[1], m2[2], s[k+m2.end():e].strip())); k = e + 1
            b = k + re.match(r'\s*', s[k:]).end()
            f.b, f.body = b, (s[b+1:close(s, b)] if s[b] == '{' else '')
            f.cycle = bool(re.search(r'#\[cycle\(\w+\)\]\s*(pub(\(crate\))? )?$', s[:f.at])); yield f
FNS = list(fns())
def types(kind):                                  # (path, index, name, body, derives)
    for p, s in FILES.items():
        for m in re.finditer(r'((?:#\[[^\]]*\]\s*)*)(?:pub(?:\(crate\))? )?%s (\w+)[^{;(]*\{' % kind, s):
            b = s[m.end():close(s, m.end()-1)]
            while g := re.search(r'ghost \w+: \{', b): b = b[:g.start()] + b[close(b, g.end() - 1) + 1:].lstrip(' ,')
            yield p, m.start(2), m[2], b, m[1].strip()
KEEP = set('let mut if else match for in while loop return fn pub self Self Ok Err Some None true false as break continue ref'.split())
def toks(s): return re.findall(r'"[^"]*"|\w+|[^\w\s]', s)
def shape(s): return ['S' if t[0] == '"' else t if t in KEEP or not t[0].isalnum() else 'N' if t[0].isdigit() else 'I' for t in toks(s)]
def lines(f): return [l.strip() for l in f.body.split('\n') if l.strip()]
HITS = dd(list)
def hit(key, p, i, what): HITS[key].append((p, line(p, i), what))
def find(key, rx, say=lambda m: m[0], flags=0):
    for p, s in FILES.items():
        for m in re.finditer(rx, s, flags): hit(key, p, m.start(), ' '.join(say(m).split())[:150])
def p1():
    for p, i, n, b, d in types('enum'):
        v = split(b)
        if 2 <= len(v) <= 6: hit('1a own enums of 2 to 6 variants', p, i, n + ': ' + ' | '.join(' '.join(x.split()) for x in v) + '  ' + d)
    for p, i, n, b, d in types('struct'):
        for x in split(b):
            if re.search(r': bool$', x): hit('1b bool: fields', p, i, n + '.' + x)
            if re.search(r'\b(kind|number|case|layer|refusal|class|outcome)\s*: u(8|32)$', x): hit('1d numbers for kinds: fields', p, i, n + '.' + x)
    for f in FNS:
        for x, t in f.params:
            if t == 'bool': hit('1b bool: parameters', f.p, f.at, f.name + '(' + x + ')')
            if t in ('u32', 'u8') and re.search(r'\b(kind|number|case|layer|refusal|class)$', x): hit('1d numbers for kinds: parameters', f.p, f.at, f.name + '(' + x + ': ' + t + ')')
        if f.result == '-> bool': hit('1c results that are bool (no place by itself)', f.p, f.at, f.name)
        if re.match(r'-> u(8|32)$', f.result) and re.search(r'number|kind|layer', f.name): hit('1d numbers for kinds: results', f.p, f.at, f.name)
    find('1e Err(_) arms', r'Err\(_\) =>[^\n]*'); find('1e is_err() / is_ok()', r'\bis_(err|ok)\(\)')
    find('1f Err(AllocError) by hand', r'Err\(AllocError\)')
    find('1g Ok(x) => Ok(x) / Err(e) => Err(e) arms', r'(Ok|Err)\((\w+)\) => (return )?\1\(\2\)'); find('1g Ok(()) after a call with ?', r'\?;\s*Ok\(\(\)\)')
    find('1h Option matched by hand: None/Some(_) => literal, None or the name', r'(None|Some\((\w+)\)) =>\s*\{?\s*(None|true|false|0|found|\*self|NONE|\{\}|Some\(\2\))\s*\}?[,\n]')
    find('1i refusals by hand: return Err / return None', r'return (Err\([^;]*|None)', flags=re.S)
    find('1k results dropped: let _ =', r'let _ =[^;]*'); find('1k results that are text (outcome as text)', r'-> &(\'static )?str')
    find('1j match with Ok/Err or Reply arms', r'(Reply::(Value|Thrown)|\bOk|\bErr)\([^)]*\) =>')
def p2():
    full, body, one = dd(list), dd(list), dd(list)
    for f in FNS:
        if len(lines(f)) >= 2:
            b = ' '.join(shape(f.body)); body[b].append(f); full[b + '|' + ' '.join(shape(' '.join(t for _, t in f.params) + f.result))].append(f)
    for key, g in (('2a groups equal in body and signature', full), ('2b groups equal in body alone', body)):
        for k, v in g.items():
            if len(v) > 1: HITS[key].append((v[0].p, line(v[0].p, v[0].at), '%d: ' % len(v) + ', '.join(crate(f.p) + '::' + f.name for f in v)))
    for i, f in enumerate(FNS):
        for g in FNS[:i]:
            a, b = shape(f.body), shape(g.body)
            if a != b and min(len(a), len(b)) >= 24 and min(len(a), len(b)) / max(len(a), len(b)) > .8:
                r = difflib.SequenceMatcher(None, a, b, False)
                if r.quick_ratio() > .9 and r.ratio() > .9: hit('2c near twins (pairs, body alike by more than 0.9)', f.p, f.at, f.name + ' ~ ' + crate(g.p) + '::' + g.name)
    for f in FNS:
        if len(lines(f)) == 1 and len(shape(f.body)) >= 6: one[' '.join(shape(f.body))].append(f)
    for v in one.values():
        if len(v) > 1: hit('2f one-line bodies of one shape', v[0].p, v[0].at, '%d: ' % len(v) + ', '.join(crate(f.p) + '::' + f.name for f in v))
    p2_types(); p2_runs()
def p2_types():
    names, flds = dd(list), dd(list)
    for p, i, n, b, d in list(types('struct')) + list(types('enum')):
        b = b.replace('pub ', ''); v = [x.split(':') for x in split(b) if ':' in x]
        if len(v) > 1: names[str([x[0] for x in v])].append((p, i, n)); flds[' '.join(x[1] for x in v)].append((p, i, n))
    for key, g in (('2d types with the same field names', names), ('2d types with the same field types', flds)):
        for v in g.values():
            if len(v) > 1: hit(key, v[0][0], v[0][1], ', '.join(crate(x[0]) + '::' + x[2] for x in v))
def p2_runs():
    seen = dd(list)
    for f in FNS:
        l = lines(f)
        for i in range(len(l) - 3):
            w = '\n'.join(l[i:i+4])
            if len(re.findall(r'\w', w)) >= 40: seen[w].append(f)
    for w, v in seen.items():
        if len(v) > 1: hit('2e runs of 4 body lines that stand more than once', v[0].p, v[0].at, '%d: ' % len(v) + ', '.join(sorted({f.name for f in v})) + ': ' + ' '.join(w.split())[:60])
def p3():
    find('3a for over a range of numbers', r'for \w+ in [^{\n]*\.\.[^{\n]*'); find('3b while', r'\bwhile [^{]*'); find('3b loop', r'\bloop \{')
    for f in FNS:
        for m in re.finditer(r'\b(\w+)\(', f.body):
            a = f.body[m.end():close(f.body, m.end() - 1)]; c = [x for x in split(a) if re.search(r'[+-] 1$', x)]
            rec = m[1] == f.name or (f.cycle and any(g.cycle and g.name == m[1] and g.p == f.p for g in FNS))
            if c and rec: hit('3c recursion with + 1 and - 1 arguments' if len(c) > 1 else '3c recursion with one - 1 argument (depth)', f.p, f.b + 1 + m.start(), f.name + ' -> ' + m[1] + ': ' + ', '.join(c))
        for m in re.finditer(r'\b(for|loop|while)\b[^{;]*\{', f.body):
            b = f.body[m.end():close(f.body, m.end() - 1)]; v = f.name + ': ' + ' '.join(m[0].split())
            for k, rx in (('3e counter kept beside a loop', r'\b([a-z]\w*) \+= 1\b'), ('3f loop that is all/any', r'return (false|true);|found = [^;]*\| found'), ('3g loop that threads a value (fold)', r'\b(\w+) = \w[\w:.]*\([^;]*\b\1\)|\b(\w+) = \2\.\w+\('), ('3g loop that only pushes (collect, extend)', r'\.push\w*\(')):
                if re.search(rx, b): hit(k, f.p, f.b + 1 + m.start(), v)
    find('3d range peeled by hand (start + 1, count - 1)', r'start: [\w.]+ \+ [\w.]+,\s*count: [\w.]+ - [\w.]+')
    find('3h len() == 0, [0], [1..] by hand', r'\w+\.len\(\) (==|<|>) \d+|\w+\[0\]|&\w+\[1\.\.\]')
def p4():
    lit = r'("[^"]*"|\d+|true|false)'
    for f in FNS:
        a = len(re.findall(r'\w+::\w+(\([^)]*\))? => ' + lit, f.body)); b = len(re.findall(r'\n\s*\d[\d| ]* =>', f.body))
        if a > 1: hit('4a enum to number, text or flag by hand', f.p, f.at, '%s (%d arms)' % (f.name, a))
        if b > 1: hit('4b match on numbers (number to enum, flag, Option or choice)', f.p, f.at, '%s (%d arms)' % (f.name, b))
        c = len(re.findall(r'\w+::\w+(\([^)]*\)|\s*\{[^}]*\})? => \w+::\w+(?!\w*\()', f.body))
        if c > 1: hit('4c enum to enum by hand', f.p, f.at, '%s (%d arms)' % (f.name, c))
        if len(re.findall(r'\bif \w+ == \d+( \|\|| \{)|\bif \w+ \{\s*[\d1]', f.body)): hit('4d number or flag tested by hand', f.p, f.at, f.name)
        if re.search(r'writeln!\(|\bwrite!\(|add_\w+\(out|format!\(', f.body) and f.name not in ('fmt', 'main'): hit('4e text by hand (Display?): with match or if' if re.search(r'\bmatch\b|\bif \w+ \{', f.body) else '4e text by hand (Display?): plain', f.p, f.at, f.name)
        if re.fullmatch(r'(?!put_|add_|begin_|read_|optional_)\w*(number|name|layer|_of)|place', f.name): hit('4f functions named .. number, name, layer, place or _of', f.p, f.at, f.name + ' ' + f.result)
        if re.search(r'\(self\.\w+ == \w+\.\w+\)|\(\w+\.\w+ == \w+\)\s*&', f.body): hit('4g equality of fields by hand', f.p, f.at, f.name)
    for f in FNS:
        for at, what, arms in matches(f):
            n = len(arms) - len({' '.join(x.split()) for _, x in arms})
            if n: hit('4m matches with arms that are the same (or-pattern, `_`, a method)', f.p, at, '%s: match %s, %d of %d arms repeat' % (f.name, what, n, len(arms)))
    for p, i, n, b, d in list(types('enum')) + list(types('struct')):
        if '(Clone, Copy)' in d: hit('4i types that derive only Clone, Copy', p, i, n)
    zero = r'(0|0u32|None|false|true|\[0; \d+\]|\[\]|NO\w+|NOTHING|EMPTY|UNUSED|NONE|\w+::(Nowhere|Plain|Normal|Between))'
    find('4h values that are a Default, by hand', r'\w+ \{\s*(\w+: ' + zero + r',?\s*){2,}\}', lambda m: m[0][:100])
    find('4j From and Display written by hand (good)', r'impl (From<\w+>|fmt::Display) for \w+')
    for p, t in FILES.items():
        for m in re.finditer(r'(?m)^(?!.*\b(requires|ensures|ghost|writeln!)\b).*$', re.sub(r'"[^"\n]*"', lambda x: ' ' * len(x[0]), t)):
            for x in re.finditer(r'(?<![\w.])(64|256|1000|1024|2048|4096|4097|16384|65536|4294967295|1_?000_?000(_?000)?)\b', m[0]): hit('4l limits as numerals in code (constants included)', p, m.start(), x[0])
    find('4k bytes and words by hand', r'(to|from)_le_bytes')
def p5():
    pair, cl = dd(list), dd(list)
    for f in FNS:
        q = [(x.replace('mut ', ''), t) for x, t in f.params]
        for i in range(len(q)):
            for j in range(i + 1, len(q)): pair[q[i], q[j]].append(f)
        for k, n, t in f.clauses:
            for i, (x, _) in enumerate(q): t = re.sub(r'(?<![\w.])%s\b' % x, 'P%d' % i if k == 'ensures' else 'P', t)
            cl[k, ' '.join(t.split())].append(f)
    for (a, b), v in pair.items():
        if len(v) > 2: hit('5a parameter pairs in 3 or more signatures', v[0].p, v[0].at, '%d in %s: %s: %s, %s: %s' % (len(v), '/'.join(sorted({crate(f.p) for f in v})), *a, *b))
    sets = [frozenset((x.replace('mut ', ''), t) for x, t in f.params) for f in FNS]; closed = {a & b for a in sets for b in sets if len(a & b) > 2}
    for c in sorted(closed, key=lambda c: (-sum(c <= q for q in sets), sorted(c))):
        v = [f for f, q in zip(FNS, sets) if c <= q]
        if len(v) > 2 and not any(c < o and sum(o <= q for q in sets) == len(v) for o in closed): hit('5a sets of 3 or more parameters in 3 or more signatures', v[0].p, v[0].at, '%d in %s: %s' % (len(v), '/'.join(sorted({crate(f.p) for f in v})), ', '.join(x + ': ' + t for x, t in sorted(c))))
    for (k, t), v in cl.items():
        if len(v) > 2: hit('5b clauses that say the same in 3 or more functions', v[0].p, v[0].at, '%d: %s { %s } %s' % (len(v), k, t[:110], ', '.join(f.name for f in v)[:60]))
    for f in FNS:
        if len(f.params) + f.me >= 6: hit('5c functions with 6 or more parameters', f.p, f.at, '%s (%d)' % (f.name, len(f.params) + f.me))
        u = [x for x, t in f.params if f.body.strip() and not re.search(r'\b%s\b' % x.replace('mut ', ''), f.body)]
        if u: hit('5g parameters that the body does not read (only the contract does)', f.p, f.at, '%s: %s' % (f.name, ', '.join(u)))
        c = len(f.clauses)
        if c >= 5: hit('5d functions with 5 or more clauses', f.p, f.at, '%s (%d)' % (f.name, c))
        if any(re.search(r'self\.new\.(\w+) ≡ self\.old\.\1|(\w+)\.new\.(\w+) ≡ \2\.old\.\3', t) for _, _, t in f.clauses): hit('5e functions that say field by field what they leave', f.p, f.at, f.name)
    find('5f ghost fields (invariants of types)', r'ghost \w+: \{[^\n]*')
def p6():
    for p, i, n, b, d in types('struct'):
        v = split(b); 
        for x in v:
            if re.search(r'\[\w+; \w+\]', x): hit('6a arrays in fields', p, i, n + '.' + x)
            if re.search(r': Vec<', x): hit('6b Vec fields', p, i, n + '.' + x)
            if re.search(r'\b(height|len|length|count|spent|next|size|depth|start)\s*: (u32|usize)$', x): hit('6c lengths and positions in fields', p, i, n + '.' + x)
    for p, i, n, b, d in list(types('enum')) + list(types('struct')):
        for x in re.findall(r'\b(slot|value|test|init|left|right|consequent|alternate|update): ((?:Option<)?u32>?)', b): hit('6d u32 slots in fields', p, i, n + '.' + ': '.join(x))
    find('6e index arithmetic', r'(?:\w|\w\(\))(\[[^\]]*[a-z)] [+*] [^\]]*\]|\[\w+ \* [^\]]*\])'); find('6f index by a slot (as usize)', r'\w+\[[\w.]+ as usize\]')
    find('6g read or write guarded by hand', r'if \w+ < [\w.]+\.len\(\) \{[^}]*\}', flags=re.S); find('6h arrays made by hand', r'= \[\w+; \w+\]|\[\w+; \d+\]')
    find('6i Range (start and count) in signatures and fields', r'\w+: (Option<)?(Range|ReactiveBlock)>?[,)\n]')
    find('6j push_reserved', r'push_reserved'); find('6k put aside, then settled by a base', r'\b(settle\w*|wait\w*)\(')
def matches(f):                                   # (index, what is matched, arms as pairs of pattern and value)
    for m in re.finditer(r'\bmatch ([^{]*)\{', f.body):
        b = f.body[m.end():close(f.body, m.end() - 1)]; arms, i = [], 0
        for a in re.finditer(r'=>\s*', b):
            if a.start() < i: continue
            j = a.end(); k = close(b, j) if b[j] == '{' else j
            if b[j] != '{':
                while k < len(b) and b[k] != ',': k = close(b, k) + 1 if b[k] in OPEN else k + 1
            arms.append((b[i:a.start()].strip(' ,\n}'), b[j+1:k].strip() if b[j] == '{' else b[j:k].strip())); i = k + 1
        yield f.b + 1 + m.start(), m[1].strip()[:30], arms
def p7():
    for f in FNS:
        for at, what, arms in matches(f):
            calls = [x for _, x in arms if re.fullmatch(r'(self\.)?(?!Ok|Err|Some)[a-z]\w*\((.|\n)*\)\??', x) and close(x, x.index('(')) >= len(x) - 2]
            key = '7a matches with 3 or more arms that only call' if len(calls) > 2 else '7b matches with 2 arms that only call'
            if len(calls) > 1: hit(key, f.p, at, '%s: match %s, %d of %d arms call' % (f.name, what, len(calls), len(arms)))
        if re.search(r'if [\w.]+ \{\s*\w+\([^;]*\)\s*\} else \{\s*\w+\([^;]*\)\s*\}', f.body): hit('7c a flag chooses between two calls', f.p, f.at, f.name)
    find('7d fn pointers, impl Fn, dyn, closures', r'\bdyn \w+|impl Fn\w*|: F\b|[(,=] *(move )?\|[a-z_&][\w, &*:]*\| ?')
    find('7e traits, impls of traits, generics and const parameters (more is better)', r'\btrait \w+|\bimpl\b[^{;\n]* for \w+|\b(fn|struct|enum) \w+<[A-Z][^(\n]*|\bconst [A-Z]\w*: u\w+[,>]')
for q in (range(1, 8) if sys.argv[1] == 'all' else [sys.argv[1]]): globals()['p%s' % q]()
for k in sorted(HITS):
    n = dd(int)
    for p, _, _ in HITS[k]: n[crate(p)] += 1
    print('%-72s %4d   %s' % (k, len(HITS[k]), ' '.join('%s %d' % x for x in sorted(n.items()))))
    if '-l' in sys.argv:
        for p, l, w in HITS[k]: print('    %s:%d %s' % (p.replace('crates/', '').replace('/src', ''), l, w))
