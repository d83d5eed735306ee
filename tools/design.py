#!/usr/bin/env python3
"""Places in src/ that an older language left: counts by the points of docs/DESIGN-PASS.md.

    python3 tools/design.py [COMMIT]        counts, of the work tree or of a commit
    python3 tools/design.py -v [COMMIT]     and each place
"""
import re
import subprocess
import sys
from collections import Counter, defaultdict

VERBOSE = '-v' in sys.argv
REV = next((a for a in sys.argv[1:] if a != '-v'), None)


def git(*args):
    return subprocess.run(['git', *args], capture_output=True, text=True, check=True).stdout


def files(pattern):
    listed = git('ls-tree', '-r', '--name-only', REV) if REV else git('ls-files')
    return [f for f in listed.split('\n') if re.fullmatch(pattern, f)]


def text(path):
    if REV:
        return git('show', f'{REV}:{path}')
    try:
        return open(path).read()
    except FileNotFoundError:
        return ''


def say(title, places):
    print(f'{title}: {len(places)}')
    if VERBOSE:
        for p in places:
            print('    ' + p)


SRC = [(f.split('/')[1], f, text(f)) for f in files(r'crates/[a-z_]+/src/.*\.rt')]


def bare(s):
    return '\n'.join(l for l in s.split('\n') if not re.match(r'\s*(//|ghost use)', l))


def functions():
    """Crate, name, parameters, clauses and body of each function."""
    for crate, path, s in SRC:
        s = bare(s)
        for m in re.finditer(r'^( *)(?:pub(?:\(crate\))? )?(?:extern "C" )?fn (\w+)(?:<[^>{]*>)?\(', s, re.M):
            depth, i = 1, m.end()
            while depth:
                depth += {'(': 1, ')': -1}.get(s[i], 0)
                i += 1
            params = s[m.end():i - 1]
            end = re.compile('^' + m.group(1) + r'\}', re.M).search(s, i)
            one = re.compile(r'[^\n]*\{[^\n]*\}\n').match(s, i)
            whole = s[i:end.end()] if end else (one.group(0) if one else '')
            cut = re.search(r'^' + m.group(1) + r'\{', whole, re.M)
            head, body = (whole[:cut.start()], whole[cut.end():]) if cut else (whole.split('{')[0], whole)
            yield crate, m.group(2), params, head, body


FUNCTIONS = list(functions())

# 1. Enums of one's own, and those of the shape of Option or Result: two variants of which one holds nothing or a fault,
# or one `Refused`, or three that an Ordering has.
enums, shaped = [], []
for crate, path, s in SRC:
    for m in re.finditer(r'^ *(?:pub )?enum (\w+) \{(.*?)^ *\}', bare(s), re.M | re.S):
        variants = re.findall(r'^ *(\w+)(\(.*?\)| \{.*?\})?(?: = \d+)?,', m.group(2), re.M)
        enums.append(f'{crate}::{m.group(1)}')
        names = [v for v, _ in variants]
        two = len(variants) == 2 and any(w for _, w in variants)
        ordering = set(names) == {'Less', 'Same', 'Greater'}
        bad = any(n in ('Bad', 'Other', 'Malformed', 'Cut', 'Spoiled') for n in names) and len(names) <= 4
        if two or ordering or bad or 'Refused' in names:
            shaped.append(f'{crate}::{m.group(1)}: {", ".join(names)}')
say('1a enums', enums)
say('1b of the shape of Option, Result or Ordering', shaped)
bytes_alone = ('text_hex', 'text_typed', 'workload_plan')
codes = [f'{c}::{n}' for c, n, p, h, b in FUNCTIONS if re.search(r'-> u8\b', h) and c not in bytes_alone]
consts = Counter(f'{c} {f.split("/")[-1]}' for c, f, s in SRC
                 for _ in re.finditer(r'^pub const [A-Z0-9_]+: (?:u8|u64|usize) = \d+;', s, re.M))
say('1c functions that answer a number for a refusal', codes)
say('1d files with three or more numbers for kinds', [f'{k}: {n}' for k, n in consts.items() if n >= 3])
flags = [f'{crate}::{m.group(1)}' for crate, path, s in SRC
         for m in re.finditer(r'^ *(?:pub(?:\(crate\))? )?struct (\w+)(?:<[^>]*>)? \{(.*?)^ *\}', bare(s), re.M | re.S)
         if re.search(r': bool,', m.group(2))]
say('1e structs with a flag', flags)

# 2. Functions whose bodies are alike but for names in capitals, numbers, types and paths.
shape = defaultdict(list)
for crate, name, params, head, body in FUNCTIONS:
    t = re.sub(r'\s+', ' ', body).strip(' }')
    t = re.sub(r'\b\w+(?:::<[^>]*>)?::', '', t)
    t = re.sub(r'\b[A-Z]\w*\b', 'C', t)
    t = re.sub(r'\b\d\w*\b', '0', t)
    t = re.sub(r'\b(?:u8|u16|u32|u64|usize)\b', 'T', t)
    t = re.sub(r'\b(\w+?)(?:8|16|32|64)\(', r'\1(', t)
    if len(t) > 24:
        shape[t].append(f'{crate}::{name}')
say('2a groups of functions that differ in a size or a type', [', '.join(v) for v in shape.values() if len(v) > 1])

KEYWORDS = set('let mut if else match return while loop for in fn as ref true false'.split())
KEYWORDS |= set('Some None Ok Err break continue'.split())
alike = defaultdict(list)
for crate, name, params, head, body in FUNCTIONS:
    t = re.sub(r'\s+', ' ', body).strip(' }')
    t = re.sub(r'\b\w+(?:::<[^>]*>)?::', '', t)
    seen = {}
    t = re.sub(r'\b[A-Za-z_]\w*\b|\b\d\w*\b',
               lambda m: m.group() if m.group() in KEYWORDS else seen.setdefault(m.group(), f'v{len(seen)}'), t)
    if len(t) > 60:
        alike[t].append(f'{crate}::{name}')
say('2b groups of functions of one form, whatever they name', [', '.join(v) for v in alike.values() if len(v) > 1])

# 3. Loops.
loops = [(c, n, l.strip()) for c, n, p, h, b in FUNCTIONS for l in b.split('\n')
         if re.match(r"\s*(?:'\w+: )?(?:while|loop)\b", l)]
say('3a while and loop', [f'{c}::{n}: {l}' for c, n, l in loops])
by_hand = [(c, n) for c, n, p, h, b in FUNCTIONS if re.search(r'\bwhile\b', b) and re.search(r'\b[a-z_]+ [+-]= 1;', b)]
say('3b functions that count an index by hand in a while', [f'{c}::{n}' for c, n in by_hand])
say('3c for loops', [f'{c}::{n}' for c, n, p, h, b in FUNCTIONS for l in b.split('\n')
                     if re.match(r"\s*(?:'\w+: )?for\b", l)])
chains = re.compile(r'\.(?:iter|all|any|find|position|map|sum|zip|rev|fold|filter)\(')
say('3d functions with a chain', [f'{c}::{n}' for c, n, p, h, b in FUNCTIONS if chains.search(b)])

# 4. What a derive, From, or the language says.
copied = [f'{c}::{n}' for c, n, p, h, b in FUNCTIONS if len(re.findall(r'\b(\w+): \w+\.\1\b', b)) >= 3]
falses = [f'{c}::{n}' for c, n, p, h, b in FUNCTIONS if len(re.findall(r'=> false,', b)) >= 2]
STD = ('pick', 'pick_phase', 'lesser', 'greater', 'minus', 'wide', 'or_one')
picks = [f'{c}::{n}' for c, n, p, h, b in FUNCTIONS if n in STD]
say('4a structs copied field by field', copied)
say('4b tests by a table of false', falses)
say('4c comparisons and conversions of std, by hand', picks)
early = [f'{c}::{n}' for c, n, p, h, b in FUNCTIONS if re.search(r'return false;', b)]
say('4d chains of `return false`', early)

# 5. Facts that stand in the requires of three or more functions, and parameters that travel together.
facts, groups = Counter(), Counter()
for crate, name, params, head, body in FUNCTIONS:
    clause = ' '.join(re.findall(r'requires(?: \w+)? \{(.*?)\}\s*(?=requires|ensures|$)', head, re.S))
    for fact in set(re.findall(r'\b([A-Z]\w+) [\w.(]', clause)):
        facts[fact] += 1
    names = tuple(re.findall(r'(?:^|,)\s*(?:mut )?(\w+):', params))
    for i in range(len(names)):
        for j in range(i + 2, len(names) + 1):
            groups[names[i:j]] += 1
say('5a facts in the requires of three or more functions', [f'{f}: {n}' for f, n in facts.most_common() if n >= 3])
longest = [g for g, n in groups.items() if n >= 4 and len(g) >= 2
           and not any(set(g) < set(h) and groups[h] == n for h in groups if len(h) > len(g))]
say('5b parameters together in four or more functions', [f'{", ".join(g)}: {groups[g]}' for g in longest])

# 6. Arrays with a count beside them, and offsets that say a span.
arrays = [f'{c}::{n}: {m}' for c, n, p, h, b in FUNCTIONS for m in re.findall(r'let mut (\w+) = \[[^\]]*; [^\]]*\]', b)]
spans = [f'{c}::{n}' for c, n, p, h, b in FUNCTIONS if re.search(r'\bkey_at\b', b) and re.search(r'\bkey_len\b', b)]
ends = [f'{c}::{n}' for c, n, p, h, b in FUNCTIONS if 'text: &mut [u8]' in p and '-> usize' in h]
say('6a arrays of a fixed length', arrays)
say('6b offset and length beside one another', spans)
say('6c an output with its length answered', ends)

# 7. Switches on a number that says which step.
say('7 matches on a verb or a kind',
    [f'{c}::{n}' for c, n, p, h, b in FUNCTIONS if re.search(r'match (?:verb|kind)\b|if kind ==', b)])

# 8. Proofs.
proofs = files(r'crates/[a-z_]+/proofs/.*/Proof\.antt')
say('8a proofs that walk the code', proofs)
say('8b functions with answers', files(r'crates/[a-z_]+/proofs/.*/Answers\.antt'))
