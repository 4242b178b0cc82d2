#!/usr/bin/env python3
"""Counts the places in src/ that an older form of Rattle left behind, one list for each point of docs/DESIGN-PASS.md.

    tools/places.py            the files as they are
    tools/places.py COMMIT     the files as they were
    tools/places.py .. -v      with each place, by file and line

Points 1, 3, 4, 6 and 7 are patterns on the text; what a line of code says of itself in a comment is not read.
Point 2: functions and types whose text is the same but for numbers, constants, names of locals, and which of operations,
blocks and regions it speaks of.
Point 5: a clause that stands word for word in three functions or more, and three parameters in a row that three functions share.
"""
import collections, os, re, subprocess, sys

args = [a for a in sys.argv[1:] if a != '-v']
verbose = '-v' in sys.argv
top = os.path.dirname(os.path.dirname(os.path.abspath(__file__)))


def git(*words):
    return subprocess.check_output(['git', '-C', top, *words], text=True)


def sources():
    if args:
        names = git('ls-tree', '-r', '--name-only', args[0]).split('\n')
        read = lambda name: git('show', f'{args[0]}:{name}')
    else:
        names = git('ls-files').split('\n')
        read = lambda name: open(os.path.join(top, name)).read()
    for name in names:
        if re.match(r'crates/\w+/src/.*\.rt$', name):
            text = read(name)
            # comments are blanked, so that the lines stay where they are
            yield name, re.sub(r'//[^\n]*', lambda m: ' ' * len(m.group()), text)


FN = re.compile(r'^( *)((?:pub(?:\(\w+\))? )?(?:final )?fn (\w+).*?)\n?^\1\{\n(.*?)^\1\}', re.M | re.S)
SHORT = re.compile(r'^( *)((?:pub(?:\(\w+\))? )?(?:final )?fn (\w+)[^\n{;]*) \{\n(.*?)^\1\}', re.M | re.S)


def functions(text):
    seen = set()
    for pattern in (SHORT, FN):
        for m in pattern.finditer(text):
            if m.start() in seen or re.search(r'\n *(pub )?fn ', m.group(2)):
                continue
            seen.add(m.start())
            head = m.group(2)
            cut = re.search(r'\n *(requires|ensures)', head)
            clauses = re.findall(r'(?:requires|ensures)\*?(?: \w+)? (\{.*?\})$', head, re.M)
            yield text.count('\n', 0, m.start()) + 1, m.group(3), head[:cut.start()] if cut else head, clauses, m.group(4)


KINDS = {'op', 'ops', 'operation', 'operations', 'block', 'blocks', 'basic', 'region', 'regions', 'result', 'results', 'argument', 'arguments', 'bl', 'places', 'place', 'home'}
WORDS = {'self', 'fn', 'pub', 'let', 'mut', 'if', 'else', 'match', 'for', 'in', 'while', 'return', 'true', 'false', 'as', 'ref', 'move', 'bool', 'usize', 'u8', 'u16', 'u32', 'u64'}


def one_kind(name):
    """The name, with one word in place of those for operations, blocks and regions."""
    parts = re.findall(r'[A-Z]?[a-z0-9]+|[A-Z]+(?![a-z])|_', name)
    kept = []
    for part in parts:
        word = 'k' if part.lower() in KINDS else part
        if not (word == 'k' and kept and kept[-1] in ('k', '_') and 'k' in kept[-2:]):
            kept.append(word)
    return ''.join(kept)


def shape(text):
    """The text with names of locals by their first use, numbers and constants as such, and one word for each kind."""
    tokens = re.findall(r"[A-Za-z_]\w*|\d+|\S", text)
    names, out = {}, []
    for i, token in enumerate(tokens):
        after = tokens[i + 1] if i + 1 < len(tokens) else ''
        if re.match(r'\d|[A-Z][A-Z_0-9]+$', token):
            token = '#'
        elif re.match(r'[a-z_]', token) and token not in WORDS and tokens[i - 1:i] != ['.'] and after not in ('(', ':', '!', '{'):
            token = names.setdefault(token, f'${len(names)}')
        elif re.match(r'[A-Za-z_]', token) and token not in WORDS:
            token = one_kind(token)
        out.append(token)
    return ' '.join(out), len(out)


PATTERNS = {
    1: [
        ('an error in an Option', r'-> Option<Refusal>'),
        ('a bool for done or refused', None),
        ('a Result in a Result or an Option', r'(Result|Option)<Result<'),
        ('a number, a length or an empty text for none', r'(None|_) => (0|\S+\.len\(\)),$|^ *""$|^    0$|^ {4}entries\.len\(\)$|\{ *0 *\}$'),
        ('a number for a kind or a refusal', r'fn number\('),
        ('a state beside what it says of', r'pub state: \w+,\n *pub content'),
        ('an identity that stands for none', r'slot: 9999|const (NO_\w+|NOBODY): (OpId|Value|RegionId|Counts)|const FRESH'),
        ('a law that answers a number', r'-> u8\n *ensures \{ \w+( \w+)* \}\n\{\n    0'),
    ],
    3: [
        ('a loop over indices', r'for \w+ in [\w.+ ]+\.\.'),
        ('a count down', r'while \w+ > 0'),
        ('a counter by hand', r'let mut (\w+)(?:: \w+)? = (?:0|\S+\.len\(\));(?=(?:(?!\n\}|\n    \}).|\n)*?\b\1(?: [+-]= 1;| = \1\.saturating_add\(1\)))'),
        ('a search loop', r'for [^\n]* in [^\n]*\{\n( *)if [^\n]*\{\n *return [^\n]*;\n\1\}\n'),
    ],
    4: [
        ('equality by hand', r'\.slot == [\w.]+\n? *&& [\w.]+generation ==|fn same_\w+\('),
        ('a derive by hand', r'impl<?.*>? (Clone|Copy|PartialEq|Eq|Ord|PartialOrd|Default|Debug) for'),
        ('a conversion by hand', r'fn (number|words|erasure|op_node|block_node|from_slice|empty|blank)\('),
        ('a piece of text made and then pushed', r'push_str\(\w+\.as_str\(\)\)|push_str\(\w+\([^)]*\)\?\.as_str\(\)\)'),
    ],
    6: [
        ('a buffer with a length', r'items: \[T; N\],\n *len: usize'),
        ('a list searched by hand', r'for \w+ in [\w.()]+ \{\n *if [^\n]* == [^\n]*\{\n'),
        ('a capacity that is reserved', r'Vec::with_capacity'),
        ('two numbers in memory that is lent', r'front: usize,\n *count: usize'),
    ],
    7: [
        ('a trait of one function', None),
        ('a switch on words', r'match word\('),
    ],
}

found = {n: [] for n in range(1, 8)}
fns, structs, clauses_in, params_in = [], [], collections.defaultdict(set), collections.defaultdict(set)
for name, text in sources():
    for point, patterns in PATTERNS.items():
        for kind, pattern in patterns:
            if pattern:
                for m in re.finditer(pattern, text, re.M):
                    found[point].append((kind, name, text.count('\n', 0, m.start()) + 1))
    for line, fn, head, clauses, body in functions(text):
        if re.search(r'-> bool$', head.strip()) and '&mut' in head:
            found[1].append(('a bool for done or refused', name, line))
        key, size = shape(body)
        if size >= 7 and fn != 'from':
            fns.append((key, name, line, fn))
        for clause in set(clauses):
            if len(clause) > 30:
                clauses_in[re.sub(r'\s+', ' ', clause)].add((name, line))
        params = re.findall(r'(\w+: [^,()]+(?:<[^>]*>)?)(?=[,)\n])', head.split('->')[0])
        for i in range(len(params) - 2):
            params_in[tuple(params[i:i + 3])].add((name, line))
    for m in re.finditer(r'^pub (?:struct|enum) (\w+)[^\n]*\{\n(.*?)^\}', text, re.M | re.S):
        fields = re.sub(r'ghost [^\n]*\n', '', m.group(2))
        key = shape(fields)[0]
        if fields.count(',') >= 2:
            structs.append((key, name, text.count('\n', 0, m.start()) + 1, m.group(1)))
    for m in re.finditer(r'^(?:pub )?trait (\w+)[^\n]*\{\n(.*?)^\}', text, re.M | re.S):
        if len(re.findall(r'^ *fn ', m.group(2), re.M)) == 1:
            found[7].append(('a trait of one function', name, text.count('\n', 0, m.start()) + 1))

for items, what in ((fns, 'functions'), (structs, 'types')):
    groups = collections.defaultdict(list)
    for key, name, line, item in items:
        groups[key].append((name, line, item))
    for group in groups.values():
        if len(group) > 1:
            for name, line, item in group[1:]:
                found[2].append((f'{what} of one text: {item} as {group[0][2]}', name, line))
for table, what in ((clauses_in, 'a clause in several functions'), (params_in, 'parameters that travel together')):
    for key, where in table.items():
        if len(where) >= 3:
            name, line = sorted(where)[0]
            found[5].append((f'{what} ({len(where)}): {key if isinstance(key, str) else ", ".join(key)}'[:150], name, line))

for point in sorted(found):
    kinds = collections.Counter(re.sub(r'[:(].*', '', kind).strip() for kind, _, _ in found[point])
    print(f'point {point}: {len(found[point])}   ' + '; '.join(f'{k} {n}' for k, n in sorted(kinds.items())))
    if verbose:
        for kind, name, line in found[point]:
            print(f'    {name}:{line}  {kind}')
