#!/usr/bin/env python3
"""Brings the repository's own names of specs and proofs to today's spelling.

Run it at the top of the repository. It applies the table respell.tsv (old name,
tab, new name), which stands beside it, to every place where such a name is used.
A second run changes nothing.

With --table it prints the table, as it is worked out from the tree before the
first run, and on the error stream the names that would fall together.
"""
import collections
import glob
import os
import re
import sys

HERE = os.path.dirname(os.path.abspath(__file__))
TABLE = os.path.join(HERE, 'respell.tsv')

# What parts one name of antt from the next.
BREAK = r'\s(){}\[\].,;"`'
WORD = re.compile('[^' + BREAK + ']+')
# A name in prose, in Rust or in a clause.
PLAIN = re.compile(r"[A-Za-z_][A-Za-z0-9_'₀-₉]*(?:-[A-Za-z0-9_'₀-₉]+)*")
MODIFIERS = {'pub', 'abbrev', 'unfoldable'}
SKIP = {'use', 'let', 'in', 'by', 'module', 'record', 'data', 'unfolding', 'λ', '→', '|', 'where'}

# Words of the library that a name may be made of.
STD = set('''length take drop append map set get_or lookup reverse replicate zero suc add sub mul le lt leb ltb
eqb and or not cond true false cons nil sum paste sets xor keep flatten flat_map filter get_or max min some none'''.split())

# Names whose new spelling is chosen by hand: what the rule gives would be read as another name.
BY_HAND = {
    # fields that say where a body stands: `c.keys_at` is the contents' own field
    'keysAt': 'keys_placed', 'valEndsAt': 'val_ends_placed', 'valsAt': 'vals_placed', 'timeEndsAt': 'time_ends_placed',
    'timesAt': 'times_placed', 'diffEndsAt': 'diff_ends_placed', 'diffsAt': 'diffs_placed',
    # the same in another record, beside the functions keyPlace, valPlace, timePlace
    'key-place': 'key_placed', 'val-place': 'val_placed', 'time-place': 'time_placed',
    # the ends in a place: the walker has v_end, t_end and d_end
    'vEnd': 'val_end', 'tEnd': 'time_end', 'dEnd': 'diff_end',
    'vEndIs': 'val_end_is', 'tEndIs': 'time_end_is', 'dEndIs': 'diff_end_is',
    'readTEnd': 'read_time_end', 'readDEnd': 'read_diff_end', 'withTEnd': 'with_time_end', 'withDEnd': 'with_diff_end',
    # a lemma and a local function beside the function nextVal
    'next-val': 'next_val_lem',
    # fields, in a record whose functions are keyReports, valReports, timeReports
    'key-reports': 'keys_surveyed', 'val-reports': 'vals_surveyed', 'time-reports': 'times_surveyed',
    # an example beside the list suffixA and the lemma suffix-A
    'suffix-a': 'suffix_example',
    # lemmas that already have the spelling which a function or field of theirs gets now
    'same_key': 'same_key_lem', 'laid_by': 'laid_by_lem', 'number_by': 'number_by_lem', 'split_rest': 'split_rest_lem',
    'keys_kept': 'keys_kept_lem', 'only_that': 'only_that_lem', 'keys_in': 'keys_in_lem',
    # lemmas that would have the name of a function which is in snake case already
    'same-list': 'same_list_lem', 'last-of': 'last_of_lem', 'low-of': 'low_of_lem',
    # lemmas of two chunks that are joined, beside the lemmas and fields of one
    'val-ends-in': 'val_ends_in_joined', 'time-ends-in': 'time_ends_in_joined', 'diff-ends-in': 'diff_ends_in_joined',
    'diff-ends-up': 'diff_ends_raised',
}

# Those of them that are in snake case already, and the name that makes them give way. They are
# turned only while that name is still spelled the old way, so that a second run changes nothing.
GIVES_WAY = {
    'same_key': 'sameKey', 'laid_by': 'laidBy', 'number_by': 'numberBy', 'split_rest': 'splitRest',
    'keys_kept': 'keysKept', 'only_that': 'onlyThat', 'keys_in': 'keysIn',
}

# Names that the kit's own script turned in the proofs and clauses, and left in prose and in must-fail edits.
TURNED_BEFORE = {
    'chunkOf': 'chunk_of', 'layoutOf': 'layout_of', 'runOf': 'run_of', 'takenOf': 'taken_of',
    'merge-step': 'merge_step', 'merged-by': 'merged_by', 'second-empty': 'second_empty', 'split-step': 'split_step',
}

# Words that an older library spelled otherwise.
OLD_WORDS = {'getD': 'get_or'}


def read(path):
    with open(path, encoding='utf-8') as f:
        return f.read()


def antt_files():
    fs = glob.glob('crates/*/specs/**/*.antt', recursive=True) + glob.glob('crates/*/proofs/**/*.antt', recursive=True)
    return sorted(fs)


def rt_files():
    return sorted(glob.glob('crates/*/src/**/*.rt', recursive=True))


def edit_files():
    return sorted(glob.glob('crates/*/must-fail/*.edit'))


def prose_files():
    # docs/PORT.md sets old names beside new ones, and keeps both
    return [f for f in ['README.md'] if os.path.exists(f)] + sorted(f for f in glob.glob('docs/**/*.md', recursive=True) if f != 'docs/PORT.md')


def is_camel(word):
    """A lower-case name with a capital right after a small letter or digit."""
    return bool(re.match(r'[a-z]', word) and re.search(r'[a-z0-9][A-Z]', word))


def marked(word):
    """An old spelling that can be told by its look."""
    return is_camel(word) or '-' in word


def snake(word):
    word = re.sub(r'Or0$', 'Or_0', word)
    word = re.sub(r'([a-z0-9])([A-Z])', r'\1_\2', word)
    word = re.sub(r'([A-Z])([A-Z][a-z])', r'\1_\2', word)
    return word.lower()


def split_comment(line):
    m = re.search(r'(^|\s)--(\s|$)', line)
    return (line[:m.start()], line[m.start():]) if m else (line, '')


def own_module(path):
    """The file of a path like Rattle.chunk.specs.Words, or None."""
    parts = path.split('.')
    if len(parts) < 3 or parts[0] != 'Rattle':
        return None
    f = os.path.join('crates', *parts[1:]) + '.antt'
    return f if os.path.exists(f) else None


class File:
    """One .antt file: its lines, what it takes from the library, its short names of own modules."""

    def __init__(self, path, text=None):
        self.path = path
        self.text = read(path) if text is None else text
        self.foreign, self.aliases, self.imports = set(), set(), set()
        code = '\n'.join(split_comment(l)[0] for l in self.text.split('\n'))
        for m in re.finditer(r'^[ \t]*use[ \t]+([^\s{]+?)(?:\.\{([^}]*)\}|[ \t]+as[ \t]+(\S+))?[ \t]*$', code, re.M):
            where, names, alias = m.groups()
            own = own_module(where)
            if names is not None:
                found = set(WORD.findall(names))
                (self.imports if own else self.foreign).update(found)
            elif alias and own:
                self.aliases.add(alias)
        self.code = code
        # names that this file declares at the left or takes from our own files
        self.own = self.imports | set(re.findall(r'^\s*(?:(?:pub|abbrev|unfoldable)\s+)*([^' + BREAK + r'=:]+)\s*:(?:\s|$)', code, re.M))

    def tokens(self):
        """(start, end, token, what stands before the dot or None, text after) of every name outside comments and paths."""
        pos = 0
        for line in self.text.split('\n'):
            code, _ = split_comment(line)
            first = 0
            m = re.match(r'\s*use\s+[^\s{]+', code)
            if m:
                first = m.end()
                if '{' not in code:
                    pos += len(line) + 1
                    continue
            for t in WORD.finditer(code, first):
                s = t.start()
                before = None
                if s and code[s - 1] == '.' and s > 1 and not code[s - 2].isspace():
                    b = re.search('[^' + BREAK + ']+$', code[:s - 1])
                    before = b.group(0) if b else ')'
                yield pos + s, pos + t.end(), t.group(0), before, code[t.end():]
            pos += len(line) + 1


def chain_is_own(f, start):
    """Whether the text before the dot is a full path of an own module."""
    m = re.search(r'Rattle\.[A-Za-z0-9_.+]+$', f.text[max(0, start - 200):start - 1])
    return bool(m and own_module(m.group(0)))


# What Rattle's own steps have: a name that stands before one of these is a step.
STEP_PARTS = re.compile(r"\.(ensures|requires|result|args|true|false|invariant|before|loop|init)(?![^" + BREAK + "])")


def turned(f, token, before, after, start, fields):
    """Whether this token of an .antt file is a name that the table speaks of."""
    if before is None:
        if token in GIVES_WAY:
            return token in f.own
        return token not in f.foreign
    if is_camel(token):
        return True
    if before in f.aliases or chain_is_own(f, start):
        return True
    return token in fields and not STEP_PARTS.match(after)


def declared(f):
    """(name, kind, type text) of every declaration: field, constructor, definition, lemma, made (named after what Rattle makes)."""
    block, indent = None, 0
    for line in f.code.split('\n'):
        if not line.strip():
            continue
        depth = len(line) - len(line.lstrip())
        if block and depth <= indent:
            block = None
        m = re.match(r'\s*((?:pub\s+)?)(record|data)\s+([^' + BREAK + r']+)(.*)', line)
        if m and m.group(3) != '{' and re.search(r'\bwhere\s*$', line):
            block, indent = m.group(2), depth
            yield m.group(3), 'type', m.group(4)
            continue
        words = line.split()
        mods = []
        while words and words[0] in MODIFIERS:
            mods.append(words.pop(0))
        if not words or words[0] in SKIP:
            continue
        rest = line.strip()
        for w in mods:
            rest = rest[len(w):].lstrip()
        m = re.match(r'((?:[^' + BREAK + r'=:]+\s+)*[^' + BREAK + r'=:]+)\s*:(\s.*|$)', rest)
        if not m:
            # names with parameters in front of the colon
            m = re.match(r'([^' + BREAK + r'=:]+)\s+[({][^=]*[)}]\s*:(\s.*|$)', rest)
            if not m:
                continue
        for name in m.group(1).split():
            if block == 'record':
                kind = 'field'
            elif block == 'data':
                kind = 'constructor'
            elif re.match(r"\s*[a-z_-]+'?\.\S", m.group(2)) and f.path.endswith('/Proof.antt'):
                kind = 'made'
            elif mods and ('abbrev' in mods or 'unfoldable' in mods):
                kind = 'definition'
            else:
                kind = 'lemma'
            yield name, kind, m.group(2)


def joined(name, known):
    """The name with a dash between two names and _ elsewhere."""
    segs = []
    for s in name.split('-'):
        if s in OLD_WORDS:
            segs.append(OLD_WORDS[s])
        elif is_camel(s):
            segs.append(snake(s))
        else:
            segs.append(s)
    parts, i = [], 0
    while i < len(segs):
        for j in range(len(segs), i, -1):
            run = '_'.join(segs[i:j])
            if run in known and len(run) > 1 and not (j - i == len(segs)):
                parts.append((run, True))
                i = j
                break
        else:
            parts.append((segs[i], False))
            i += 1
    out = parts[0][0]
    for (a, x), (b, y) in zip(parts, parts[1:]):
        out += ('-' if x and y else '_') + b
    return out


def table(files):
    kinds = collections.defaultdict(set)
    where = collections.defaultdict(set)
    for f in files:
        for name, kind, _ in declared(f):
            kinds[name].add(kind)
            where[name].add(f.path)
    defs = {n for n in kinds if kinds[n] & {'field', 'constructor', 'definition', 'type'}}
    spelled = {(snake(n) if is_camel(n) else n).replace('-', '_') for n in defs if re.match(r'[A-Za-z]', n)}
    rows = {}
    seen = {}
    for f in files:
        toks = set()
        for _, _, t, before, _ in f.tokens():
            toks.add(t)
        seen[f.path] = {(snake(t) if is_camel(t) else t).replace('-', '_') for t in toks} & spelled
    for f in files:
        for _, _, t, before, _ in f.tokens():
            if t in f.foreign or '-' in t or not is_camel(t):
                continue
            rows[t] = snake(t)
    for name in kinds:
        if '-' not in name.strip('-') or '◌' in name or name.startswith('--'):
            continue
        if name.endswith('-spec') and any(p.endswith('/Proof.antt') for p in where[name]):
            rows[name] = name.replace('-', '_')
            continue
        if kinds[name] == {'made'}:
            continue
        known = set(STD)
        for p in where[name]:
            known |= seen[p]
        rows[name] = joined(name, known)
    rows.update(BY_HAND)
    # a lemma that would have the name of a function, field or constructor gets _lem
    taken = {rows[n] for n in rows if kinds.get(n) != {'lemma'}}
    for name in sorted(rows):
        if kinds.get(name) == {'lemma'} and name not in BY_HAND and rows[name] in taken:
            rows[name] += '_lem'
    rows.update(TURNED_BEFORE)
    return {a: b for a, b in rows.items() if a != b}, kinds, where


def field_names(files):
    names = set()
    for f in files:
        names |= {n for n, k, _ in declared(f) if k == 'field'}
    return names


def collisions(files, rows, kinds):
    """Pairs of different names that would be one: in a file, or in the table."""
    back = collections.defaultdict(set)
    for a, b in rows.items():
        back[b].add(a)
    for b, olds in sorted(back.items()):
        if len(olds) > 1:
            print('two to one:', ' '.join(sorted(olds)), '->', b, file=sys.stderr)
    fields = field_names(files)
    hits = collections.defaultdict(list)
    for f in files:
        olds, other = set(), set()
        for s, e, t, before, after in f.tokens():
            if turned(f, t, before, after, s, fields) and t in rows:
                olds.add(t)
            else:
                other.add((t, before is not None))
        for t in olds:
            if (rows[t], False) in other:
                hits[t, rows[t], 'bare'].append(f.path)
            elif (rows[t], True) in other:
                hits[t, rows[t], 'dot'].append(f.path)
    for (a, b, how), ps in sorted(hits.items()):
        print('falls together (%s): %s -> %s in %s [%s]' % (how, a, b, ' '.join(ps[:3]), ','.join(sorted(kinds.get(a, [])))), file=sys.stderr)
    for path in rt_files():
        text = read(path)
        names = set(re.findall(r'^\s*(?:pub\s+)?(?:const|static|type|struct|enum)\s+(\w+)', text, re.M))
        names |= set(re.findall(r'^\s+(?:pub\s+)?(\w+): ', text, re.M))
        crate = path.split('/')[1]
        cited = {t for s, e in clauses(text) for t in PLAIN.findall(text[s:e]) if t in rows}
        for t in sorted(cited):
            if rows[t] in names:
                print('falls together (field or const in .rt): %s -> %s in %s' % (t, rows[t], path), file=sys.stderr)
        for m in re.finditer(r'\bfn\s+(\w+)', text):
            nxt = re.compile(r'\bfn\s+\w+').search(text, m.end())
            piece = text[m.start():nxt.start() if nxt else len(text)]
            params = set(re.findall(r'\b(?:ghost\s+)?(\w+)\s*:', piece)) | set(re.findall(r'\blet\s+(?:mut\s+)?(\w+)', piece))
            here = {t for s, e in clauses(piece) for t in PLAIN.findall(piece[s:e]) if t in rows}
            for t in sorted(here):
                if rows[t] in params:
                    print('falls together (parameter in .rt): %s -> %s in %s fn %s' % (t, rows[t], path, m.group(1)), file=sys.stderr)


def clauses(text):
    """The spans of ghost imports, of requires, ensures and ghost clauses."""
    for m in re.finditer(r'\b(?:ghost\s+use\b|requires\b|ensures\b|ghost\b)', text):
        if m.group(0).endswith('use'):
            e = text.find(';', m.start())
            yield m.start(), (e if e >= 0 else len(text))
            continue
        i = text.find('{', m.end())
        if i < 0 or re.search(r'[;\n]\s*\n|;', text[m.end():i]):
            continue
        depth, j = 0, i
        while j < len(text):
            if text[j] == '{':
                depth += 1
            elif text[j] == '}':
                depth -= 1
                if depth == 0:
                    break
            j += 1
        yield m.start(), min(j + 1, len(text))


def turn_antt(f, rows, fields):
    out, last = [], 0
    text = f.text

    def comments(piece):
        # the prose of comments that stand in this piece
        lines = piece.split('\n')
        for i, l in enumerate(lines):
            code, rest = split_comment(l)
            if rest:
                lines[i] = code + turn_prose(rest, rows)
        return '\n'.join(lines)

    # names first, from the back, so that places stay right
    spots = []
    for s, e, t, before, after in f.tokens():
        if t in rows and turned(f, t, before, after, s, fields):
            spots.append((s, e, rows[t]))
    for s, e, new in spots:
        out.append(text[last:s])
        out.append(new)
        last = e
    out.append(text[last:])
    return comments(''.join(out))


def turn_prose(text, rows):
    """Camel-case names anywhere, other names between backticks."""
    def one(m):
        t = m.group(0)
        return rows[t] if t in rows and is_camel(t) and '-' not in t else t

    def quoted(m):
        return PLAIN.sub(lambda n: rows.get(n.group(0), n.group(0)) if marked(n.group(0)) else n.group(0), m.group(0))

    parts = re.split(r'(`[^`\n]+`)', text)
    return ''.join(quoted(re.match(r'.*', p, re.S)) if i % 2 else PLAIN.sub(one, p) for i, p in enumerate(parts))


def turn_rt(text, rows):
    """Camel-case names outside strings, other names in clauses."""
    inside = list(clauses(text))
    strings = [m.span() for m in re.finditer(r'"(?:[^"\\\n]|\\.)*"', text)]

    def one(m):
        t, s = m.group(0), m.start()
        if t not in rows or not marked(t) or any(a <= s < b for a, b in strings):
            return t
        if is_camel(t) and '-' not in t:
            return rows[t]
        return rows[t] if any(a <= s < b for a, b in inside) else t

    return PLAIN.sub(one, text)


def write(path, old, new):
    if old != new:
        with open(path, 'w', encoding='utf-8') as f:
            f.write(new)
        return 1
    return 0


def main():
    files = [File(p) for p in antt_files()]
    if '--table' in sys.argv[1:]:
        rows, kinds, _ = table(files)
        for a in sorted(rows):
            print(a + '\t' + rows[a])
        collisions(files, rows, kinds)
        return
    rows = dict(l.split('\t') for l in read(TABLE).split('\n') if l)
    old = {t for f in files for t in f.own}
    rows = {a: b for a, b in rows.items() if a not in GIVES_WAY or GIVES_WAY[a] in old}
    # fields keep being known after they are turned
    fields = field_names(files)
    n = 0
    for f in files:
        n += write(f.path, f.text, turn_antt(f, rows, fields))
    for p in rt_files() + edit_files():
        n += write(p, read(p), turn_rt(read(p), rows))
    for p in prose_files():
        n += write(p, read(p), turn_prose(read(p), rows))
    print('respell: %d files changed' % n)


if __name__ == '__main__':
    main()
