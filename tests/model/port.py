#!/usr/bin/env python3
"""port.py: a model of what the port does, which reads the table of words of crates/lab_port_words and nothing else.

It reads a source on its standard input, and writes the text, a line `====` and the changes: `python3 tests/port.py
tests/model/port.py` compares it with gcc, and `python3 tests/ported.py tests/model/port.py FOLDER` counts with it.
It needs Python 3 with its standard library alone.
"""
import os
import re
import sys
HERE = os.path.dirname(os.path.abspath(__file__))
with open(os.path.join(HERE, '../../crates/lab_port_words/src/table.rt'), encoding='utf-8') as file:
    WORDSRC = file.read()


def table(name):
    """The rows of a table of the crate: each word with its class."""
    if 'const ' + name not in WORDSRC:
        return {}
    body = WORDSRC[WORDSRC.index('const ' + name):]
    body = body[:body.index('\n];')]
    rows = re.findall('b"([^"]*)",\\s*Class::(\\w+)\\(((?:[^()]|\\([^()]*(?:\\([^()]*\\))?[^()]*\\))*)\\)', body)
    out = {}
    for n, k, a in rows:
        a = re.sub('\\w+::', '', a)
        m = re.match('Lacking\\((\\w+)\\)', a)
        out.setdefault(n, (k,) + ((('Lacking', m.group(1)),) if m else (a,)))
    return out


WORDS, SIGNS = ({**table('LIBRARY'), **table('WORDS')}, table('SIGNS'))
WB = set(b'abcdefghijklmnopqrstuvwxyzABCDEFGHIJKLMNOPQRSTUVWXYZ0123456789_')
DIG = set(b'0123456789')
BL = set(b' \t\r\x0b\x0c')


def cut(s):
    """The pieces of a source: each with its kind, its place and its bytes."""
    i, out = (0, [])
    n = len(s)
    while i < n:
        b = s[i]
        nx = s[i + 1] if i + 1 < n else 0
        j = i + 1
        if b == 10:
            kind = 'LineEnd'
        elif b in BL:
            kind = 'Space'
            while j < n and s[j] in BL:
                j += 1
        elif b == 92:
            kind = 'Space'
            while j < n and s[j] == 13:
                j += 1
            if j < n and s[j] == 10:
                j += 1
        elif b in DIG or (b == 46 and nx in DIG):
            kind = 'Number'
            e = False
            while j < n and (s[j] in WB or s[j] == 46 or (e and s[j] in b'+-')):
                e = s[j] in b'eEpP'
                j += 1
        elif b in WB:
            kind = 'Word'
            while j < n and s[j] in WB:
                j += 1
        elif b in b'"\'':
            kind = 'Text' if b == 34 else 'Character'
            esc = False
            while j < n:
                c = s[j]
                if esc:
                    esc = c == 13
                    j += 1
                elif c == b:
                    j += 1
                    break
                elif c == 10:
                    break
                else:
                    esc = c == 92
                    j += 1
        elif b == 47 and nx == 42:
            kind = 'Comment'
            j = i + 2
            star = False
            while j < n:
                c = s[j]
                j += 1
                if star and c == 47:
                    break
                star = c == 42
        elif b == 47 and nx == 47:
            kind = 'Comment'
            j = i + 2
            sp = False
            while j < n and (sp or s[j] != 10):
                sp = s[j] == 92 or (sp and s[j] == 13)
                j += 1
        else:
            kind = 'Mark'
            for k in (3, 2):
                if bytes(s[i:i + k]) in (b'<<=', b'>>=', b'...', b'<<', b'>>', b'->', b'++', b'--', b'&&', b'||', b'##', b'..') or (k == 2 and len(s[i:i + 2]) == 2 and (s[i + 1] == 61) and (b in b'+-*/%<>=!&|^')):
                    j = i + k
                    break
        out.append((kind, i, bytes(s[i:j])))
        i = j
    return out


def form(t):
    """The form of a number."""
    hexa = t[1:2] in (b'x', b'X')
    if any((c in t for c in (b'.pP' if hexa else b'.eE'))):
        return 'Floating'
    if any((c in t for c in b'uU')):
        return 'Unsigned'
    if any((c in t for c in b'lL')):
        return 'Long'
    return 'One' if t == b'1' else 'Plain'


MOD = b'-+ #0123456789.hljzt'


def fmt(t):
    """Which conversions a text has, as a format."""
    ins = False
    whole = True
    for c in t:
        if not ins:
            ins = c == 37
        elif c in MOD:
            pass
        elif c in b'diu%':
            ins = False
        else:
            whole = False
            break
    if not whole:
        return 'Lacking'
    ins = False
    for c in t:
        if ins:
            if c in MOD or c in b'iu':
                return 'Respelled'
            ins = False
        else:
            ins = c == 37
    return 'Same'


def plain(t):
    """A format with %d in place of each conversion of a whole number."""
    out = bytearray()
    ins = False
    for c in t:
        if not ins:
            out.append(c)
            ins = c == 37
        elif c not in MOD:
            out.append(100 if c in b'iu' else c)
            ins = False
    return bytes(out)


def charnum(t):
    """The number of a character, where it is one ASCII byte or one escape."""
    if len(t) == 3:
        return t[1] if t[1] < 128 else None
    if len(t) == 4 and t[1] == 92:
        return {110: 10, 116: 9, 114: 13, 48: 0, 92: 92, 39: 39, 34: 34}.get(t[2])
    return None


def cls(p):
    """The class of a piece."""
    k, _, t = p
    if k == 'LineEnd':
        return ('LineEnd',)
    if k in ('Space', 'Comment'):
        return ('Join',) if b'\n' in t else ('Gap',)
    if k == 'Word':
        return WORDS.get(t.decode(), ('Word', 'Other'))
    if k == 'Number':
        return ('Number', form(t))
    if k == 'Text':
        return ('Sign', 'Other') if b'\n' in t else ('Text', fmt(t))
    if k == 'Character':
        return ('Character', charnum(t))
    return SIGNS.get(t.decode('latin1'), ('Sign', 'Other'))


GAPS = ('Gap', 'Join', 'LineEnd')
WORDKINDS = ('Type', 'Storage', 'Library', 'Clause', 'Hash', 'Word')
END = ('LineEnd',)


def sign(c, s):
    """Whether a class is this sign."""
    return c == ('Sign', s)


def nth(n, rest):
    """The n-th token that follows."""
    for c in rest:
        if c[0] in GAPS:
            continue
        if n == 0:
            return c
        n -= 1
    return END


def size_to(n, rest):
    """How many pieces there are up to the n-th token, with it."""
    for i, c in enumerate(rest):
        if c[0] in GAPS:
            continue
        if n == 0:
            return i + 1
        n -= 1
    return len(rest)


def call_size(call, rest):
    """How many pieces the list in parentheses has that follows."""
    d = 0
    for i, c in enumerate(rest):
        if c[0] in GAPS:
            continue
        if c[0] == 'Sign':
            s = c[1]
            if s == 'Open':
                if d == 0 or call == 'Any':
                    d += 1
                else:
                    return None
            elif s == 'Close':
                if d == 0:
                    return None
                if d == 1:
                    return i + 1
                d -= 1
            elif s in ('Changes', 'Steps'):
                if d == 0 or call != 'Any':
                    return None
            elif s in ('Semicolon', 'OpenBrace', 'CloseBrace', 'Hash'):
                return None
            elif d == 0:
                return None
        elif d == 0:
            return None
    return None


def statement_size(call, rest):
    """The same, where a semicolon stands behind it."""
    n = call_size(call, rest)
    return n if n is not None and sign(nth(0, rest[n:]), 'Semicolon') else None


def is_float(c):
    """Whether a class is a word of a floating type."""
    return c == ('Type', 'Floating')


def run_end(rest):
    """The first token behind the words here, or a word of a floating type among them."""
    for c in rest:
        if is_float(c) or not (c[0] in GAPS or c[0] in WORDKINDS):
            return c
    return END


def prototype_size(rest):
    """How many pieces a prototype of the library has from here on."""
    name = None
    for i, c in enumerate(rest):
        if c[0] == 'Library':
            name = i + 1
            break
        if not (c[0] in ('Type', 'Storage') or c == ('Word', 'Other') or sign(c, 'Star') or (c[0] in GAPS)):
            return None
    if name is None:
        return None
    l = statement_size('Any', rest[name:])
    if l is None:
        return None
    return name + l + size_to(0, rest[name + l:])


def name_ahead(rest):
    """The first name of the library that follows."""
    for c in rest:
        if c[0] == 'Library':
            return c
    return END


def cast_end(rest):
    """How many pieces a cast has behind its parenthesis, and what it may change."""
    cast = 'Empty'
    for i, c in enumerate(rest):
        if c[0] in GAPS or c[0] == 'Storage':
            continue
        if c[0] == 'Type':
            w = c[1]
            if w == 'Floating':
                return None
            if w in ('Char', 'Short', 'Unsigned', 'Truth'):
                cast = 'Narrow'
            elif w == 'Long':
                cast = 'Narrow' if cast == 'Narrow' else 'Wide'
            elif cast == 'Empty':
                cast = 'Same'
        elif sign(c, 'Close'):
            return None if cast == 'Empty' else (i + 1, cast)
        else:
            return None
    return None


def of_line(rest):
    """The pieces before the next line feed."""
    for i, c in enumerate(rest):
        if c[0] in ('Join', 'LineEnd'):
            return rest[:i]
    return rest


class Ctx:
    __slots__ = ('line', 'braces', 'parens', 'last', 'before', 'typed', 'floating', 'in_main', 'declared')

    def copy(self):
        n = Ctx()
        for k in Ctx.__slots__:
            setattr(n, k, getattr(self, k))
        return n


def first():
    """What stands before the first piece."""
    c = Ctx()
    c.line = 'Fresh'
    c.braces = c.parens = 0
    c.last = c.before = END
    c.typed = c.floating = c.in_main = c.declared = False
    return c


def is_code(l):
    """Whether a line is one of code."""
    return l in ('Fresh', 'Code')


def behind(x, c):
    """What stands before the next piece."""
    if c[0] in ('Gap', 'Join'):
        return x
    if c[0] == 'LineEnd':
        if is_code(x.line):
            n = x.copy()
            n.line = 'Fresh'
            return n
        n = first()
        n.braces, n.in_main, n.declared = (x.braces, x.in_main, x.declared)
        return n
    l = x.line
    if l == 'Fresh':
        l = 'Hash' if sign(c, 'Hash') else 'Code'
    elif l == 'Hash':
        l = {('Hash', 'Include'): 'Include', ('Hash', 'Define'): 'Define', ('Hash', 'Pragma'): 'Pragma'}.get(c, 'Other')
    elif l == 'Pragma':
        l = 'Omp' if c == ('Hash', 'Omp') else 'Ignored'
    n = x.copy()
    n.line = l
    n.before = x.last
    n.last = c
    if sign(c, 'Open'):
        n.parens = x.parens + 1
    elif sign(c, 'Close'):
        n.parens = max(0, x.parens - 1)
    if l == 'Code':
        if sign(c, 'OpenBrace'):
            n.braces = x.braces + 1
        elif sign(c, 'CloseBrace'):
            n.braces = max(0, x.braces - 1)
        w = c[0] in WORDKINDS
        n.typed = w and (x.typed or (c[0] == 'Type' and c[1] not in ('Void', 'Floating')))
        n.floating = w and (x.floating or is_float(c))
        n.in_main = x.in_main if n.braces != 0 else c == ('Word', 'Main') or (x.in_main and (not (sign(c, 'Semicolon') or sign(c, 'CloseBrace'))))
        n.declared = x.declared or (c == ('Library', 'Abort') and x.braces == 0)
    else:
        n.typed = n.floating = False
        n.declared = x.declared or c == ('Hash', 'Stdlib')
    return n


SIGHT = 1024


def facts(all):
    """What the whole source has: names of its own, arguments of main, calls of abort and of assert, conditions."""
    x = first()
    own = args = ab = asr = conditions = False
    for i, c in enumerate(all):
        rest = None
        if c[0] == 'Library':
            rest = all[i + 1:i + 1 + SIGHT]
            if c[1] == 'BroughtIn':
                own = True
            elif x.line in ('Define', 'Other'):
                own = True
            elif is_code(x.line):
                d = x.last[0] == 'Type' or (sign(x.last, 'Star') and x.before[0] == 'Type')
                h = x.braces == 0 and sign(nth(0, rest), 'Open')
                if (d or h) and statement_size('Any', rest) is None:
                    own = True
        if c == ('Word', 'Argument') and (x.braces > 0 or not is_code(x.line)):
            args = True
        body = x.braces > 0 and is_code(x.line)
        if c == ('Library', 'Abort') and body:
            ab = True
        if c == ('Library', 'Assert') and body:
            asr = True
        if x.line == 'Other':
            conditions = True
        x = behind(x, c)
    return (own, args, ab, asr, conditions)


def begins(x):
    """Whether a statement or a declaration may begin here."""
    if x.parens != 0:
        return False
    c = x.last
    return c == END or (c[0] == 'Sign' and c[1] in ('Semicolon', 'OpenBrace', 'CloseBrace', 'Close', 'Colon')) or c == ('Word', 'Branch')


K = ('Kept',)


def chg(r, n=0):
    """A rule applies, and takes so many pieces more."""
    return ('Changed', r, n)


def by(n, r):
    """The same, where a size was found."""
    return K if n is None else chg(r, n)


def has_form(x, rest):
    """Whether a declaration has no pointer and no floating type."""
    if x.floating or sign(x.last, 'Star'):
        return False
    e = run_end(rest)
    return not (sign(e, 'Star') or is_float(e))


def precedes_operand(c):
    """Whether an operand may follow."""
    return c in (('Word', 'Return'), ('Word', 'Branch')) or c[0] not in WORDKINDS


def library(name, x, rest):
    """What a name of the library becomes."""

    def lacking(l):
        return ('Lacking', l) if sign(nth(0, rest), 'Open') else K

    def whole(r):
        return by(statement_size('Pure', rest), r) if begins(x) else K
    if isinstance(name, tuple):
        return lacking(name[1])
    if name == 'Exit':
        if not x.in_main:
            return lacking('Exit')
        return chg('Exit') if begins(x) and statement_size('Any', rest) is not None else K
    if name == 'Setting':
        return whole('Routine')
    if name == 'Wait':
        return whole('Wait')
    if name == 'Zero':
        return by(call_size('Pure', rest), 'Zero')
    if name == 'InParallel':
        return by(call_size('Pure', rest), 'InParallel')
    if name == 'PrintTo':
        if sign(nth(0, rest), 'Open') and sign(nth(2, rest), 'Comma'):
            s = nth(1, rest)
            if s == ('Library', 'ErrorStream'):
                return chg('PrintError', size_to(2, rest))
            if s == ('Library', 'OutputStream'):
                return chg('PrintOut', size_to(2, rest))
        return K
    if name == 'Puts':
        if sign(nth(0, rest), 'Open') and nth(1, rest)[0] == 'Text' and sign(nth(2, rest), 'Close'):
            return whole('Puts')
        return K
    if name in ('One', 'Nought', 'Largest', 'Least'):
        return chg(name)
    return K


def number(f):
    """What a number becomes."""
    return {'Long': chg('Suffix'), 'Unsigned': chg('UnsignedSuffix'), 'Floating': ('Lacking', 'Floating')}.get(f, K)


def code(f, x, c, rest):
    """What a token of code becomes."""
    own, args, ab, asr, _ = f
    if c[0] in ('Type', 'Storage') and x.braces == 0 and begins(x) and (not own):
        n = prototype_size(rest)
        if n is not None:
            return chg('DefineAbort' if name_ahead(rest) == ('Library', 'Abort') and ab and (not x.declared) else 'Storage', n)
    k = c[0]
    if k == 'Sign':
        s = c[1]
        if s == 'Open' and precedes_operand(x.last):
            e = cast_end(rest)
            if e:
                o = nth(0, rest[e[0]:])
                if not (o[0] == 'Sign' and o[1] in ('OpenBracket', 'OpenBrace', 'Semicolon', 'Close', 'Comma')):
                    return chg({'Same': 'Cast', 'Wide': 'WideCast', 'Narrow': 'NarrowCast'}[e[1]], e[0])
            return K
        if s == 'Star' and (x.typed or x.floating or x.last[0] == 'Type'):
            return ('Lacking', 'Pointer')
        if s == 'And' and (x.last[0] == 'Sign' and x.last[1] not in ('Close', 'CloseBracket', 'Steps') or x.last == ('Word', 'Return')):
            return ('Lacking', 'Pointer')
        if s == 'Arrow':
            return ('Lacking', 'Pointer')
        return K
    if k == 'Type':
        w = c[1]
        if w == 'Void':
            return K
        if w == 'Floating':
            return ('Lacking', 'Floating')
        if w == 'Int':
            return chg(('TypeAgain', 'Int')) if x.typed and has_form(x, rest) else K
        if not has_form(x, rest):
            return K
        return chg(('TypeAgain' if x.typed else 'Type', w))
    if k == 'Storage':
        w = c[1]
        if w in ('Plain', 'Auto'):
            return chg('Storage') if has_form(x, rest) else K
        if w == 'Volatile':
            return chg('Volatile') if has_form(x, rest) else K
        if w == 'Static':
            return chg('Storage') if x.braces == 0 and has_form(x, rest) else K
        if w == 'Extern':
            return chg('Storage') if x.braces == 0 and has_form(x, rest) and sign(run_end(rest), 'Open') else K
        return by(call_size('Any', rest), 'Attribute')
    if k == 'Library':
        return K if own else library(c[1], x, rest)
    if k == 'Word':
        if c[1] == 'Main':
            if x.braces == 0 and sign(nth(0, rest), 'Open') and (nth(1, rest) == ('Type', 'Int')) and (nth(2, rest) == ('Word', 'Argument')) and (not args):
                return by(call_size('Any', rest), 'Main')
            return K
        if isinstance(c[1], tuple):
            return ('Lacking', c[1][1])
        return K
    if k == 'Number':
        return number(c[1])
    if k == 'Text':
        return {'Same': K, 'Respelled': chg('Format'), 'Lacking': ('Lacking', 'Conversion')}[c[1]]
    if k == 'Character':
        return chg(('Character', c[1])) if precedes_operand(x.last) and c[1] is not None else K
    return K


def include(f, x, rest):
    """What an include becomes."""
    own, args, ab, asr, conditions = f
    if conditions or not (nth(0, rest) == ('Hash', 'Include') and sign(nth(1, rest), 'Less') and (nth(2, rest) not in (('Hash', 'Stdio'), ('Hash', 'Omp')))):
        return K
    n = next((i + 1 for i, c in enumerate(rest) if sign(c, 'Greater')), None)
    h = nth(2, rest)
    r = 'Include'
    if h == ('Hash', 'Stdlib') and ab and (not (own or x.declared)):
        r = 'DefineAbort'
    elif h == ('Library', 'Assert') and asr and (not own):
        r = 'DefineAssert'
    return by(n, r)


def directive(x, c, rest):
    """What a token of a directive becomes."""
    kind = x.before == ('Clause', 'Schedule') and sign(x.last, 'Open')

    def dropped(n):
        if x.parens != 0 or n is None:
            return K
        comma = sign(nth(0, rest[n:]), 'Comma')
        if sign(x.last, 'Comma') and (not comma):
            return K
        return chg('DropClause', n + size_to(0, rest[n:]) if comma else n)
    if c[0] == 'Clause':
        w = c[1]
        if w == 'Guided':
            return chg('Dynamic') if kind else K
        if w == 'Runtime':
            return chg('Static') if kind else K
        if w == 'Bare':
            return dropped(0)
        if w == 'Called':
            return dropped(call_size('Pure', rest))
        if w == 'Collapse':
            if sign(nth(0, rest), 'Open') and nth(1, rest) == ('Number', 'One') and sign(nth(2, rest), 'Close'):
                return dropped(size_to(2, rest))
            return K
        if w == 'Lacking':
            return ('Lacking', 'Directive') if x.parens == 0 else K
        return K
    if c == ('Storage', 'Auto'):
        return chg('Static') if kind else K
    if sign(c, 'Minus') and x.before == ('Clause', 'Reduction') and sign(x.last, 'Open'):
        return chg('Plus')
    return K


LEAVES = ('Attribute', 'Volatile', 'Cast', 'WideCast', 'NarrowCast', 'DropClause')


def marks(all):
    """What each piece of a source becomes."""
    f = facts(all)
    x = first()
    taken = 0
    drops = False
    out = []
    for i, c in enumerate(all):
        if taken == 0:
            rest = all[i + 1:i + 1 + SIGHT]
            if x.line == 'Fresh':
                m = include(f, x, of_line(rest)) if sign(c, 'Hash') else code(f, x, c, rest)
            elif x.line == 'Code':
                m = code(f, x, c, rest)
            elif x.line == 'Define':
                m = number(c[1]) if c[0] == 'Number' else K
            elif x.line == 'Omp':
                m = directive(x, c, of_line(rest))
            else:
                m = K
            taken2 = m[2] if m[0] == 'Changed' else 0
        else:
            m = ('Taken',)
            taken2 = taken - 1
        drops = m[1] in LEAVES if m[0] == 'Changed' else drops if m[0] == 'Taken' else False
        if not drops:
            x = behind(x, c)
        taken = taken2
        out.append(m)
    return out


FIXED = {
    'One': b'1',
    'Nought': b'0',
    'Largest': b'2147483647',
    'Least': b'(-2147483647 - 1)',
    'DefineAbort': b'void abort(void) { while (1/0) ; }',
    'DefineAssert': b'void assert(int assert__ok) { if (assert__ok == 0) assert__ok = 1/0; }',
    'Exit': b'return',
    'Zero': b'0',
    'InParallel': b'(omp_get_num_threads() > 1)',
    'PrintError': b'printf(',
    'PrintOut': b'printf(',
    'Main': b'main(void)',
    'Dynamic': b'dynamic',
    'Static': b'static',
    'Plus': b'+',
}


def new(r, t, taken):
    """What a rule writes for a token and the pieces that it takes."""
    if isinstance(r, tuple):
        return b'int' if r[0] == 'Type' else b'' if r[0] == 'TypeAgain' else b' %d' % r[1]
    if r in ('Suffix', 'UnsignedSuffix'):
        return bytes((c for c in t if c not in b'uUlL'))
    if r == 'Format':
        return plain(t)
    if r == 'Puts':
        tx = next((p[2] for p in taken if p[0] == 'Text'))
        return b'printf(' + tx[:-1].replace(b'%', b'%%') + b'\\n")'
    return FIXED.get(r, b'')


def blanks(owed, old):
    """Replaced bytes as white space, behind those whose columns the new text takes."""
    out = bytearray()
    for b in old:
        if b == 10 or owed == 0:
            out.append(b if b in b'\n \t\r' else 32)
        else:
            owed -= 1
    return bytes(out)


def staged(src, edits):
    """A text with these edits of its pieces, and its changes."""
    ps, changes, out, at = (cut(src), [], bytearray(), 0)
    for i, taken, rule, nw in edits(ps):
        old = b''.join((q[2] for q in ps[i:i + 1 + taken]))
        nw = flat(nw)
        changes.append((ps[i][1], rule, old, nw))
        out += src[at:ps[i][1]] + nw + blanks(len(nw), old)
        at = ps[i][1] + len(old)
    return (bytes(out + src[at:]), changes)


def ruled(src):
    """The text that a text becomes by the rules of the last stage, its changes, and its tokens without a form."""
    ps = cut(src)
    ms = marks([cls(p) for p in ps])
    changes, lacks, out, at = ([], [], bytearray(), 0)
    for i, (p, m) in enumerate(zip(ps, ms)):
        if m[0] == 'Changed':
            taken = ps[i + 1:i + 1 + m[2]]
            old = p[2] + b''.join((q[2] for q in taken))
            nw = new(m[1], p[2], taken)
            changes.append((p[1], m[1], old, nw))
            out += src[at:p[1]] + nw + blanks(len(nw), old)
            at = p[1] + len(old)
        elif m[0] == 'Lacking':
            lacks.append((p[1], m[1]))
    out += src[at:]
    return (bytes(out), changes, lacks)


WARNINGS = {
    'FlatArray': 'wrong value',
    'EnumerationType': 'wrong value',
    'EnumerationTypedef': 'wrong value',
    'List': 'differs',
    'Fill': 'differs',
    'Volatile': 'hides races',
    'Wait': 'hides races',
    'UnsignedSuffix': 'wrong value',
    'NarrowCast': 'wrong value',
    'Zero': 'wrong value',
    'InParallel': 'wrong value',
    'Suffix': 'fault',
    'WideCast': 'fault',
    'Attribute': 'differs',
    'Routine': 'differs',
    'PrintError': 'differs',
    'Format': 'differs',
    'Main': 'differs',
    'Dynamic': 'differs',
    'Static': 'differs',
}
TYPES = {
    'Long': 'fault',
    'Char': 'wrong value',
    'Short': 'wrong value',
    'Unsigned': 'wrong value',
    'Truth': 'wrong value',
}


def warning(rule):
    """How a change by this rule may change what the program does."""
    if isinstance(rule, tuple):
        return TYPES.get(rule[1]) if rule[0].startswith('Type') else None
    return WARNINGS.get(rule)


NAMES = {
    'Macro': 'macro',
    'Use': 'name',
    'Enumeration': 'enum',
    'EnumerationType': 'enum',
    'EnumerationTypedef': 'enum',
    'Typedef': 'typedef',
    'List': 'list',
    'FileList': 'list',
    'Fill': 'list',
    'Length': 'length',
    'FlatArray': 'flat',
    'FlatIndex': 'flat',
    'Text': 'text',
    'Include': 'include',
    'Storage': 'storage',
    'Attribute': 'storage',
    'Volatile': 'volatile',
    'Suffix': 'suffix',
    'UnsignedSuffix': 'unsigned',
    'One': 'constant',
    'Nought': 'constant',
    'Largest': 'constant',
    'Least': 'constant',
    'DefineAbort': 'abort',
    'DefineAssert': 'assert',
    'Exit': 'exit',
    'Routine': 'routine',
    'Zero': 'asks',
    'InParallel': 'asks',
    'Wait': 'wait',
    'PrintError': 'stderr',
    'PrintOut': 'stderr',
    'Puts': 'puts',
    'Format': 'format',
    'Cast': 'cast',
    'WideCast': 'cast',
    'NarrowCast': 'cast',
    'Main': 'main',
    'Dynamic': 'kind',
    'Static': 'kind',
    'DropClause': 'drop-clause',
    'Plus': 'reduction',
}
FAULT_WORDS = 'a result that does not fit is the fault F1'
WORDS_OF = {
    'FlatArray': 'an index past its row stays in the array, and is no fault F3',
    'EnumerationType': 'a negative value differs',
    'EnumerationTypedef': 'a negative value differs',
    'List': 'the stores are steps',
    'Fill': 'the stores are steps',
    'Volatile': 'no read or write is kept or added by it here',
    'Wait': 'no time passes, and the schedule decides',
    'UnsignedSuffix': 'an operand that is negative or above 2147483647 differs',
    'NarrowCast': 'the value is not cut to the type',
    'Attribute': 'what it asks for is not done here',
    'Suffix': FAULT_WORDS,
    'WideCast': FAULT_WORDS,
    'Zero': 'the answer is 0 here',
    'InParallel': 'in a team of one in a larger team the answer is 0',
    'Routine': 'one level of teams is active, and its size is not adjusted',
    'PrintError': 'it is printed to the output',
    'Format': 'widths, flags and lengths are left out',
    'Main': 'there are no arguments',
    'Dynamic': 'other threads may make an iteration',
    'Static': 'other threads may make an iteration',
}
TYPE_WORDS = {
    'Long': FAULT_WORDS,
    'Char': 'it does not wrap',
    'Short': 'it does not wrap',
    'Truth': 'a value other than 0 and 1 is kept as it is',
    'Unsigned': 'a value above 2147483647 or a negative one differs; a sum that wraps is the fault F1',
}
LACKS = {
    'Floating': ('floating point has no form here', 'write int in smaller units, or leave the measurement out'),
    'Pointer': ('a pointer has no form here', 'pass an index of a global array'),
    'Statement': ('this word has no form here', 'write it with if and while'),
    'Struct': ('a struct has no form here', 'write one variable or array for each member'),
    'Union': ('a union has no form here', 'write one variable for each member'),
    'Exit': ('an exit outside of main has no form here', 'return to main, and end there'),
    'Lock': ('a lock has no form here', 'write #pragma omp critical (NAME) before what it guards'),
    'Threads': ('the number of threads is not known here', 'write num_threads(N) at each parallel, and N for the question'),
    'Conversion': ('this conversion has no form here', 'print whole numbers by %d, and write one printf for each text'),
    'Directive': ('this word has no form here', 'docs/PORTING.md says what to write for it'),
    'Memory': ('the length is not known here', 'write a global array of a fixed length'),
    'Input': ('a program has no input here', 'write a #define for each value'),
    'Random': ('random numbers of the library have no form here', 'write a function for them'),
}


def name(rule):
    """The name of a rule in the list."""
    if rule[0] == 'Character':
        return 'constant'
    if isinstance(rule, tuple):
        return {'Unsigned': 'unsigned', 'Truth': 'bool'}.get(rule[1], 'narrow')
    return NAMES[rule]


def flat(text):
    """A text on one line."""
    return text.replace(b'\n', b' ').replace(b'\r', b' ')


def excerpt(source, at):
    """The line of a place, with a caret under the place; at most 200 bytes on each side are shown."""
    begin = source.rfind(b'\n', 0, at) + 1
    front = source[begin:at]
    if len(front) > 200:
        return b''
    rest = re.match(b'[^\\r\\n]*', source[at:at + 200])[0]
    number = b'%d' % (source.count(b'\n', 0, at) + 1)
    below = b''.join((b'\t' if b == 9 else b'' if 128 <= b < 192 else b' ' for b in front))
    return b' %s | %s%s\n %s | %s^\n' % (number, front, rest, b' ' * len(number), below)


def listing(source, changes, lacks):
    """The lines of the changes and their warnings, and then what is told of tokens without a form."""
    out = []
    for at, rule, old, new_ in changes:
        place = b'my.c:%d: ' % (source.count(b'\n', 0, at) + 1)
        becomes = b' is ' + new_ if new_ else b' is left out'
        out.append(place + b'changed: ' + name(rule).encode() + b': ' + flat(old) + becomes + b'\n')
        if warning(rule):
            words = TYPE_WORDS[rule[1]] if isinstance(rule, tuple) else WORDS_OF[rule]
            out.append(place + f'warning: {warning(rule)}: {name(rule)}: {words}\n'.encode())
    for at, lack in lacks:
        line, column = (source.count(b'\n', 0, at) + 1, at - source.rfind(b'\n', 0, at))
        words, help_ = LACKS[lack]
        out.append(f'my.c:{line}:{column}: error: port: {words}\n'.encode() + excerpt(source, at) + f'help: {help_}\n'.encode())
    return b''.join(out)


def main():
    """Ports the source on the standard input."""
    from port_arguments import argument_edits
    from port_arrays import array_edits
    from port_calls import call_edits
    from port_conditions import condition_edits
    from port_prints import print_edits
    from port_sizes import size_edits
    from port_stages import list_edits, name_edits
    source = sys.stdin.buffer.read()
    decided, conditions = staged(source, condition_edits)
    called, calls = staged(decided, call_edits)
    named, names = staged(called, name_edits)
    given, arguments = staged(named, argument_edits)
    sized, arrays = staged(given, array_edits)
    listed, lists = staged(sized, list_edits)
    counted, sizes = staged(listed, size_edits)
    printed, texts = staged(counted, print_edits)
    again, more = staged(printed, print_edits)
    text, changes, lacks = ruled(again)
    told = listing(source, conditions, []) + listing(decided, calls, []) + listing(called, names, []) + listing(named, arguments, []) + listing(given, arrays, []) + listing(sized, lists, [])
    told += listing(listed, sizes, []) + listing(counted, texts, []) + listing(printed, more, []) + listing(again, changes, lacks)
    sys.stdout.buffer.write(text + b'====\n' + told)


if __name__ == '__main__':
    main()
