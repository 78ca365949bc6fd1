"""The lexer of the model: the tokens of a source, by docs/LANGUAGE.md, "Bytes and tokens" and "`#` lines" (C17 6.4 and 6.10)."""
import re
from collections import namedtuple


class Refused(Exception):
    """A source is refused: the number of its S code, and the byte where that stands."""

    def __init__(self, code, place):
        super().__init__(code, place)
        self.code, self.place = code, place


LARGEST_SOURCE = 1048576
MOST_KEPT = 4194304
INT_MAX = 2147483647
LONGEST_NAME = 63
MOST_MACROS = 1024
# The kinds are name, number, text, mark (a punctuator), directive, directive_end and end.
Token = namedtuple("Token", "kind value place end")
# C17 6.4.1
KEYWORDS = set("""auto break case char const continue default do double else enum extern float for goto if
inline int long register restrict return short signed sizeof static struct switch typedef union unsigned void
volatile while _Alignas _Alignof _Atomic _Bool _Complex _Generic _Imaginary _Noreturn _Static_assert
_Thread_local""".split())
WORD = re.compile(rb"[A-Za-z0-9_]+")
TEXT = re.compile(rb'"(?:[ !#-\[\]-~\t]|\\[nt\\"])*"')
MARK = re.compile(rb"\+\+|--|[-+*/%=!<>]=|&&|\|\||[-+*/%=<>!?:;,()\[\]{}]")
CONSTANT = re.compile(rb"0x[0-9a-fA-F]+|0[0-7]*|[1-9][0-9]*")
HEADER = re.compile(rb"<(stdio|omp)\.h>")
ESCAPES = {b"n": b"\n", b"t": b"\t", b"\\": b"\\", b'"': b'"'}


class Lexer:
    def __init__(self, source):
        self.source, self.tokens, self.macros = source, [], {}

    def blank(self, at):
        """The place behind the white space and comments from `at` on that ends no line (C17 6.4p3, 6.4.9)."""
        source = self.source
        while at < len(source):
            byte = source[at:at + 1]
            if byte in b" \t\r":
                at += 1
            elif byte == b"\\" and (source[at + 1:at + 2] == b"\n" or source[at + 1:at + 3] == b"\r\n"):
                at = source.index(b"\n", at) + 1
            elif source.startswith(b"//", at):
                at = source.find(b"\n", at)
                at = len(source) if at < 0 else at
            elif source.startswith(b"/*", at):
                end = source.find(b"*/", at + 2)
                if end < 0:
                    raise Refused(2, at)
                at = end + 2
            else:
                break
        return at

    def at_end(self, at):
        """Whether a line ends there."""
        return at >= len(self.source) or self.source[at:at + 1] == b"\n"

    def hash_line(self, place):
        """Reads a `#` line that begins there; gives the place behind it, or of the rest of a directive (C17 6.10)."""
        at = self.blank(place + 1)
        found = WORD.match(self.source, at)
        word = found.group() if found else b""
        if word not in (b"include", b"define", b"pragma"):
            raise Refused(4, place)
        at = self.blank(found.end())
        return {b"include": self.include, b"define": self.define, b"pragma": self.pragma}[word](at, place)

    def include(self, at, place):
        found = HEADER.match(self.source, at)
        if not found or not self.at_end(self.blank(found.end())):
            raise Refused(4, place)
        return self.blank(found.end())

    def define(self, at, place):
        source, bad = self.source, Refused(4, place)
        found = WORD.match(source, at)
        if not found or found.group()[:1].isdigit() or len(found.group()) > LONGEST_NAME:
            raise bad
        number_at = self.blank(found.end())
        number = WORD.match(source, number_at)
        if not number or number.start() == found.end() or not re.fullmatch(rb"0|[1-9][0-9]*", number.group()):
            raise bad
        name, value = found.group().decode(), int(number.group())
        if self.macros.get(name, value) != value:
            raise bad
        is_large, at = value > INT_MAX, number.end()
        try:
            at = self.blank(number.end())
        except Refused:
            # The number is refused before a comment that stands behind it and never ends.
            if not is_large:
                raise
        if not self.at_end(at) and not source.startswith(b"/*", at):
            raise bad
        if name not in self.macros and len(self.macros) >= MOST_MACROS:
            raise Refused(11, place)
        if is_large:
            raise Refused(10, number_at)
        self.macros[name] = value
        return at

    def pragma(self, at, place):
        found = WORD.match(self.source, at)
        if found and found.group() == b"omp":
            self.tokens.append(Token("directive", "#", place, found.end()))
            return found.end()
        while True:
            at = self.blank(at)
            if self.at_end(at):
                return at
            if self.source[at] > 127:
                raise Refused(2, at)
            at += 1

    def all_tokens(self):
        at, begins_line, in_directive, tokens = 0, True, False, self.tokens
        while True:
            at = self.blank(at)
            if self.at_end(at):
                if in_directive:
                    tokens.append(Token("directive_end", "", tokens[-1].end, tokens[-1].end))
                in_directive, begins_line = False, True
                if at >= len(self.source):
                    tokens.append(Token("end", "", len(self.source), len(self.source)))
                    return tokens
                at += 1
            elif self.source[at:at + 1] == b"#" and begins_line:
                before = len(tokens)
                at = self.hash_line(at)
                in_directive, begins_line = len(tokens) > before, False
            else:
                begins_line = False
                tokens.append(self.token(at))
                at = tokens[-1].end

    def token(self, at):
        """The token that begins there, always the longest that fits (C17 6.4p4)."""
        source = self.source
        word = WORD.match(source, at)
        if word and source[at:at + 1].isdigit():
            return self.constant(word)
        if word:
            name = word.group().decode()
            if len(name) > LONGEST_NAME:
                raise Refused(2, at)
            if name in self.macros:
                return Token("number", self.macros[name], at, word.end())
            return Token("name", name, at, word.end())
        found = (TEXT if source[at:at + 1] == b'"' else MARK).match(source, at)
        if not found:
            raise Refused(2, at)
        if source[at:at + 1] == b'"':
            value = re.sub(rb"\\(.)", lambda escape: ESCAPES[escape.group(1)], found.group()[1:-1])
            return Token("text", value, at, found.end())
        return Token("mark", found.group().decode(), at, found.end())

    @staticmethod
    def constant(word):
        """A decimal, octal or hexadecimal constant without a suffix (C17 6.4.4.1)."""
        digits = word.group()
        if not CONSTANT.fullmatch(digits):
            raise Refused(2, word.start())
        value = int(digits, 16) if digits[:2] == b"0x" else int(digits, 8) if digits[:1] == b"0" else int(digits)
        if value > INT_MAX:
            raise Refused(10, word.start())
        return Token("number", value, word.start(), word.end())


def tokens_of(source):
    """The tokens of a source. Of one that is too long, the first refusal below the limit goes before S1. What comes behind
    the bytes that are kept is not looked at."""
    source = source[:MOST_KEPT]
    try:
        tokens = Lexer(source).all_tokens()
    except Refused as refused:
        if refused.place < LARGEST_SOURCE:
            raise
    if len(source) > LARGEST_SOURCE:
        raise Refused(1, LARGEST_SOURCE)
    return tokens
