#!/usr/bin/env python3
"""An outside reference for keyin, the draft, the first reading, replay and whole runs: it shares no code with the product,
and says what they must print.

    reference.py keys DIR     what crates/keysamples must print of the samples in DIR
    reference.py drafts DIR   what crates/draftsamples must print of the runs in DIR
    reference.py replays DIR  what crates/replaysamples must print of the samples in DIR
    reference.py runs DIR     what crates/runsamples must print of the samples in DIR
"""
import os
import re
import sys


class Fault(Exception):
    def line(self):
        return "fault%4d%4d%6d%6d\n" % self.args


def number(field):
    shown = field.decode("latin-1")
    if not re.fullmatch(r" *(0|[1-9][0-9]*)", shown) or len(shown) != 4:
        return None
    return int(shown)


def field(line, row, column):
    found = number(line[column - 1:column + 3])
    if found is None:
        raise Fault(3, 1, row, column)
    return found


def blank(line, row, column):
    if line[column - 1:column + 3] != b"    ":
        raise Fault(3, 1, row, column)


class Book:
    """A book's text, read and checked."""

    def __init__(self, text):
        if len(text) % 34 or not 34 <= len(text) <= 5474:
            raise Fault(1, 1, 0, 0)
        lines = [text[i:i + 34] for i in range(0, len(text), 34)]
        self.rules, self.keys = [], []
        for row, line in enumerate(lines, 1):
            letter = b"H" if row == 1 else b"R" if row <= 1 + self.many else b"K"
            if line[:1] != letter:
                raise Fault(2, 1, row, 1)
            if line[33:] != b"\n":
                raise Fault(2, 1, row, 34)
            getattr(self, "read_" + letter.decode())(line, row)
            if row == 1 and len(lines) != 1 + self.many + self.key_count:
                raise Fault(5, 1, 1, 0)
        self.check()

    def read_H(self, line, row):
        self.parts, self.key_count, self.start, self.many = [field(line, row, c) for c in (2, 6, 10, 14)]
        for column in (18, 22, 26, 30):
            blank(line, row, column)

    def read_R(self, line, row):
        left, length = field(line, row, 2), field(line, row, 6)
        symbols = []
        for place in range(6):
            if place < length:
                symbols.append(field(line, row, 10 + 4 * place))
            else:
                blank(line, row, 10 + 4 * place)
        self.rules.append((left, length, symbols))

    def read_K(self, line, row):
        key, kind = field(line, row, 2), field(line, row, 6)
        spelling = line[9:33].rstrip(b" ")
        if b" " in spelling or b"\n" in spelling:
            raise Fault(3, 1, row, 10)
        if key != 32 + row - 1 - self.many:
            raise Fault(4, 1, row, 2)
        self.keys.append((kind, spelling))

    def is_part(self, symbol):
        return 1 <= symbol <= self.parts

    def is_key(self, symbol):
        return 33 <= symbol <= 32 + self.key_count

    def check(self):
        within = 1 <= self.parts <= 32 and 1 <= self.key_count <= 32
        if not (within and self.is_part(self.start) and 1 <= self.many <= 128):
            raise Fault(11, 2, 0, 0)
        for rule, (left, length, symbols) in enumerate(self.rules, 1):
            if not self.is_part(left):
                raise Fault(12, 2, rule, 0)
            if length == 0:
                raise Fault(13, 2, rule, 0)
            if length > 6:
                raise Fault(14, 2, rule, 0)
            for place, symbol in enumerate(symbols, 1):
                if not (self.is_part(symbol) or self.is_key(symbol)):
                    raise Fault(15, 2, rule, place)
        for key, (kind, spelling) in enumerate(self.keys, 33):
            least = {0: 1, 1: 0, 2: 3}.get(kind, 99)
            most = {0: 24, 1: 0, 2: 24}.get(kind, 0)
            if not (least <= len(spelling) <= most and re.fullmatch(rb"[a-z-]*", spelling)):
                raise Fault(16, 2, key, 0)
        turned = set()
        for _ in range(self.parts + 1):
            turned |= {l for l, _, b in self.rules if all(self.is_key(s) or s in turned for s in b)}
        for part in range(1, self.parts + 1):
            if part not in turned:
                raise Fault(17, 2, part, 0)
        for part in range(1, self.parts + 1):
            reached = {b[0] for l, _, b in self.rules if l == part and len(b) == 1}
            for _ in range(self.parts + 1):
                reached |= {b[0] for l, _, b in self.rules if l in reached and len(b) == 1}
            if part in reached:
                raise Fault(18, 2, part, 0)

    def corners(self, symbol):
        found = {symbol}
        for _ in range(self.parts + 1):
            found |= {b[0] for l, _, b in self.rules if l in found}
        return found


class Draft:
    """The words held and, column by column, the items over them."""

    def __init__(self, book, places):
        self.book, self.places = book, min(places, 60000)
        self.words, self.columns, self.wanted = [], [set()], [book.corners(book.start)]

    def items(self):
        return sum(map(len, self.columns))

    def lit(self):
        return {s for s in self.wanted[-1] if s >= 33}

    def whole(self):
        book, n = self.book, len(self.words)
        return any(i == 0 and book.rules[r - 1][0] == book.start and d == len(book.rules[r - 1][2])
                   for r, d, i in self.columns[n])

    def column(self, word):
        book, k = self.book, len(self.words) + 1
        new, spans = set(), [(c, k - 1) for c in word if book.is_key(c)]
        while spans:
            symbol, j = spans.pop()
            found = {(r, 1, j) for r, (left, _, body) in enumerate(book.rules, 1)
                     if body[0] == symbol and left in self.wanted[j]}
            found |= {(r, d + 1, i) for r, d, i in self.columns[j]
                      if d < len(book.rules[r - 1][2]) and book.rules[r - 1][2][d] == symbol}
            for r, d, i in found - new:
                if d == len(book.rules[r - 1][2]):
                    spans.append((book.rules[r - 1][0], i))
            new |= found
        return new

    def press(self, word):
        held = len(self.words)
        if held >= 100:
            raise Fault(21, 3, held, 0)
        if not self.lit() & word:
            raise Fault(22, 3, held, 0)
        new = self.column(word)
        if self.items() + len(new) > self.places:
            raise Fault(23, 3, held, 0)
        self.words.append(word)
        self.columns.append(new)
        bodies = [(self.book.rules[r - 1][2], d) for r, d, _ in new]
        self.wanted.append(set().union(*[self.book.corners(b[d]) for b, d in bodies if d < len(b)]))
        return self.items()

    def rub_out(self):
        if not self.words:
            raise Fault(24, 3, 0, 0)
        for stack in (self.words, self.columns, self.wanted):
            stack.pop()
        return self.items()


class Spans:
    """Which part reads which span of the words; a set of places between the words is a number, by its bits."""

    def __init__(self, book, words):
        self.book, self.words = book, words
        places = range(len(words) + 1)
        symbols = range(33 + book.key_count)
        # where a symbol begins that ends at a place, and where the first symbols of a rule end that begin at one
        self.begins = [[0 for _ in places] for _ in symbols]
        self.ends = [[[0 if d else 1 << i for i in places] for d in range(len(body) + 1)] for _, _, body in book.rules]
        for j in places:
            for i in reversed(range(j)):
                self.span(i, j)

    def span(self, i, j):
        """Reads the words from place i to place j, once all shorter spans between them are read."""
        found = {c for c in self.words[i] if self.book.is_key(c)} if j == i + 1 else set()
        for rule, (left, _, body) in enumerate(self.book.rules, 1):
            for d in range(2, len(body) + 1):
                if self.places(rule, d, i, j):
                    self.ends[rule - 1][d][i] |= 1 << j
                    if d == len(body):
                        found.add(left)
        for _ in range(self.book.parts):
            found |= {left for left, _, body in self.book.rules if len(body) == 1 and body[0] in found}
        for symbol in found:
            self.begins[symbol][j] |= 1 << i
        for ends, (_, _, body) in zip(self.ends, self.book.rules):
            if body[0] in found:
                ends[1][i] |= 1 << j

    def places(self, rule, d, i, j):
        """Where symbol d of a rule can begin that ends at j, the symbols before it filling the words from i."""
        return self.ends[rule - 1][d - 1][i] & self.begins[self.book.rules[rule - 1][2][d - 1]][j]

    def first_rule(self, part, i, j):
        return next(rule for rule, (left, _, body) in enumerate(self.book.rules, 1)
                    if left == part and self.ends[rule - 1][len(body)][i] >> j & 1)

    def first_children(self, rule, i, j):
        """The spans of the children: the last child begins as early as it can, then the one before it, and so leftwards."""
        spans = []
        for d in range(len(self.book.rules[rule - 1][2]), 0, -1):
            places = self.places(rule, d, i, j)
            k = (places & -places).bit_length() - 1
            spans.append((k, j))
            j = k
        return spans[::-1]

    def first_moves(self):
        """The moves of the first reading of all words by the start part."""
        moves, open_ = [], [129, (self.book.start, 0, len(self.words))]
        while open_:
            top = open_.pop()
            if isinstance(top, int):
                moves.append(top)
            elif self.book.is_part(top[0]):
                rule = self.first_rule(*top)
                row = []
                for symbol, span in zip(self.book.rules[rule - 1][2], self.first_children(rule, *top[1:])):
                    row += [(symbol, *span), 129 if row else rule]
                open_ += reversed(row + [0])
        return moves


def reading(draft, places):
    """The moves of the first reading of the words of a draft, for a strip of so many places."""
    if not draft.whole():
        raise Fault(25, 3, len(draft.words), 0)
    moves = Spans(draft.book, draft.words).first_moves()
    if len(moves) > places:
        raise Fault(26, 3, len(draft.words), 0)
    return moves


def word_of(book, place, run):
    """The keys that a run of bytes matches."""
    name = re.match(rb"[a-z-]", run)
    for at, byte in enumerate(run):
        if not re.match(rb"[a-z-]" if name else rb"[0-9]", bytes([byte])):
            raise Fault(42, 1, place + at + 1, 0)
    if len(run) > (24 if name else 4):
        raise Fault(43, 1, place + 1, 0)
    keys = set()
    for key, (kind, spelling) in enumerate(book.keys, 33):
        if not name:
            fits = kind == 1
        else:
            fits = (kind == 0 and spelling == run) or (kind == 2 and len(run) >= 3 and spelling.startswith(run))
        keys |= {key} if fits else set()
    return keys


def keyed(book_text, text):
    said = ""
    try:
        book = Book(book_text)
        if len(text) > 4096:
            raise Fault(41, 1, 0, 0)
        draft = Draft(book, 8000)
        for count, run in enumerate(re.finditer(rb"[^ \n]+", text), 1):
            items = draft.press(word_of(book, run.start(), run.group()))
            said += "%4d%6d%4d\n" % (count, items, len(draft.lit()))
    except Fault as fault:
        return said + fault.line()
    return said + ("whole%6d\n" % len(reading(draft, 12836)) if draft.whole() else "short\n")


def lit_words(draft):
    keys = sorted(draft.lit())
    return "%d lit:%s" % (len(keys), "".join(" %d" % k for k in keys))


def whole_words(draft):
    return "whole" if draft.whole() else "short"


def state(draft):
    return "     %s, %s\n" % (lit_words(draft), whole_words(draft))


def reading_words(draft, moves):
    """How many moves a reading has, and the depth: one more than six for each rule, of 2m + n moves."""
    return "%d moves, depth %d" % (len(moves), 1 + 3 * (len(moves) - len(draft.words)))


def reading_line(draft):
    """The first reading on a strip of 40 places."""
    try:
        moves = reading(draft, 40)
    except Fault as fault:
        return fault.line()
    return "     %s:%s\n" % (reading_words(draft, moves), "".join(" %d" % n for n in moves))


def chart_lines(draft, places):
    """The items in a chart of so many places, up to 50 of them, and what became of the other places."""
    items = sorted((k, i, r, d) for k, column in enumerate(draft.columns) for r, d, i in column)
    said = "".join("     item %d %d %d %d\n" % (r, d, i, k) for k, i, r, d in items[:50])
    return said + left_line(draft.places - len(items), places - draft.places)


def left_line(blank, before):
    return "     %d blank, %d as before\n" % (blank, before)


def told(draft, reads):
    return state(draft) + (reading_line(draft) if reads and draft.whole() else "")


def run(book_text, text, number):
    words, reads = text.split(), number <= 40
    places = int(words[0]) * 100 + int(words[1])
    draft = Draft(Book(book_text), places)
    said = told(draft, reads)
    for word in words[2:]:
        try:
            said += "%d items\n" % (draft.press({int(word)}) if word.isdigit() else draft.rub_out())
        except Fault as fault:
            said += fault.line()
        said += told(draft, reads)
    if reads and not draft.whole():
        said += reading_line(draft)
    return said + chart_lines(draft, places)


def text_of(*lines):
    return b"".join(line.ljust(33) + b"\n" for line in lines)


WORKS = text_of(
    b"H   2   5   1   5",
    b"R   1   1   2",
    b"R   1   2   1   2",
    b"R   2   2  33  35",
    b"R   2   2  34  35",
    b"R   2   4  36  35   1  37",
    b"K  33   0press",
    b"K  34   0hold",
    b"K  35   1",
    b"K  36   0repeat",
    b"K  37   0end",
)

# a new place for a sound book, and the place that a run is handed
SMALLEST = text_of(b"H   1   1   1   1", b"R   1   1  33", b"K  33   0a")
PLACE = text_of(
    b"H   1   3   1   3",
    b"R   1   1  33",
    b"R   1   1  34",
    b"R   1   2   1  33",
    b"K  33   0a",
    b"K  34   0b",
    b"K  35   0c",
)

# what stands in the place of an answer, and in a byte of a strip, before a run
NO_ANSWER = Fault(33, 4, 999, 0)
UNWRITTEN = 99


def calls_of(book, kind, words):
    """The calls that words name: the name of a call, or the set of keys that is pressed."""
    calls, gathered = [], set()
    for word in words:
        if word in (b"-rub", b"-lit", b"-whole", b"-reading"):
            calls.append(word)
        elif kind == b"spelled":
            calls.append(word_of(book, 0, word))
        elif kind == b"pressed" and word.isdigit():
            calls.append({int(word)})
        elif kind == b"sets" and word == b"-press":
            calls.append(gathered)
            gathered = set()
        elif kind == b"sets" and word.isdigit():
            gathered.add(int(word))
    return calls


def answer_words(draft, strip, call):
    """What a call answers; a reading writes its moves to the front of the strip."""
    if call == b"-lit":
        return lit_words(draft)
    if call == b"-whole":
        return whole_words(draft)
    if call == b"-reading":
        moves = reading(draft, len(strip))
        strip[:len(moves)] = moves
        return reading_words(draft, moves)
    return "%d items" % (draft.rub_out() if call == b"-rub" else draft.press(call))


def answer_line(draft, strip, call):
    try:
        return answer_words(draft, strip, call) + "\n"
    except Fault as fault:
        return fault.line()


def strip_line(strip):
    written = [at for at, byte in enumerate(strip, 1) if byte != UNWRITTEN]
    front = strip[:max(written, default=0)][:60]
    before = len(strip) - len(written)
    return "     %d of %d bytes as before:%s\n" % (before, len(strip), "".join(" %d" % n for n in front))


def place_line(book):
    counts = (book.parts, book.key_count, book.start, book.many)
    return "     place: parts %d, keys %d, start %d, rules %d\n" % counts


def whole_run(book_text, text):
    """A run of calls over a chart and a strip, by a book of any make. Where a text out of form, or the book of one that was to
    be checked beforehand, is refused, no run is made; where the run's own check refuses the book, nothing is changed."""
    words = text.split()
    make, kind = words[:2]
    places, length = [int(a) * 100 + int(b) for a, b in (words[2:4], words[4:6])]
    strip, place = [UNWRITTEN] * length, Book(PLACE)
    try:
        book = Book(WORKS if make == b"works" else book_text)
    except Fault as fault:
        if fault.args[1] == 1 or make != b"text":
            return fault.line()
        answers = NO_ANSWER.line() * len(calls_of(Book(SMALLEST), kind, words[6:]))
        return fault.line() + answers + left_line(0, places) + strip_line(strip) + place_line(place)
    draft = Draft(book, places)
    said = "".join(answer_line(draft, strip, call) for call in calls_of(book, kind, words[6:]))
    # a run of a sound book is handed no place for one
    left = place if make == b"run" else book
    return said + chart_lines(draft, places) + strip_line(strip) + place_line(left)


class Machine:
    """Three stacks as lists, their tops last; an entry of the first is a set of keys or a part, an end mark is None."""

    def __init__(self, book, words, second, third):
        self.book, self.room = book, (second, third)
        self.first = list(reversed(words))
        self.second, self.third = [book.start], []

    def fits(self):
        return len(self.second) <= self.room[0] and len(self.third) <= self.room[1]

    def agrees(self, symbol):
        top = self.first[-1]
        return symbol in top if isinstance(top, set) and self.book.is_key(symbol) else symbol == top

    def symbol_comes(self):
        return bool(self.first and self.second and self.second[-1] is not None)

    def move(self, number):
        """Whether the move is allowed; if so, it is made."""
        if number == 0:
            if not (self.second and self.second[-1] is None and self.third):
                return False
            self.second.pop()
            self.first.append(self.third.pop())
        elif number == 129:
            if not (self.symbol_comes() and self.agrees(self.second[-1])):
                return False
            self.first.pop()
            self.second.pop()
        else:
            if not 1 <= number <= len(self.book.rules):
                return False
            left, _, body = self.book.rules[number - 1]
            if not (self.symbol_comes() and self.agrees(body[0])):
                return False
            self.first.pop()
            self.second += [None] + list(reversed(body[1:]))
            self.third.append(left)
        return True


def replayed(book, words, moves, second, third):
    machine = Machine(book, words, second, third)
    if not machine.fits():
        raise Fault(33, 4, 0, 0)
    for count, number in enumerate(moves, 1):
        if not machine.move(number):
            raise Fault(31, 4, count, 0)
        if not machine.fits():
            raise Fault(33, 4, count, 0)
    if machine.first or machine.second or machine.third:
        raise Fault(32, 4, len(moves), 0)


def replay(book_text, text):
    book, run = Book(book_text), text.split()
    second, third, count = map(int, run[:3])
    words = [word_of(book, 0, w) if not w.isdigit() else {int(w)} for w in run[3:3 + count]]
    moves = [int(w) for w in run[3 + count:]]
    try:
        replayed(book, words, moves, second, third)
        said = "accepted\n"
    except Fault as fault:
        said = fault.line()
    return said + "     %d and %d places zeroed\n" % (second, third)


def content(path):
    """The bytes of a file; a missing one counts as empty."""
    return open(path, "rb").read() if os.path.exists(path) else b""


def main():
    way, folder = sys.argv[1:]
    end, tell = {
        "keys": (".text", lambda book, text, _: keyed(book, text)),
        "drafts": (".steps", run),
        "replays": (".moves", lambda book, text, _: replay(book, text)),
        "runs": (".calls", lambda book, text, _: whole_run(book, text)),
    }[way]
    for number, name in enumerate(sorted(n for n in os.listdir(folder) if n.endswith(end)), 1):
        text, book = [content(os.path.join(folder, file)) for file in (name, name.replace(end, ".book"))]
        sys.stdout.write(name + "\n" + tell(book, text, number))


if __name__ == "__main__":
    main()
