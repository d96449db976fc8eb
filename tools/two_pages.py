"""The printout of both pages (`./certify --pages`) read, and set for people: two sheets of A4 in SVG, and a page of HTML that prints as
those two. Nothing is computed that the certificate has: what is shown are its bits, and decimal views of them."""
import cmath
import html
import math
import re
import struct

MEANING = {
    1: 'a size is out of range',
    2: 'a listed qubit is not in the register (place: where in the list, from 0)',
    3: 'a qubit is listed twice (place: where in the list, from 0)',
    4: 'the list of qubits is empty',
    5: 'the list names every qubit, so nothing is cut off',
    6: 'a length is wrong (place: which slice)',
    7: 'an amplitude is not a number, infinite or above 2^200 (place: its index)',
    8: 'the state has no weight: no value is left above the floor',
    9: 'the arithmetic gave a number that is not finite',
    10: 'the file is not a well-formed cut file',
}
ADVICE = {
    1: 'Check the size of the register in the reconstruction.',
    2: 'Correct the entry at that position of the list.',
    3: 'Strike the entry at that position of the list.',
    4: 'Name at least one qubit.',
    5: 'Leave at least one qubit out of the list.',
    7: 'Look at the detector channel behind that amplitude.',
    8: 'Take the data again.',
    9: 'Report the file.',
    10: 'Write the file again.',
}
SCALED = {
    7: 'a cell is above 2^200, which is more than the scaling takes (place: the cell, row by row)',
    8: 'the trace is zero, so there is nothing to divide by',
    9: 'a scaled cell would not be finite',
}
READ = 8480     # bytes of a file that the program reads
NAMED = 5       # most qubits that page two names


class Bad(Exception):
    """What cannot be shown, as a sentence."""


def whole(word, line, most=10):
    if not re.fullmatch('[0-9]{1,%d}' % most, word):
        raise Bad(f'This is not a line of a certificate: {line[:80]!r}.')
    return int(word)


def number_of(word):
    return struct.unpack('>d', bytes.fromhex(word))[0]


def digest_of(data):
    """FNV-1a of 64 bits, as the pages print it."""
    hashed = 0xCBF29CE484222325
    for byte in data:
        hashed = (hashed ^ byte) * 0x100000001B3 & 0xFFFFFFFFFFFFFFFF
    return f'{hashed:016X}'


# ---- reading


class Pages:
    """What the printout says. `one` is ('refused', number, place) or ('values', sizes, side, bits, band, sweeps, quiet, exact); `two` is
    ('refused', number, place) or ('matrix', cells, trace, scaled, summed), where a cell is its two bit patterns and scaled is the
    cells or ('refused', number, place); kept is bits or None."""
    digest, listed, one, two, kept = '', [], None, None, None


class Lines:
    def __init__(self, lines):
        self.left = lines[::-1]

    def next_is(self, *words):
        return bool(self.left) and self.left[-1].split(' ')[:len(words)] == list(words)

    def take(self, *words, count=None, hexes=0):
        """The words behind those of the next line; the last `hexes` of them are bits."""
        if not self.next_is(*words):
            found = repr(self.left[-1][:80]) if self.left else 'nothing'
            raise Bad(f'The pages are cut short or broken: a line `{" ".join(words)}` is missing, and there is {found}.')
        line = self.left.pop()
        rest = line.split(' ')[len(words):]
        if count is not None and len(rest) != count or not all(re.fullmatch('[0-9A-F]{16}', word) for word in rest[len(rest) - hexes:]):
            raise Bad(f'This is not a line of the pages: {line[:80]!r}.')
        return rest

    def numbers(self, *words, count=None, most=10):
        return [whole(word, ' '.join(words), most) for word in self.take(*words, count=count)]

    def mark(self, *words):
        said, = self.take(*words, count=1)
        if said not in ('yes', 'no'):
            raise Bad(f'The line `{" ".join(words)}` says {said[:20]!r}, neither yes nor no.')
        return said == 'yes'

    def refused(self, *words):
        return ('refused', *self.numbers(*words, 'refused', count=2))

    def cells(self, word, side):
        found = []
        for row in range(side):
            found.append([tuple(self.take(word, str(row), str(column), count=2, hexes=2)) for column in range(side)])
        return found


def parse(lines):
    """Pages, of a printout's lines."""
    left, pages = Lines(lines), Pages()
    left.take('page', '1', count=0)
    pages.digest, = left.take('digest', count=1, hexes=1)
    pages.one = left.refused() if left.next_is('refused') else page_one(left)
    left.take('page', '2', count=0)
    again, = left.take('digest', count=1, hexes=1)
    if again != pages.digest:
        raise Bad(f'The two pages are of different files: their digests are {pages.digest} and {again}.')
    pages.listed = left.numbers('list')
    if not pages.listed:
        raise Bad('The named list is empty.')
    refused = left.next_is('refused')
    if refused:
        pages.two = left.refused()
    elif len(pages.listed) > NAMED:
        raise Bad(f'Page two names at most {NAMED} qubits, and here are {len(pages.listed)}.')
    else:
        side = 1 << len(pages.listed)
        cells, (trace,) = left.cells('cell', side), left.take('trace', count=1, hexes=1)
    if pages.one[0] == 'values':
        pages.kept, = left.take('kept', count=1, hexes=1)
    if not refused:
        scaled = left.refused('scaled') if left.next_is('scaled', 'refused') else left.cells('scaled', side)
        pages.two = 'matrix', cells, trace, scaled, left.mark('summed')
    left.take('end', 'pages', count=0)
    if left.left:
        raise Bad(f'Behind the pages there is more: {left.left[-1][:80]!r}.')
    agree(pages)
    return pages


def page_one(left):
    sizes, side, values = left.numbers('cut', count=4), left.numbers('side'), []
    while left.next_is('value'):
        values += left.take('value', str(len(values)), count=1, hexes=1)
    band = left.numbers('entropy', count=3, most=20)
    count, sweeps, quiet = left.take('end', count=3)
    if count != str(len(values)) or not values or quiet not in ('yes', 'no'):
        raise Bad('Page one is cut short: its line `end` counts other values than it has.')
    return 'values', sizes, side, values, band, whole(sweeps, 'end'), quiet == 'yes', left.mark('exact')


def agree(pages):
    """Stops where the two pages cannot be of one file."""
    if pages.one[0] == 'values':
        (n, k, rows, columns), side = pages.one[1:3]
        small = min(k, n - k)
        others = [q for q in range(min(n, 64)) if q not in pages.listed]
        if not (0 < k < n <= 9 and k == len(pages.listed) and side == (pages.listed if k == small else others) and (rows, columns) == (1 << small, 1 << n - small)):
            raise Bad(f'The two pages are not of one file: page one is of {k} named of {n} qubits with the smaller side {" ".join(map(str, side))}, '
                      f'and page two names {" ".join(map(str, pages.listed))}.')


def belongs(pages, name, data):
    """Stops where the pages are not of that file's bytes."""
    found = digest_of(data[:READ])
    if found != pages.digest:
        raise Bad(f'The pages are not of {name}: they bear the digest {pages.digest}, and its bytes have {found}.')
    if len(data) >= 24 and struct.unpack('<I', data[8:12])[0] == len(pages.listed) and len(data) >= 24 + 4 * len(pages.listed):
        if list(struct.unpack(f'<{len(pages.listed)}I', data[24:24 + 4 * len(pages.listed)])) == pages.listed:
            return
    raise Bad(f'The pages are not of {name}: the digest is the same, and the list is another.')


# ---- words


def entropy_digits(band):
    """The entropy in bits as far as both ends of its band agree, and whether that is all of it; none where there is no band."""
    low, high, full = band
    if not full:
        return None
    if low == high and low % full == 0:
        return str(low // full), True
    digits = 0
    while digits < 15 and low * 10 ** (digits + 1) // full == high * 10 ** (digits + 1) // full:
        digits += 1
    if low // full != high // full:
        return f'{low // full} to {high // full + 1}', True
    shown = str(low * 10 ** digits // full).rjust(digits + 1, '0')
    return (shown[:-digits] + '.' + shown[-digits:] if digits else shown), False


def decimals(over, under, up=False, digits=6):
    """A quotient of whole numbers in decimal, rounded down, or up."""
    shown = (over * 10 ** digits + (under - 1 if up else 0)) // under
    return f'{shown // 10 ** digits}.{shown % 10 ** digits:0{digits}}'


def apart(a, b):
    """How many floats b lies above a, of two finite ones that are not negative."""
    a, b = int(a, 16), int(b, 16)
    return b - a if max(a, b) < 0x7FF << 52 else None


def apart_said(trace, kept):
    steps = apart(trace, kept)
    if steps is None:
        return 'Trace and kept squares cannot be compared.'
    if steps == 0:
        return 'Both pages have the same total, to the last bit.'
    return f'Page one\'s total lies {abs(steps):,} {"float" if abs(steps) == 1 else "floats"} {"above" if steps > 0 else "below"} page two\'s trace.'


def refusal_said(number, place, meaning=MEANING):
    return f'Refused: {number}, {meaning.get(number, MEANING.get(number, "a number that is not in the table"))}. Place {place}.'


def too_many(pages):
    named = len(pages.listed)
    return [f'Page two names at most {NAMED} qubits, and this file names {named}.'] if pages.two[:2] == ('refused', 1) and named > NAMED else []


def said(pages):
    """Page two and what both pages share, in lines for a terminal; page one is shown as any certificate."""
    out = [f'Digest {pages.digest} on both pages']
    if pages.one[0] == 'values':
        out.append('Roots: every one came out even.' if pages.one[7] else 'Roots: at least one was rounded.')
    out.append(f'Page two: density matrix of qubits {" ".join(map(str, pages.listed))}')
    if pages.two[0] == 'refused':
        return out + [refusal_said(*pages.two[1:])] + too_many(pages)
    cells, trace, scaled, summed = pages.two[1:]
    labels = settings(len(pages.listed))
    if len(cells) <= 4:
        for label, row in zip(labels, cells):
            out.append(f'  {label}  ' + '  '.join(f'{number_of(re):+.6f}{number_of(im):+.6f}i' for re, im in row))
    out.append(f'Trace {trace} = {number_of(trace)!r}')
    if pages.kept:
        out += [f'Kept squares {pages.kept} = {number_of(pages.kept)!r}', apart_said(trace, pages.kept)]
    out.append('Scaled to trace one: ' + (refusal_said(*scaled[1:], SCALED) if scaled[0] == 'refused' else 'printed'))
    return out + [f'Summed from the cut matrix alone: {"the same bits" if summed else "OTHER BITS"}']


def settings(k):
    """The settings of rows and columns as bits, in the order of the list: bit i of the number is listed qubit i."""
    return [''.join(str(t >> i & 1) for i in range(k)) for t in range(1 << k)]


# ---- colours


def colour(strength, phase):
    """Of a cell: white at nothing, deeper with magnitude, hue by phase (in OKLCH, so that equal magnitudes look equally deep)."""
    depth = min(max(strength, 0.0), 1.0) ** 0.6
    light, chroma, hue = 1 - 0.40 * depth, 0.145 * depth, math.radians(258) + phase
    a, b = chroma * math.cos(hue), chroma * math.sin(hue)
    l, m, s = ((light + p * a + q * b) ** 3 for p, q in ((0.3963377774, 0.2158037573), (-0.1055613458, -0.0638541728), (-0.0894841775, -1.2914855480)))
    linear = (4.0767416621 * l - 3.3077115913 * m + 0.2309699292 * s, -1.2684380046 * l + 2.6097574011 * m - 0.3413193965 * s,
              -0.0041960863 * l - 0.7034186147 * m + 1.7076147010 * s)
    shown = (12.92 * x if x <= 0.0031308 else 1.055 * x ** (1 / 2.4) - 0.055 for x in (min(max(x, 0.0), 1.0) for x in linear))
    return '#' + ''.join(f'{round(255 * x):02x}' for x in shown)


# ---- sheets


INK, SOFT, FAINT, RULE, ACCENT, ALARM = '#1c2127', '#5b6570', '#9aa3ad', '#d3d8dd', '#2c4f7c', '#9b2c2c'
WIDE, TALL, EDGE = 794, 1123, 60
STYLE = ('''.zg text{fill:#1c2127;font-family:"Source Sans 3","Helvetica Neue",Arial,"Liberation Sans",sans-serif;font-size:11px}
.zg .t{font-family:"Source Serif 4",Charter,"Bitstream Charter",Georgia,"Liberation Serif",serif;font-size:26px}
.zg .s{font-family:"Source Serif 4",Charter,"Bitstream Charter",Georgia,"Liberation Serif",serif;font-size:15px}
.zg .b{font-family:"Source Serif 4",Charter,"Bitstream Charter",Georgia,"Liberation Serif",serif;font-size:23px}
.zg .l{font-size:8.5px;letter-spacing:.09em;fill:#5b6570}
.zg .n{font-size:9.5px;fill:#5b6570}
.zg .m{font-family:"SF Mono",Menlo,"DejaVu Sans Mono","Liberation Mono",Consolas,monospace;font-size:10.5px;white-space:pre}
.zg .z{fill:#9aa3ad}
.zg .w{fill:#9b2c2c}
''')


def quoted(text):
    return html.escape(''.join(c if c.isprintable() else '?' for c in str(text)))


class Sheet:
    """One sheet of A4 in the making."""

    def __init__(self):
        self.out = []

    def text(self, x, y, words, kind='', anchor='', size=None, fill=None, raw=False):
        more = (f' class="{kind}"' if kind else '') + (f' text-anchor="{anchor}"' if anchor else '')
        style = (f'font-size:{size:g}px;' if size else '') + (f'fill:{fill};' if fill else '')
        self.out.append(f'<text x="{x:g}" y="{y:g}"{more}{f" style={chr(34)}{style}{chr(34)}" if style else ""}>{words if raw else quoted(words)}</text>')

    def rule(self, y, x=EDGE, end=WIDE - EDGE, fill=RULE, width=0.8):
        self.out.append(f'<path d="M{x:g} {y:g}H{end:g}" stroke="{fill}" stroke-width="{width:g}"/>')

    def rect(self, x, y, width, height, fill, more=''):
        self.out.append(f'<rect x="{x:g}" y="{y:g}" width="{width:g}" height="{height:g}" fill="{fill}"{more}/>')

    def lines(self, x, y, words, room, kind='n', step=13.0, per=4.75, fill=None):
        """A sentence broken to the room, by the mean width of a letter; the y below it."""
        line = ''
        for word in words.replace("'", '’').split(' '):
            if line and (len(line) + 1 + len(word)) * per > room:
                self.text(x, y, line, kind, fill=fill)
                line, y = word, y + step
            else:
                line = f'{line} {word}' if line else word
        self.text(x, y, line, kind, fill=fill)
        return y + step

    def fact(self, x, y, label, words, kind='', size=None):
        self.text(x, y, label.upper(), 'l')
        self.text(x, y + 15, words, kind, size=size)

    def spaced(self, x, y, bits, size=12.5, anchor=''):
        """Sixteen digits in groups of four; what is copied has no spaces."""
        groups = [bits[i:i + 4] for i in range(0, 16, 4)]
        self.text(x, y, groups[0] + ''.join(f'<tspan dx="{size * 0.4:g}">{group}</tspan>' for group in groups[1:]), 'm', anchor, size, raw=True)

    def svg(self, x=0):
        return f'<g transform="translate({x:g} 0)"><rect width="{WIDE}" height="{TALL}" fill="#fff"/>{"".join(self.out)}</g>'


class About:
    """What the pages do not say themselves: the file's name, the date, the program's version and kit."""

    def __init__(self, name, date, program, kit):
        self.name, self.date, self.program, self.kit = name, date, program, kit


def frame(about, digest, number, of, title):
    sheet = Sheet()
    sheet.text(EDGE, 62, 'CERTIFICATE OF A CUT', 'l', size=9.5)
    sheet.text(WIDE - EDGE, 62, f'Page {number} of {of}', 'n', 'end', 10.5)
    sheet.text(EDGE, 96, title, 't')
    sheet.rule(113, fill=INK, width=1.1)
    name = about.name if len(about.name) <= 40 else about.name[:18] + '…' + about.name[-20:]
    sheet.fact(EDGE, 134, 'Cut file', name, 'm', 12.5)
    if digest:
        sheet.text(EDGE + 255, 134, 'DIGEST OF THE FILE · FNV-1A, 64 BITS', 'l')
        sheet.spaced(EDGE + 255, 149, digest)
    sheet.text(WIDE - EDGE, 134, 'DATE OF THIS PAGE', 'l', 'end')
    sheet.text(WIDE - EDGE, 149, about.date, '', 'end', 12)
    sheet.rule(164)
    sheet.rule(1066)
    sheet.text(EDGE, 1082, f'{about.program}; {about.kit}', 'n', size=8.8)
    sheet.text(WIDE - EDGE, 1082, digest, 'm z', 'end', 8.8)
    sheet.text(EDGE, 1095, 'Shown by tools/read, which decides nothing: the bits of the printout count. The digest is against mixing files up, not against forgery.', 'n', size=8.8)
    return sheet


def heading(sheet, y, words, note=''):
    sheet.text(EDGE, y, words, 's')
    if note:
        sheet.text(WIDE - EDGE, y, note, 'n', 'end')


def refusal(sheet, y, what, number, place, more=()):
    sheet.rect(EDGE, y, 3, 96, ALARM)
    sheet.text(EDGE + 20, y + 22, f'{what} is refused', 'b w')
    meaning = MEANING.get(number, 'a number that is not in the table')
    at = sheet.lines(EDGE + 20, y + 48, f'Answer {number}: {meaning}. Place {place}.', 620, '', 17, 5.4)
    for sentence in [*more, *([ADVICE[number]] if number in ADVICE and not more else [])]:
        at = sheet.lines(EDGE + 20, at + 3, sentence, 620, '', 17, 5.4)
    return y + 130


def register(sheet, y, n, listed):
    """The qubits of the register: named ones filled, and below them which bit of a row or column they are."""
    for q in range(n):
        x, named = EDGE + 15 + 46 * q, q in listed
        sheet.out.append(f'<circle cx="{x:g}" cy="{y:g}" r="14" fill="{ACCENT if named else "#fff"}" stroke="{ACCENT if named else FAINT}" stroke-width="1.1"/>')
        sheet.text(x, y + 4, q, '', 'middle', 12, '#fff' if named else SOFT)
        if named:
            sheet.text(x, y + 29, f'bit {listed.index(q)}', 'n', 'middle', 8.8)


def card(sheet, x, y, room, label, big, note, alarm=False):
    sheet.rule(y, x, x + room, ALARM if alarm else INK, 1.1)
    sheet.text(x, y + 18, label.upper(), 'l')
    sheet.text(x, y + 46, big, 'b w' if alarm else 'b')
    sheet.lines(x, y + 64, note, room, 'n', 12.5, 4.6)


NOTES = (
    ('Bits', 'Every number is a binary64 float, printed as its sixteen hexadecimal digits. The decimals beside them are the shortest that name the same float.'),
    ('The cut', 'Qubit q is bit q of an amplitude’s index. The named qubits stand on one side of the cut, all others on the other.'),
    ('Both pages', 'Page two is the density matrix of the named qubits. It is summed once more from page one’s cut matrix alone, and the bits are compared.'),
    ('To check', './certify --pages prints these bits from the same file again; docs/AUDIT.md, question 3, names the theorem about the printed bytes.'),
)


def notes(sheet, y):
    sheet.rule(y)
    for i, (label, words) in enumerate(NOTES):
        sheet.text(EDGE + 174.7 * i, y + 19, label.upper(), 'l')
        sheet.lines(EDGE + 174.7 * i, y + 34, words, 150, 'n', 12.5, 4.6)


def draw_one(pages, about):
    sheet = frame(about, pages.digest, 1, 2, 'Schmidt values across the cut')
    named = ' '.join(map(str, pages.listed))
    if pages.one[0] == 'refused':
        sheet.text(EDGE, 200, f'Named qubits: {named}')
        refusal(sheet, 226, 'Page one', *pages.one[1:])
        return sheet
    (n, k, rows, columns), side, values, band, sweeps, quiet, exact = pages.one[1:]
    heading(sheet, 196, 'The cut')
    register(sheet, 230, n, pages.listed)
    x = max(EDGE + 46 * n + 24, 400)
    for i, (label, words) in enumerate((('Register', f'{n} qubits, {k} named'), ('Named, in order', named), ('Cut matrix', f'{rows} by {columns}'), ('Smaller side', ' '.join(map(str, side))))):
        sheet.fact(x if i % 2 == 0 else x + (WIDE - EDGE - x) / 2, 216 + 38 * (i // 2), label, words, size=12.5)
    sheet.rule(284)
    heading(sheet, 314, 'Schmidt values')
    for at, label in ((EDGE, 'NO.'), (EDGE + 44, 'BITS'), (EDGE + 178, 'VALUE'), (EDGE + 334, 'VALUE SQUARED')):
        sheet.text(at, 338, label, 'l')
    step, y = 27 if len(values) <= 8 else 24, 360
    full = 250
    for rank, bits in enumerate(values):
        v = number_of(bits)
        weight = min(max(v * v, 0.0), 1.0) if v == v else 0.0
        sheet.text(EDGE + 14, y, rank, 'm z', 'end')
        sheet.text(EDGE + 44, y, bits, 'm')
        sheet.text(EDGE + 178, y, repr(v), 'm')
        sheet.rect(EDGE + 334, y - 9, full, 11, '#f1f3f5')
        sheet.rect(EDGE + 334, y - 9, max(full * weight, 0.6), 11, ACCENT)
        sheet.text(WIDE - EDGE, y, f'{v * v:.6f}', 'm', 'end')
        y += step
    y += 22
    room, gap = 150, 24.7
    at = [EDGE + (room + gap) * i for i in range(4)]
    card(sheet, at[0], y, room, 'Rank', str(len(values)), f'values above the floor, of at most {rows}')
    digits = entropy_digits(band)
    if digits is None:
        card(sheet, at[1], y, room, 'Entropy', '–', 'the band is empty')
    else:
        low, high = decimals(band[0], band[2]), decimals(band[1], band[2], up=True)
        note = 'exactly, by the weights in whole numbers' if band[0] == band[1] else f'of the weights; it lies from {low} to {high}, and the most is {rows.bit_length() - 1}'
        card(sheet, at[1], y, room, 'Entropy', digits[0] + ('' if digits[1] else '…') + ' bits', note)
    if quiet:
        card(sheet, at[2], y, room, 'Sweeps', f'{sweeps}, quiet', 'the last sweep turned no pair: the work was finished')
    else:
        card(sheet, at[2], y, room, 'Sweeps', f'{sweeps}, gave up', 'the last sweep still turned a pair: the work was given up at its cap (docs/AUDIT.md, question 6)', True)
    notes(sheet, 956)
    card(sheet, at[3], y, room, 'Roots', 'exact' if exact else 'rounded', 'every square root came out even' if exact else 'at least one square root is not a float and was rounded to the nearest')
    return sheet


def disc(sheet, x, y, radius, peak):
    """The legend: around it the phase, from the middle outward the magnitude."""
    rings, sectors = 8, 48
    for ring in range(rings):
        inner, outer = radius * ring / rings, radius * (ring + 1) / rings
        for sector in range(sectors):
            a, b = (2 * math.pi * (sector + d) / sectors for d in (-0.5, 0.52))
            corners = [(x + r * math.cos(t), y - r * math.sin(t)) for r, t in ((inner, a), (outer, a), (outer, b), (inner, b))]
            (x0, y0), (x1, y1), (x2, y2), (x3, y3) = corners
            sheet.out.append(f'<path d="M{x0:.1f} {y0:.1f}L{x1:.1f} {y1:.1f}L{x2:.1f} {y2:.1f}L{x3:.1f} {y3:.1f}z" fill="{colour((ring + 0.5) / rings, 2 * math.pi * sector / sectors)}"/>')
    sheet.out.append(f'<circle cx="{x:g}" cy="{y:g}" r="{radius:g}" fill="none" stroke="{RULE}"/>')
    for words, dx, dy, anchor in (('1', radius + 7, 4, ''), ('i', 0, -radius - 6, 'middle'), ('−1', -radius - 7, 4, 'end'), ('−i', 0, radius + 14, 'middle')):
        sheet.text(x + dx, y + dy, words, 'n', anchor, 10.5)
    for i, words in enumerate(('phase around,', 'magnitude outward;', f'rim: {peak:.6g}' if peak else 'every cell is zero')):
        sheet.text(x, y + radius + 31 + 11.5 * i, words, 'n', 'middle', 9)


def heat_map(sheet, x, y, cell, listed, cells, peak):
    """The cells as squares, with the settings as bits at rows and columns."""
    side, k = len(cells), len(listed)
    labels, step = settings(k), 8.5
    size = min(10.0, max(7.0, cell * 0.42))
    for i, q in enumerate(listed):      # the list's qubits: over the row labels, and behind the column labels
        sheet.text(x - 12 - step * (k - 1 - i), y - 8, q, 'm', 'middle', size, ACCENT)
        sheet.text(x + cell * side + 8, y - 8 - 10 * (k - 1 - i), q, 'm', '', size, ACCENT)
    for t, label in enumerate(labels):
        for i, bit in enumerate(label):
            sheet.text(x - 12 - step * (k - 1 - i), y + cell * t + cell / 2 + size * 0.36, bit, 'm', 'middle', size, None if bit == '1' else FAINT)
            sheet.text(x + cell * t + cell / 2, y - 8 - 10 * (k - 1 - i), bit, 'm', 'middle', size, None if bit == '1' else FAINT)
    for t, row in enumerate(cells):
        for u, z in enumerate(row):
            fill = colour(abs(z) / peak, cmath.phase(z)) if peak else '#ffffff'
            sheet.rect(x + cell * u, y + cell * t, cell, cell, fill, f' stroke="#e3e6ea" stroke-width="{0.7 if cell > 20 else 0.4}"')
            if cell >= 30 and abs(z) >= peak / 2000 > 0 and 1e-3 <= peak < 10:
                sheet.text(x + cell * u + cell / 2, y + cell * t + cell / 2 + 3, f'{abs(z):.3f}'.lstrip('0') or '0', 'm', 'middle', 7.8)
    sheet.out.append(f'<rect x="{x:g}" y="{y:g}" width="{cell * side:g}" height="{cell * side:g}" fill="none" stroke="{SOFT}" stroke-width="0.8"/>')


def grid(sheet, y, words, note, listed, cells):
    """The bits of each cell, real part above imaginary part; the y below."""
    side, labels = len(cells), settings(len(listed))
    heading(sheet, y, words, note)
    left = EDGE + 34
    wide = min(170, (WIDE - EDGE - left) / side)
    size = min(9.2, (wide - 7) / 16 / 0.602)
    y += 18
    for u, label in enumerate(labels):
        sheet.text(left + wide * u + 3, y, label, 'm', '', 8.2, SOFT)
    sheet.rule(y + 4)
    y += 5
    step = 2 * size + 9
    for label, row in zip(labels, cells):
        sheet.text(EDGE, y + size + 2 + size / 2, label, 'm', '', 8.2, SOFT)
        for u, bits in enumerate(row):
            for part, word in enumerate(bits):
                zero = word[1:] == '0' * 15 and word[0] in '08'
                sheet.text(left + wide * u + 3, y + (size + 2) * (part + 1), word, 'm z' if zero else 'm', '', round(size, 2))
        y += step
        sheet.rule(y - 1, fill='#eceff2')
    return y + 8


def totals(sheet, x, y, room, pages):
    """Trace, kept squares, what lies between them, and whether the recount has the same bits."""
    cells, trace, scaled, summed = pages.two[1:]
    sheet.text(x, y, 'TRACE', 'l')
    sheet.text(x, y + 16, trace, 'm', size=12)
    sheet.text(x, y + 30, repr(number_of(trace)), 'm z', size=9.5)
    y += 50
    if pages.kept:
        sheet.text(x, y, 'SQUARES OF PAGE ONE’S VALUES, BEFORE THE SCALE', 'l')
        sheet.text(x, y + 16, pages.kept, 'm', size=12)
        sheet.text(x, y + 30, repr(number_of(pages.kept)), 'm z', size=9.5)
        y = sheet.lines(x, y + 46, apart_said(trace, pages.kept), room) + 8
    sheet.text(x, y, 'SUMMED FROM THE CUT MATRIX ALONE', 'l')
    sheet.text(x, y + 18, 'the same bits' if summed else 'other bits', 's' if summed else 's w')
    return y + 30


def draw_two(pages, about, where):
    sheet = frame(about, pages.digest, 2, 2, 'Reduced density matrix')
    named = ' '.join(map(str, pages.listed))
    sheet.text(EDGE, 190, f'Named qubits, in order: {named}. Bit i of a row or column is listed qubit i; labels have the bits in the order of the list.', 'n', size=10.5)
    if pages.two[0] == 'refused':
        at = refusal(sheet, 222, 'Page two', *pages.two[1:], too_many(pages))
        if pages.kept:
            sheet.text(EDGE, at + 20, 'SQUARES OF PAGE ONE’S VALUES, BEFORE THE SCALE', 'l')
            sheet.text(EDGE, at + 36, pages.kept, 'm', size=12)
            sheet.text(EDGE, at + 50, repr(number_of(pages.kept)), 'm z', size=9.5)
        return sheet
    bits, trace, scaled, summed = pages.two[1:]
    side, k = len(bits), len(pages.listed)
    cells = [[complex(number_of(re), number_of(im)) for re, im in row] for row in bits]
    peak = max(math.hypot(z.real, z.imag) if cmath.isfinite(z) else math.inf for row in cells for z in row)
    x, y, small = EDGE + 26 + 8.5 * k, 214 + 10 * k, side <= 8
    cell = min(90, 288 / side) if small else 448 / side
    if math.isfinite(peak):
        heat_map(sheet, x, y, cell, pages.listed, cells, peak)
    else:
        sheet.text(x, y + 20, 'The matrix has numbers that are too large to draw.', 'w')
    if small:
        right = max(x + cell * side + 50, 460)
        disc(sheet, right + 66, y + 42, 44, peak)
        totals(sheet, right, y + 164, WIDE - EDGE - right, pages)
        y += max(cell * side, 290 if pages.kept else 236) + 42
        y = grid(sheet, y, 'Unscaled', 'bits of each cell: real part above, imaginary part below', pages.listed, bits)
        if scaled[0] != 'refused':
            grid(sheet, y + 16, 'Scaled to trace one', 'bits of each cell: real part above, imaginary part below', pages.listed, scaled)
    else:
        disc(sheet, WIDE - EDGE - 62, y + 42, 44, peak)
        y += cell * side + 40
        sheet.rule(y - 14)
        totals(sheet, EDGE, y + 6, 300, pages)
        sheet.lines(EDGE + 360, y + 6, f'The bits of all {side * side:,} cells, unscaled and scaled, {where}.', 300)
        y += 60
    if scaled[0] == 'refused':
        x, at = (EDGE, y + 16) if small else (EDGE + 360, y)
        sheet.text(x, at, 'Scaled to trace one', 's')
        sheet.lines(x, at + 20, refusal_said(*scaled[1:], SCALED) + ' The matrix above stands as it is.', WIDE - EDGE - x, 'w', 15, 5.2)
    return sheet


def draw_refused(number, place, about):
    """The one sheet of a file that is refused as a whole."""
    sheet = frame(about, '', 1, 1, 'Refused')
    refusal(sheet, 200, 'This file', number, place)
    return sheet


def sheets_of(pages, about, where):
    if isinstance(pages, tuple):
        return [draw_refused(*pages[1:], about)]
    return [draw_one(pages, about), draw_two(pages, about, where)]


def svg(pages, about):
    """Both sheets side by side."""
    drawn = sheets_of(pages, about, 'stand in the printout, lines cell and scaled')
    width = WIDE * len(drawn) + 24 * (len(drawn) - 1)
    return (f'<svg xmlns="http://www.w3.org/2000/svg" class="zg" viewBox="0 0 {width} {TALL}" width="{width}" height="{TALL}">'
            f'<title>Certificate of {quoted(about.name)}</title><style>{STYLE}</style><rect width="100%" height="100%" fill="#e4e7eb"/>'
            + ''.join(sheet.svg((WIDE + 24) * i) for i, sheet in enumerate(drawn)) + '</svg>\n')


PRINT = '''@page{size:A4;margin:0}
@page bits{size:A4;margin:16mm 15mm}
*{box-sizing:border-box}
body{margin:0;background:#e4e7eb;-webkit-print-color-adjust:exact;print-color-adjust:exact}
.sheet{max-width:210mm;aspect-ratio:210/297;margin:8mm auto;background:#fff;box-shadow:0 1px 8px rgba(20,30,40,.18);overflow:hidden}
.sheet svg{display:block;width:100%;height:100%}
.bits{max-width:210mm;overflow-x:auto;margin:8mm auto;padding:16mm 15mm;background:#fff;box-shadow:0 1px 8px rgba(20,30,40,.18);color:#1c2127}
.bits h2{font:15px "Source Serif 4",Charter,"Bitstream Charter",Georgia,"Liberation Serif",serif;margin:0 0 3mm}
.bits table{width:100%;border-collapse:collapse;font:7.6px/1.45 "SF Mono",Menlo,"DejaVu Sans Mono","Liberation Mono",Consolas,monospace}
.bits th{text-align:left;font-weight:400;color:#5b6570;border-bottom:1px solid #1c2127;padding:0 6px 2px 0}
.bits td{padding:0 6px 0 0;white-space:nowrap}
.bits tr.r td{border-top:1px solid #d3d8dd}
.bits .z{color:#9aa3ad}
@media print{body{background:none}.sheet{width:210mm;height:297mm;margin:0;box-shadow:none;break-after:page}.sheet:last-child{break-after:auto}
.bits{page:bits;max-width:none;overflow:visible;margin:0;padding:0;box-shadow:none}thead{display:table-header-group}tr{break-inside:avoid}}
'''


def listing(pages):
    """The bits of every cell in rows, for matrices that do not fit on page two."""
    if isinstance(pages, tuple) or pages.two[0] == 'refused' or len(pages.two[1]) <= 8:
        return ''
    cells, _, scaled, _ = pages.two[1:]
    labels, rows = settings(len(pages.listed)), []
    shown = scaled[0] != 'refused'

    def bits(word):
        zero = word[1:] == '0' * 15 and word[0] in '08'
        return f'<td class="z">{word}</td>' if zero else f'<td>{word}</td>'

    for t, row in enumerate(cells):
        for u, pair in enumerate(row):
            both = [*pair, *(scaled[t][u] if shown else ())]
            rows.append(f'<tr{" class=r" if u == 0 else ""}><td>{t}</td><td>{u}</td><td>{labels[t]}</td><td>{labels[u]}</td>' + ''.join(map(bits, both)) + '</tr>')
    names = ['row', 'column', 'row’s bits', 'column’s bits', 'real part', 'imaginary part'] + (['scaled, real part', 'scaled, imaginary part'] if shown else [])
    return (f'<section class="bits"><h2>Bits of the density matrix of qubits {" ".join(map(str, pages.listed))} · digest {pages.digest}</h2><table><thead><tr>'
            + ''.join(f'<th>{name}</th>' for name in names) + '</tr></thead><tbody>' + '\n'.join(rows) + '</tbody></table></section>\n')


def page(pages, about):
    """The page of HTML: the sheets, and where the bits of a large matrix do not fit on them, a table of them."""
    body = ''.join(f'<section class="sheet"><svg xmlns="http://www.w3.org/2000/svg" class="zg" viewBox="0 0 {WIDE} {TALL}" role="img" aria-label="Page {i + 1}">{sheet.svg()}</svg></section>\n'
                   for i, sheet in enumerate(sheets_of(pages, about, 'follow this page')))
    return (f'<!doctype html>\n<html lang="en"><head><meta charset="utf-8"><meta name="viewport" content="width=device-width">'
            f'<title>Certificate of {quoted(about.name)}</title><style>{STYLE}{PRINT}</style></head><body>\n{body}{listing(pages)}</body></html>\n')
