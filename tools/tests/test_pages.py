"""Both pages: `./certify --pages` with a stand-in for `pageprint` that prints what tools/vectors/pages.py makes, the proved program beside
that maker where it is built, and the pages that tools/read makes of the printouts. It needs no browser."""
import cmath
import contextlib
import html.parser
import importlib.machinery
import importlib.util
import io
import math
import os
import pathlib
import random
import re
import shutil
import struct
import subprocess
import sys
import tempfile
import types
import unittest
import xml.etree.ElementTree as xml
from unittest import mock

ROOT = pathlib.Path(__file__).resolve().parents[2]
MAKER = ROOT / 'tools' / 'vectors'
START = ROOT / 'tools' / 'start'
PROGRAM = ROOT / 'crates' / 'pageprint' / 'out' / 'pageprint'
CIRCUIT = ROOT / 'examples' / 'circuit.cut'
PRINTED = (ROOT / 'examples' / 'circuit.pages.txt').read_text()


def maker():
    """tools/vectors/pages.py, whose folder does not stay on the path: it has a numbers.py."""
    kept = list(sys.path)
    sys.path.insert(0, str(MAKER))
    import pages
    sys.path[:] = kept
    return pages


pages = maker()
sys.dont_write_bytecode = True
sys.path.insert(0, str(ROOT / 'tools'))
import two_pages as reader  # noqa: E402
cutfiles = pages.cutfiles


class Case(unittest.TestCase):
    def setUp(self):
        folder = tempfile.TemporaryDirectory()
        self.addCleanup(folder.cleanup)
        self.path = pathlib.Path(folder.name)

    def file(self, name, data):
        (self.path / name).write_bytes(data)
        return self.path / name


def checkout(folder, program):
    """A checkout in which certify finds that program for pageprint, as tools/install leaves one."""
    small = folder / 'small'
    kept = small / 'target' / 'pageprint'
    kept.mkdir(parents=True)
    (small / 'tools').mkdir()
    shutil.copy(ROOT / 'certify', small / 'certify')
    shutil.copy(ROOT / 'tools' / 'proving.sh', small / 'tools')
    (kept / 'pageprint').write_text(program)
    (kept / 'pageprint').chmod(0o755)
    (kept / 'kit').write_text('a stand-in\n')
    (kept / 'paths').write_text('target/pageprint/pageprint\n')
    said = subprocess.run(['bash', '-c', '. tools/proving.sh; sum_of . target/pageprint/pageprint'], cwd=small, capture_output=True, text=True)
    (kept / 'sum').write_text(said.stdout)
    (kept / 'began').write_text('')
    return small


class Certify(Case):
    """With a program that prints the contents of a file named `told`, so that any text can be tried."""

    def setUp(self):
        super().setUp()
        self.told = self.path / 'told'
        self.small = checkout(self.path, f'#!/bin/sh\nexec cat {self.told}\n')

    def certify(self, *words, text=None, **more):
        if text is not None:
            self.told.write_text(text)
        return subprocess.run([self.small / 'certify', '--pages', *words], capture_output=True, text=True, timeout=60, **more)

    def test_status(self):
        for name, file in pages.cases():
            text = pages.printout(file)
            refused = text.startswith('refused') or '\nrefused ' in text
            done = self.certify(CIRCUIT, text=text)
            self.assertEqual((done.returncode, done.stdout, done.stderr), (int(refused), text, ''), name)

    def test_what_is_not_whole_is_never_written(self):
        lines = PRINTED.splitlines(keepends=True)
        broken = [PRINTED[:-1], PRINTED + 'end pages\n', PRINTED + '\n', '', 'page 1\n', 'refused 1', PRINTED.replace('page 2', 'page 3'),
                  PRINTED.replace(lines[1], 'digest 0000000000000000\n', 1), 'refused 10 0\n' + PRINTED, PRINTED.replace('list 4 1 2', 'list 4 1')]
        broken += [''.join(lines[:i] + lines[i + 1:]) for i in range(0, len(lines), 5)] + [''.join(lines[:i]) for i in range(0, len(lines), 7)]
        for text in broken:
            done = self.certify(CIRCUIT, text=text)
            self.assertEqual((done.returncode, done.stdout), (3, ''), text[:300])
            self.assertRegex(done.stderr, r'^certify: [^\n]*\n$')

    def test_several_files_and_standard_input(self):
        other = self.file('a\nb.cut', b'')
        done = self.certify(CIRCUIT, other, '-', text=PRINTED, input='')
        self.assertEqual((done.returncode, done.stdout), (0, ''.join(f'file {name}\n{PRINTED}' for name in (CIRCUIT, str(other).replace('\n', '?'), '-'))))

    def test_wrong_use_and_version(self):
        self.assertEqual(self.certify().returncode, 2)
        self.assertIn('pageprint', self.certify('--version').stdout)
        self.assertIn('--pages', self.certify('--help').stdout)


@unittest.skipUnless(PROGRAM.exists(), 'crates/pageprint/out/pageprint is not built')
class Proved(Case):
    """The proved program beside the maker, byte for byte."""

    def printed(self, file):
        self.file('state.bin', file)
        return subprocess.run([START, PROGRAM], cwd=self.path, capture_output=True, text=True, timeout=60, check=True).stdout

    def test_cases(self):
        for name, file in pages.cases():
            self.assertEqual(self.printed(file), pages.printout(file), name)

    def test_drawn(self):
        rng = random.Random(int(os.environ.get('PAGES_SEED', '20261116')))
        count = int(os.environ.get('PAGES_COUNT', '400'))
        for i in range(count):
            file = pages.drawn_file(rng)
            self.assertEqual(self.printed(file), pages.printout(file), f'file {i}: {file.hex()}')
        print(f'pages: {count} drawn files print what tools/vectors/pages.py makes')


class Text(html.parser.HTMLParser):
    """The words of a page, and that every element is closed."""

    def __init__(self, text):
        super().__init__()
        self.open, self.words, self.styles = [], [], 0
        self.feed(text)
        self.close()
        assert not self.open, self.open

    def handle_starttag(self, tag, attrs):
        if tag != 'meta':
            self.open.append(tag)

    def handle_startendtag(self, tag, attrs):
        pass

    def handle_endtag(self, tag):
        assert self.open.pop() == tag, tag

    def handle_data(self, data):
        if 'style' not in self.open:
            self.words.append(data)


def tool():
    loader = importlib.machinery.SourceFileLoader('read_tool', str(ROOT / 'tools' / 'read'))
    module = importlib.util.module_from_spec(importlib.util.spec_from_loader('read_tool', loader))
    loader.exec_module(module)
    return module


class Read(Case):
    tool = tool()

    def read(self, text, *words):
        """tools/read within this process: hundreds of them are tried."""
        out, err, given = io.StringIO(), io.StringIO(), io.TextIOWrapper(io.BytesIO(text.encode()))
        with contextlib.redirect_stdout(out), contextlib.redirect_stderr(err), mock.patch.object(sys, 'argv', ['read', *map(str, words)]), mock.patch.object(sys, 'stdin', given):
            status = self.tool.main()
        return types.SimpleNamespace(returncode=status, stdout=out.getvalue(), stderr=err.getvalue())

    def test_from_the_shell(self):
        done = subprocess.run(['bash', '-c', '"$0" --cut "$1" --html "$2" <"$3" >"$4"', ROOT / 'tools' / 'read', CIRCUIT, self.path / 'a.html', ROOT / 'examples' / 'circuit.pages.txt', self.path / 'said'],
                              stderr=subprocess.PIPE, text=True, cwd='/')
        self.assertEqual((done.returncode, done.stderr), (0, ''))
        self.assertIn('Page: ', (self.path / 'said').read_text())
        for word in ('/dev/full', self.path, self.path / 'no' / 'a.html'):
            done = subprocess.run([ROOT / 'tools' / 'read', '--html', word], input=PRINTED, capture_output=True, text=True)
            self.assertEqual(done.returncode, 1)
            self.assertRegex(done.stderr, r'^read: [^\n]*\n$')

    def drawn(self, text, *words):
        """What the terminal says, and the words of the HTML and of the SVG."""
        page, picture = self.path / 'a.html', self.path / 'a.svg'
        done = self.read(text, '--html', page, '--svg', picture, '--date', '1 April 2031', '--kit', 'proved with a kit', *words)
        self.assertEqual((done.returncode, done.stderr), (0, ''), text[:200])
        root = xml.parse(picture).getroot()
        return done.stdout, Text(page.read_text()).words, [''.join(e.itertext()) for e in root.iter('{http://www.w3.org/2000/svg}text')]

    def refused(self, text, said, *words):
        done = self.read(text, '--html', self.path / 'bad.html', '--svg', self.path / 'bad.svg', *words)
        self.assertEqual((done.returncode, done.stdout), (1, ''), text[:200])
        self.assertRegex(done.stderr, r'^read: [^\n]*\n$')
        self.assertIn(said, done.stderr)
        self.assertEqual(list(self.path.glob('bad.*')), [])

    def test_the_example(self):
        shell, page, picture = self.drawn(PRINTED, '--cut', CIRCUIT)
        self.assertIn('Digest 5FB4A7F8F75A0427 on both pages', shell)
        self.assertIn('Summed from the cut matrix alone: the same bits', shell)
        for words in (''.join(page), '\n'.join(picture)):
            self.assertEqual(words.count('5FB4A7F8F75A0427'), 4)        # head and foot of both pages
            for line in ('circuit.cut', '1 April 2031', 'proved with a kit', 'pageprint of Zegrafult', 'Page 1 of 2', 'Page 2 of 2', '6 qubits, 3 named', '8 by 8',
                         '2.17… bits', '6, quiet', 'rounded', 'the same bits', '3FF0000000000002', '3FF0000000000005', 'Scaled to trace one'):
                self.assertIn(line, words)
        for words in (page, picture):
            self.assertEqual([w for w in words if re.fullmatch('[01]{3}', w)].count('100'), 4)      # a row and a column of each of two matrices
            for line in PRINTED.splitlines():
                for bits in re.findall('[0-9A-F]{16}', line):
                    self.assertIn(bits, ''.join(words) if line.startswith('digest') else words)
            cells = re.findall('[0-9A-F]{16}', '\n'.join(line for line in PRINTED.splitlines() if line.startswith(('cell', 'scaled'))))
            shown = [w for w in words if re.fullmatch('[0-9A-F]{16}', w)]
            kept = iter(shown)
            self.assertTrue(all(bits in kept for bits in cells), 'the cells stand in their order')

    def test_the_heat_map_is_not_turned(self):
        """Row t is below row t - 1, column u right of column u - 1, and a cell's colour is that of its own phase: +135 degrees at row 0, column 1."""
        self.drawn(PRINTED)
        squares = [e.attrib for e in xml.parse(self.path / 'a.svg').getroot().iter('{http://www.w3.org/2000/svg}rect') if e.get('stroke') == '#e3e6ea']
        self.assertEqual(len(squares), 64)
        cells = dict((tuple(map(int, line.split()[1:3])), line.split()[3:]) for line in PRINTED.splitlines() if line.startswith('cell '))
        numbers = {at: complex(*(struct.unpack('>d', bytes.fromhex(word))[0] for word in bits)) for at, bits in cells.items()}
        peak = max(map(abs, numbers.values()))
        left, top, side = (float(squares[0][name]) for name in ('x', 'y', 'width'))
        for square in squares:
            at = round((float(square['y']) - top) / side), round((float(square['x']) - left) / side)
            self.assertEqual(square['fill'], reader.colour(abs(numbers[at]) / peak, cmath.phase(numbers[at])), at)
        self.assertAlmostEqual(math.degrees(cmath.phase(numbers[0, 1])), 135)
        self.assertNotEqual(squares[1]['fill'], squares[8]['fill'])

    def test_every_case(self):
        seen = set()
        for name, file in pages.cases():
            text, cut = pages.printout(file), self.file('a.cut', file)
            if text in seen:
                continue
            seen.add(text)
            shell, page, picture = self.drawn(text, '--cut', cut)
            refused = text.count('refused ') - text.count('scaled refused ')
            for words in (''.join(page), '\n'.join(picture)):
                self.assertEqual(words.count(' is refused'), refused, name)
                self.assertEqual('gave up' in words, ' no\nexact' in text, name)
                self.assertEqual('Refused: ' in words, 'scaled refused' in text, name)
            for bits in set(re.findall('[0-9A-F]{16}', text)):
                self.assertIn(bits, ''.join(page), name)

    def test_five_named(self):
        file = cutfiles.cut_file(9, [8, 1, 6, 3, 4], cutfiles.drawn(9, random.Random(1)))
        text = pages.printout(file)
        shell, page, picture = self.drawn(text, '--cut', self.file('a.cut', file))
        shown = [w for w in page if re.fullmatch('[0-9A-F]{16}', w)]
        self.assertGreaterEqual(len(shown), 4 * 1024)
        self.assertIn('The bits of all 1,024 cells, unscaled and scaled, follow this', '\n'.join(page))

    def test_a_wrong_pair(self):
        other = bytearray(CIRCUIT.read_bytes())
        other[-1] ^= 1
        self.refused(PRINTED, 'digest', '--cut', self.file('other.cut', bytes(other)))
        self.refused(PRINTED, 'digest', '--cut', ROOT / 'examples' / 'ghz.cut')
        self.refused(PRINTED, 'digest', '--cut', self.file('empty.cut', b''))
        self.refused(PRINTED.replace('5FB4A7F8F75A0427', '5FB4A7F8F75A0428', 1), 'different files')
        self.refused(PRINTED.replace('list 4 1 2', 'list 4 1 3'), 'not of one file')
        self.refused(PRINTED.replace('side 4 1 2', 'side 0 1 2'), 'not of one file')
        self.refused(PRINTED.replace('list 4 1 2', 'list 1 4 2').replace('side 4 1 2', 'side 1 4 2'), 'the list is another', '--cut', CIRCUIT)

    def test_what_is_not_whole(self):
        lines = PRINTED.splitlines(keepends=True)
        for i in range(len(lines)):
            self.refused(''.join(lines[:i] + lines[i + 1:]), '') if i % 9 == 0 or lines[i][:4] not in ('cell', 'scal') else None
        for i in range(1, len(lines), 17):
            self.refused(''.join(lines[:i]), '')
        for old, new in (('summed yes', 'summed maybe'), ('exact no', 'exact'), ('end 8 6 yes', 'end 7 6 yes'), ('end 8 6 yes', 'end 8 6'), ('cell 0 1', 'cell 1 0'),
                         ('trace 3FF0', 'trace 3ff0'), ('list 4 1 2', 'list'), ('list 4 1 2', 'list 4 1'), ('list 4 1 2', 'list 0 1 2 3 4 5'), ('cut 6 3', 'cut 99999999999 3'),
                         ('kept 3FF', 'kept 3F'), ('end pages\n', 'end pages'), ('end pages\n', 'end pages\nmore\n'), ('page 2', 'page 1'), ('list 4 1 2', 'list 4 1 \u00b2')):
            self.assertIn(old, PRINTED)
            self.refused(PRINTED.replace(old, new, 1), '')
        self.refused((ROOT / 'examples' / 'paper.txt').read_text(), '--html is for both pages')

    def test_any_bits_are_shown(self):
        for bits in ('7FF8000000000000', '7FF0000000000000', 'FFF0000000000000', '7FEFFFFFFFFFFFFF', 'BFF0000000000000', '0000000000000001', 'FFFFFFFFFFFFFFFF'):
            for line in ('cell 0 0 ', 'trace ', 'kept ', 'value 0 ', 'scaled 7 7 '):
                start = PRINTED.index('\n' + line) + 1 + len(line)
                self.drawn(PRINTED[:start] + bits + PRINTED[start + 16:])

    def test_names_are_quoted(self):
        cut = self.file('<b>"&\n.cut', CIRCUIT.read_bytes())
        shell, page, picture = self.drawn(PRINTED, '--cut', cut)
        self.assertIn('<b>"&?.cut', page)
        self.assertIn('<b>"&?.cut', picture)

    def test_a_refusal_of_the_whole_file(self):
        shell, page, picture = self.drawn('refused 7 2\n', '--cut', ROOT / 'examples' / 'refused-7.cut')
        for words in (page, picture):
            self.assertIn('This file is refused', words)
            self.assertIn('Look at the detector channel behind that amplitude.', words)

    def test_the_picture_in_docs(self):
        """docs/pages.svg is what the reader makes of the example."""
        done = self.read(PRINTED, *PICTURE, '--svg', self.path / 'a.svg')
        self.assertEqual(done.returncode, 0, done.stderr)
        self.assertEqual((self.path / 'a.svg').read_text(), (ROOT / 'docs' / 'pages.svg').read_text(), 'tools/tests/test_pages.py --picture makes it anew')


PICTURE = ('--cut', CIRCUIT, '--date', '2026-11-16', '--kit', 'proved with rattle-kit-5b')

if __name__ == '__main__':
    if sys.argv[1:] == ['--picture']:
        sys.exit(subprocess.run([sys.executable, ROOT / 'tools' / 'read', ROOT / 'examples' / 'circuit.pages.txt', *PICTURE, '--svg', ROOT / 'docs' / 'pages.svg']).returncode)
    unittest.main()
