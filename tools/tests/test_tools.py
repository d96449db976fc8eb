"""The bench tools: what pack writes, what read shows, and what each says of input it cannot use."""
import math
import pathlib
import struct
import subprocess
import sys
import tempfile
import unittest
import xml.etree.ElementTree as xml

TOOLS = pathlib.Path(__file__).resolve().parents[1]
PAPER = 'cut 4 2 4 4\nside 0 1\n' + ''.join(f'value {i} 3FE0000000000000\n' for i in range(4)) + 'entropy 137438953472 137438953472 68719476736\nend 4 1 yes\n'


def run(tool, *words, text=None):
    return subprocess.run([sys.executable, str(TOOLS / tool), *map(str, words)], input=text, capture_output=True, text=True)


class Case(unittest.TestCase):
    def setUp(self):
        self.folder = tempfile.TemporaryDirectory()
        self.addCleanup(self.folder.cleanup)
        self.path = pathlib.Path(self.folder.name)

    def one_sentence(self, done):
        self.assertRegex(done.stderr, r'^(pack|read): [^\n]*\n$')

    def file(self, name, text):
        (self.path / name).write_text(text)
        return self.path / name


class Pack(Case):
    def packed(self, name, text, *words):
        done = run('pack', self.file(name, text), *words, '-o', self.path / 'out.cut')
        self.assertEqual(done.returncode, 0, done.stderr)
        return (self.path / 'out.cut').read_bytes()

    def test_layout(self):
        data = self.packed('a.txt', '1 0\n0\n# a comment\n0 -0.5\n2e-3 1\n', '-q', '1')
        self.assertEqual(data[:24], struct.pack('<4s5I', b'CUT1', 2, 1, 24, 32, 96))
        self.assertEqual(data[24:32], struct.pack('<II', 1, 0))
        self.assertEqual(data[32:], struct.pack('<8d', 1, 0, 0, 0, 0, -0.5, 2e-3, 1))

    def test_even_list_has_no_gap(self):
        data = self.packed('a.txt', '1\n0\n0\n0\n0\n0\n0\n0\n', '-q', '2,0')
        self.assertEqual(struct.unpack('<I', data[16:20]), (32,))
        self.assertEqual(data[24:32], struct.pack('<II', 2, 0))

    def test_json_is_the_text(self):
        same = self.packed('a.txt', '1 0.25\n0\n', '-q', '0')
        self.assertEqual(self.packed('a.json', '{"amplitudes": [[1, 0.25], 0], "qubits": [0]}'), same)

    def test_a_nan_is_packed_and_not_judged(self):
        data = self.packed('a.txt', 'nan\n0\n', '-q', '0')
        self.assertNotEqual(struct.unpack('<d', data[32:40])[0], struct.unpack('<d', data[32:40])[0])

    def test_bad_input(self):
        for text, words, said in [('1\n0\n0\n', ['-q', '0'], '3 amplitudes'), ('1\nx\n', ['-q', '0'], 'Line 2'), ('1 2 3\n0\n', ['-q', '0'], 'Line 1'),
                                  ('[1, "a"]', ['-q', '0'], 'Amplitude 1'), ('[1', ['-q', '0'], 'JSON'), ('1\n0\n', [], 'No qubits'),
                                  ('1\n0\n', ['-q', 'a'], 'whole numbers'), ('', ['-q', '0'], '0 amplitudes')]:
            done = run('pack', self.file('bad', text), *words, '-o', self.path / 'bad.cut')
            self.assertEqual(done.returncode, 1, text)
            self.assertIn(said, done.stderr)
            self.assertFalse((self.path / 'bad.cut').exists())

    def test_no_such_file(self):
        for path in (self.path / 'none', self.path):
            done = run('pack', path, '-q', '0', '-o', self.path / 'a.cut')
            self.assertEqual(done.returncode, 1)
            self.one_sentence(done)

    def test_a_decimal_comma_is_refused(self):
        for line in ('0,7071', '0,5 0,5', '1,0', '0,5, 0,5', '1.234,56', '0,7071+0,1j', '1,2,3'):
            done = run('pack', self.file('a.txt', f'{line}\n0\n'), '-q', '0', '-o', self.path / 'a.cut')
            self.assertEqual(done.returncode, 1, line)
            self.assertIn('comma', done.stderr)
            self.assertFalse((self.path / 'a.cut').exists())

    def test_ways_to_write_a_number(self):
        same = self.packed('a.txt', '0.5 -0.25\n0 1e-3\n', '-q', '0')
        for text in ('0.5-0.25j\n1e-3j\n', '(0.5-0.25j)\n(0+1e-3j)\n', '0.5, -0.25\n0.0,1e-3\n', '\ufeff0.5 -0.25\r\n0 1e-3\r\n',
                     ' (5.000000000000000000e-01+-2.500000000000000000e-01j)\n (0.000000000000000000e+00+1.000000000000000021e-03j)\n',
                     '\ufeff[[0.5, -0.25], [0, 1e-3]]'):
            self.assertEqual(self.packed('a.txt', text, '-q', '0'), same, text)
        (self.path / 'wide.txt').write_bytes('0.5 -0.25\n0 1e-3\n'.encode('utf-16'))
        run('pack', self.path / 'wide.txt', '-q', '0')
        self.assertEqual((self.path / 'wide.cut').read_bytes(), same)

    def npy(self, kind, shape, data, major=1):
        header = f"{{'descr': '{kind}', 'fortran_order': False, 'shape': {shape}, }}".encode()
        wide = 2 if major == 1 else 4
        header += b' ' * (-(8 + wide + len(header) + 1) % 64) + b'\n'
        (self.path / 'a.npy').write_bytes(b'\x93NUMPY' + bytes([major, 0]) + len(header).to_bytes(wide, 'little') + header + data)
        (self.path / 'a.cut').unlink(missing_ok=True)
        return run('pack', self.path / 'a.npy', '-q', '0')

    def test_npy(self):
        same = self.packed('a.txt', '0.5 -0.25\n0 1\n', '-q', '0')
        numbers = (0.5, -0.25, 0, 1)
        for kind, shape, data in [('<c16', '(2,)', struct.pack('<4d', *numbers)), ('>c16', '(2, 1)', struct.pack('>4d', *numbers)), ('<c8', '(1, 2)', struct.pack('<4f', *numbers))]:
            for major in (1, 2):
                done = self.npy(kind, shape, data, major)
                self.assertEqual((done.returncode, (self.path / 'a.cut').read_bytes()), (0, same), done.stderr)
        self.assertEqual(self.npy('<f8', '(2,)', struct.pack('<2d', 1, 0)).returncode, 0)
        for kind, shape, data in [('|O', '(2,)', b'x'), ('<c16', '(2, 2)', b'\0' * 64), ('<c16', '(2,)', b'\0' * 31), ('<c16', '()', b'\0' * 16), ('<c16', '(3000000,)', b''),
                                  ('<c16', 'x', b''), ('<c16', '(-2,)', b''), ("', [", '(2,)', b'')]:
            done = self.npy(kind, shape, data)
            self.assertEqual(done.returncode, 1)
            self.one_sentence(done)

    def test_the_order_of_qutip(self):
        # qubit 0 in state 1, the others in 0: the highest bit there, bit 0 here
        there, here = ['0'] * 8, ['0'] * 8
        there[4] = here[1] = '1'
        self.assertEqual(self.packed('a.txt', '\n'.join(there), '-q', '0', '--order', 'qutip'), self.packed('a.txt', '\n'.join(here), '-q', '0'))
        self.assertNotEqual(self.packed('a.txt', '\n'.join(there), '-q', '0'), self.packed('a.txt', '\n'.join(here), '-q', '0'))

    def test_the_input_is_never_overwritten(self):
        for name, words in [('a.cut', []), ('a.txt', ['-o', self.path / 'a.txt']), ('a.txt', ['-o', self.path / 'link'])]:
            state = self.file(name, '1\n0\n')
            (self.path / 'link').unlink(missing_ok=True)
            (self.path / 'link').symlink_to(state)
            done = run('pack', state, '-q', '0', *words)
            self.assertEqual((done.returncode, state.read_text()), (1, '1\n0\n'))
            self.assertIn('overwrite', done.stderr)

    def test_everything_else_has_a_sentence(self):
        for text, said in [('[' * 100000, 'deep'), ('[' + '[' * 900 + ']' * 900 + ']', 'Amplitude 0'), ('1\n' * 3000000, '65536'), ('one\ntwo\n', 'Line 1'), ('1\n' * 65537, '65536'),
                           (PAPER, 'printout'), ('refused 7 2\n', 'printout'), ('{"qubits": [0]}', 'no list'), ('[1e400, 0', 'JSON'), ('[' + '9' * 5000 + ', 0]', 'JSON'),
                           ('[' + '9' * 400 + ', 0]', 'too large'), ('0.5+0.5\n0\n', 'Line 1'), ('1 2j\n0\n', 'Line 1'), ('(1,2)\n0\n', 'comma'), ('1;2\n0\n', 'Line 1')]:
            done = run('pack', self.file('bad', text), '-q', '0', '-o', self.path / 'bad.cut')
            self.assertEqual(done.returncode, 1, text[:40])
            self.assertIn(said, done.stderr)
            self.one_sentence(done)
        for data in (b'\x80\x81', b'CUT1' + b'\0' * 92, b'\x93NUMPY', b'\xff\xfe1'):
            (self.path / 'bad').write_bytes(data)
            done = run('pack', self.path / 'bad', '-q', '0', '-o', self.path / 'bad.cut')
            self.assertEqual(done.returncode, 1)
            self.one_sentence(done)
        for words in (['-q', '-1'], ['-q', '4294967296'], ['-q', '9' * 5000], ['-q', '0.5'], ['-q', '\u00b2']):
            self.assertNotEqual(run('pack', self.file('a.txt', '1\n0\n'), *words).returncode, 0)

    def test_the_examples_states(self):
        states = sorted((TOOLS.parent / 'examples').glob('*.state.txt'))
        self.assertEqual(len(states), 4)
        for state in states:
            cut = (TOOLS.parent / 'examples' / state.name.replace('.state.txt', '.cut')).read_bytes()
            k = struct.unpack('<I', cut[8:12])[0]
            named = ','.join(map(str, struct.unpack(f'<{k}I', cut[24:24 + 4 * k])))
            self.assertEqual(self.packed('a.txt', state.read_text(), '-q', named), cut)


class Read(Case):
    def test_values(self):
        done = run('read', text=PAPER)
        self.assertEqual(done.returncode, 0, done.stderr)
        self.assertIn('   0  0.5                     0.25                    ##########\n', done.stdout)
        self.assertIn('Rank 4, effective rank 4.0000, weights sum to 1.0', done.stdout)
        self.assertIn('Sweeps: 1, the last one quiet: it turned no pair', done.stdout)
        self.assertIn('Entropy of the weights: 2 bits, exactly.', done.stdout)

    def test_entropy_has_no_more_digits_than_its_band(self):
        done = run('read', text=PAPER.replace('137438953472 137438953472', '63105000000 63106000000'))
        self.assertEqual(done.returncode, 0, done.stderr)
        self.assertIn('Entropy of the weights: 0.918 bits and less', done.stdout)
        done = run('read', text=PAPER.replace('entropy 137438953472 137438953472 68719476736\n', ''))
        self.assertEqual(done.returncode, 0, done.stderr)
        self.assertNotIn('Entropy', done.stdout)
        self.assertEqual(run('read', text=PAPER.replace('entropy 137438953472 ', 'entropy ')).returncode, 1)

    def test_sweeps_given_up(self):
        done = run('read', '--svg', self.path / 'a.svg', text=PAPER.replace('1 yes', '100 no'))
        self.assertEqual(done.returncode, 0, done.stderr)
        for shown in [done.stdout, (self.path / 'a.svg').read_text()]:
            self.assertIn('Sweeps: 100, the last one not quiet: it still turned a pair, so the work was given up at its cap.', shown)
            self.assertIn('docs/AUDIT.md, question 6', shown)
        xml.parse(self.path / 'a.svg')

    def test_a_count_alone(self):
        done = run('read', text=PAPER.replace('end 4 1 yes', 'end 4'))
        self.assertEqual(done.returncode, 0, done.stderr)
        self.assertIn('Rank 4', done.stdout)
        self.assertNotIn('Sweeps', done.stdout)

    def test_question_6_is_there(self):
        self.assertTrue('\n## 6. ' in (TOOLS.parent / 'docs' / 'AUDIT.md').read_text())

    def test_refusals_have_a_sentence(self):
        for number in range(1, 11):
            done = run('read', text=f'refused {number} 3\n')
            self.assertEqual(done.returncode, 0)
            self.assertRegex(done.stdout, rf'^Refused: {number}, .{{10,}} Place 3\.\n$')

    def test_page(self):
        state = self.file('a.txt', '1\n0\n0\n1\n')
        run('pack', state, '-q', '0')
        text = 'cut 2 1 2 2\nside 0\nvalue 0 3FE6A09E667F3BCC\nvalue 1 3FE6A09E667F3BCC\nend 2 1 yes\n'
        done = run('read', '--cut', self.path / 'a.cut', '--svg', self.path / 'a.svg', text=text)
        self.assertEqual(done.returncode, 0, done.stderr)
        drawn = xml.parse(self.path / 'a.svg').getroot()
        shapes = [s for s in drawn.iter('{http://www.w3.org/2000/svg}rect') if s.get('stroke')]
        self.assertEqual([s.get('fill') for s in shapes], ['#bf0000', '#ffffff', '#ffffff', '#bf0000'])

    def values(self, *bits, n=2, side='0', sizes='1 2 2', more=''):
        return f'cut {n} {sizes}\nside {side}\n' + ''.join(f'value {i} {b}\n' for i, b in enumerate(bits)) + f'end {len(bits)}{more}\n'

    def test_any_bits_are_shown(self):
        for bits in ('7FF8000000000000', '7FF0000000000000', 'FFF0000000000000', '7FEFFFFFFFFFFFFF', 'BFF0000000000000', '0000000000000001', 'FFFFFFFFFFFFFFFF'):
            done = run('read', '--svg', self.path / 'a.svg', text=self.values(bits, bits))
            self.assertEqual((done.returncode, done.stderr), (0, ''), bits)
            xml.parse(self.path / 'a.svg')

    def test_words_after_the_count(self):
        done = run('read', text=self.values('3FF0000000000000', more=' 2 yes'))
        self.assertEqual(done.returncode, 0, done.stderr)

    def cut(self, state, qubits):
        done = run('pack', self.file('s.txt', '\n'.join(map(str, state))), '-q', qubits, '-o', self.path / 's.cut')
        self.assertEqual(done.returncode, 0, done.stderr)
        return self.path / 's.cut'

    def test_a_wrong_pair_is_not_drawn(self):
        bell = self.values('3FE6A09E667F3BCC', '3FE6A09E667F3BCC')
        page = self.path / 'a.svg'
        for state, qubits, good in [([1, 0, 0, 1], '0', True), ([1e-30, 0, 0, 1e-30], '0', True), ([1e-150, 0, 0, 1e-150], '0', True), ([1, 0, 0, 1], '1', False),
                                    ([1, 0, 0, 0], '0', False), ([1, 0, 0, 0.9], '0', False), ([1, 0, 0, 0, 0, 0, 0, 1], '0', False), ([1, 0, 0, math.nan], '0', False),
                                    ([1, 0, 0, 1], '0,0', False), ([1, 0, 0, 1], '0,1', False), ([1, 0, 0, 2.0 ** 900], '0', False), ([0, 0, 0, 0], '0', False)]:
            page.unlink(missing_ok=True)
            done = run('read', '--cut', self.cut(state, qubits), '--svg', page, text=bell)
            self.assertEqual((done.returncode == 0, page.exists()), (good, good), (state, qubits, done.stderr))
            if not good:
                self.one_sentence(done)
        for name in ('paper', 'ghz', 'product'):
            for other in ('paper', 'ghz', 'product'):
                done = run('read', TOOLS.parent / 'examples' / f'{name}.txt', '--cut', TOOLS.parent / 'examples' / f'{other}.cut')
                self.assertEqual(done.returncode, 0 if name == other else 1, (name, other, done.stderr))

    def test_seven_named_qubits_say_so(self):
        cut = self.cut([1] + [0] * 510 + [1], '0,1,2,3,4,5,6')
        text = self.values('3FE6A09E667F3BCC', '3FE6A09E667F3BCC', n=9, side='7 8', sizes='7 4 128')
        done = run('read', '--cut', cut, '--svg', self.path / 'a.svg', text=text)
        self.assertEqual(done.returncode, 0, done.stderr)
        self.assertIn('at most 6 named qubits, and here are 7', done.stdout)
        self.assertIn('at most 6 named qubits, and here are 7', (self.path / 'a.svg').read_text())

    def test_never_a_traceback(self):
        for text in ['cut 4 2 4 4\nside \u00b2\nend 0\n', f'cut {"9" * 5000} 1 2 2\nside 0\nend 0\n', self.values('3FE0\t0000000000\t'), PAPER[:-1], 'file a.cut\n' + PAPER, '\0', 'refused 7 ' + '9' * 5000]:
            done = run('read', text=text)
            self.assertEqual(done.returncode, 1, text[:40])
            self.one_sentence(done)
        for words in ([self.path], [self.path / 'none'], ['--cut', self.path], ['--cut', self.path / 'none'], ['--svg', self.path]):
            done = run('read', *words, text=PAPER)
            self.assertEqual(done.returncode, 1, words)
            self.one_sentence(done)
        with open('/dev/full', 'w') as full:
            done = subprocess.run([sys.executable, str(TOOLS / 'read')], input=PAPER, stdout=full, stderr=subprocess.PIPE, text=True)
        self.assertEqual(done.returncode, 1)
        self.one_sentence(done)

    def test_not_a_certificate(self):
        for text in ['', 'refused 7\n', 'cut 4 2 4 4\nside 0 1\nend 1\n', PAPER.replace('value 2', 'value 3'), PAPER.replace('3FE0', 'XYZ0'),
                     PAPER.replace('end 4', 'end 3'), PAPER + 'more\n', PAPER.replace('yes', 'maybe'), PAPER.replace(' yes', ''),
                     PAPER.replace('1 yes', '-1 yes'), PAPER.replace('yes', 'yes 0')]:
            done = run('read', text=text)
            self.assertEqual(done.returncode, 1, text)
            self.assertTrue(done.stderr.startswith('read: '))


if __name__ == '__main__':
    unittest.main()
