"""The night batch: tools/lot, the program over the kept lots, and that the lot's crates know a file by its single result alone.
Needs crates/nightbatch/out/nightbatch for the program."""
import importlib.util
import pathlib
import re
import subprocess
import sys
import tempfile
import unittest

ROOT = pathlib.Path(__file__).resolve().parents[2]
TOOL = ROOT / 'tools' / 'lot'
START = ROOT / 'tools' / 'start'
PROGRAM = ROOT / 'crates' / 'nightbatch' / 'out' / 'nightbatch'
sys.dont_write_bytecode = True
spec = importlib.util.spec_from_file_location('lots', ROOT / 'tools' / 'vectors' / 'lots.py')
lots = importlib.util.module_from_spec(spec)
spec.loader.exec_module(lots)


def tool(*words, **more):
    return subprocess.run([sys.executable, str(TOOL), *map(str, words)], capture_output=True, text=True, **more)


class Tool(unittest.TestCase):
    def setUp(self):
        folder = tempfile.TemporaryDirectory()
        self.addCleanup(folder.cleanup)
        self.path = pathlib.Path(folder.name)

    def test_pack_is_the_lot_of_the_files(self):
        files = [ROOT / 'examples' / (name + '.cut') for name in ('paper', 'refused', 'ghz')]
        done = tool('pack', *files, '-o', self.path / 'a.lot')
        self.assertEqual((done.returncode, done.stderr), (0, ''))
        lot = (self.path / 'a.lot').read_bytes()
        self.assertEqual(lot, lots.lot_of([file.read_bytes() for file in files]))
        (self.path / 'names').write_text('\n'.join(map(str, files)))
        tool('pack', f'@{self.path / "names"}', '-o', self.path / 'b.lot')
        self.assertEqual((self.path / 'b.lot').read_bytes(), lot)

    def test_too_many_and_missing(self):
        self.assertIn('at most 1000', tool('pack', *['x'] * 1001, '-o', self.path / 'a.lot').stderr)
        self.assertIn('cannot be read', tool('pack', self.path / 'none', '-o', self.path / 'a.lot').stderr)
        self.assertFalse((self.path / 'a.lot').exists())

    def test_list(self):
        path = self.path / 'a.lot'
        path.write_bytes(lots.lot_of([lots.PAPER, lots.PAPER])[:-10])
        lines = tool('list', path).stdout.split('\n')
        self.assertEqual(lines[:3], ['2 files', '   1  288 bytes at 12', '   2  288 bytes at 300, cut short after 278'])
        for lot in (b'', lots.lot_of([b''] * 1001), lots.lot_of([b'', b''])[:-1]):
            path.write_bytes(lot)
            self.assertIn('answers 16', tool('list', path).stderr)

    def test_show(self):
        sheet = ROOT / 'crates' / 'nightbatch' / 'stdout'
        done = tool('show', sheet, '--svg', self.path / 'a.svg')
        self.assertIn('17 files, 5 certificates', done.stdout)
        self.assertIn('smallest 2, first in file 4', done.stdout)
        self.assertIn('</svg>', (self.path / 'a.svg').read_text())
        self.assertIn('Refused by 16', tool('show', input='refused 16 0\n').stdout)
        for text in ('', 'lot 1\n', sheet.read_text()[:-1], sheet.read_text().replace('answer 1 2', 'answer 1 3')):
            self.assertIn('not a sheet', tool('show', input=text).stderr)


@unittest.skipUnless(PROGRAM.exists(), 'nightbatch is not built')
class Program(unittest.TestCase):
    def test_the_kept_lots(self):
        with tempfile.TemporaryDirectory() as folder:
            for name, lot in lots.cases():
                (pathlib.Path(folder) / 'lot.bin').write_bytes(lot)
                done = subprocess.run([START, PROGRAM], cwd=folder, capture_output=True, text=True)
                self.assertEqual(done.stdout, lots.sheet(lot), name)

    def test_a_missing_lot_is_empty(self):
        with tempfile.TemporaryDirectory() as folder:
            self.assertEqual(subprocess.run([START, PROGRAM], cwd=folder, capture_output=True, text=True).stdout, 'refused 16 0\n')


@unittest.skipUnless(PROGRAM.exists(), 'nightbatch is not built')
class Certify(unittest.TestCase):
    """./certify --lot, by the same proved program."""
    lot = ROOT / 'crates' / 'nightbatch' / 'data' / 'lot.bin'
    printed = (ROOT / 'crates' / 'nightbatch' / 'stdout').read_bytes()

    def run_it(self, *words, **more):
        return subprocess.run([str(ROOT / 'certify'), '--lot', *map(str, words)], capture_output=True, timeout=600, **more)

    def test_a_sheet(self):
        self.run_it(self.lot)  # the first may say that it proves
        done = self.run_it(self.lot)
        self.assertEqual((done.returncode, done.stdout, done.stderr), (0, self.printed, b''))
        self.assertEqual(self.run_it('-', input=self.lot.read_bytes()).stdout, self.printed)

    def test_a_pipe_is_kept_first(self):
        done = subprocess.run(['bash', '-c', '"$0" --lot <(cat "$1")', str(ROOT / 'certify'), str(self.lot)], capture_output=True)
        self.assertEqual((done.returncode, done.stdout), (0, self.printed))

    def test_refusals_and_wrong_use(self):
        done = self.run_it('/none/here')
        self.assertEqual((done.returncode, done.stdout), (1, b'refused 16 0\n'))
        self.assertIn(b'counts as empty', done.stderr)
        self.assertEqual(self.run_it(self.lot, self.lot).returncode, 2)
        self.assertEqual(self.run_it(ROOT).returncode, 3)


class Promises(unittest.TestCase):
    """`lots` and `lot_tallies` stand on the single result: they list no crate below it but the answers, the reading of a number and one law of
    whole numbers, name no definition below it, and unfold none of ours but their own."""
    LAW = 'use Rattle.whole_numbers.proofs.WholeLaws.{le-or-lt}\n'

    def listed(self, crate):
        return re.search(rf'^{crate}:(.*)$', (ROOT / 'crates.txt').read_text(), re.M).group(1).split()

    def unfoldable(self, crate):
        paths = (ROOT / 'crates').glob(f'{crate}/specs/*.antt')
        return {name for path in paths for name in re.findall(r'^unfoldable pub (\S+) :', path.read_text(), re.M)}

    def test_crates(self):
        self.assertEqual(self.listed('lot_tallies'), ['whole_numbers'])
        self.assertEqual(self.listed('lots'), ['answers', 'cutfile', 'lot_verdicts', 'lot_tallies'])

    def test_names_and_unfoldings(self):
        for crate in ('lot_tallies', 'lots'):
            own, theirs = self.unfoldable(crate), self.unfoldable('*')
            named = set()
            for path in [p for kind in ('*.rt', '*.antt') for part in ('src', 'specs', 'proofs') for p in (ROOT / 'crates' / crate / part).rglob(kind)]:
                text = path.read_text().replace(self.LAW, '')
                for other, module in re.findall(r'Rattle\.(\w+)\.([\w.]+)', text):
                    known = {crate, 'answers', 'lot_verdicts', 'lot_tallies', 'std'} | ({'cutfile'} if module.startswith('specs.Bytes') else set())
                    self.assertIn(other, known, path)
                    named.add(other)
                for line in re.findall(r'^\s*unfolding (.*)$', text, re.M):
                    self.assertEqual((set(line.split()) - own) & theirs, set(), path)
                for root, module in re.findall(r'\b(\w+)::((?:specs|proofs)::[\w:]+)', text):
                    self.assertIn((root, module), {('crate', module), ('whole_numbers', 'proofs::WholeLaws::le_or_lt')}, path)
                for attribute in re.findall(r'#!?\[tactic\(([^\]]*)\)\]', text):
                    for line in re.findall(r'\bunfolding\(([^)]*)\)', attribute):
                        self.assertLessEqual({name.strip().split('::')[-1] for name in line.split(',')}, own, path)
            self.assertIn(crate, named)


if __name__ == '__main__':
    unittest.main()
