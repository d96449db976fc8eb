"""The page of all cuts: tools/profile and ./certify --profile beside the certificates of examples/, and its picture. Needs a C compiler and
target/staticlib/libexports.a (tools/library)."""
import os
import pathlib
import subprocess
import sys
import tempfile
import unittest
import xml.dom.minidom

ROOT = pathlib.Path(__file__).resolve().parent.parent.parent
ARCHIVE = ROOT / 'target' / 'staticlib' / 'libexports.a'


def ran(*words):
    found = subprocess.run([str(word) for word in words], capture_output=True, text=True, cwd=ROOT)
    return found.returncode, found.stdout, found.stderr


def cuts_of(text):
    """{j: the lines behind `cut J ..`}, and the words of that line."""
    found, words = {}, {}
    for line in text.splitlines()[1:]:
        if line.startswith('cut '):
            j = int(line.split()[1])
            found[j], words[j] = [], line.split()[2:]
        else:
            found[j].append(line)
    return found, words


@unittest.skipUnless(ARCHIVE.exists(), 'the static library is not built')
class Profile(unittest.TestCase):
    def test_beside_the_certificates(self):
        """A cut file whose list is 0..j has the values, the entropy, the sweeps and the mark of quiet of entry j."""
        compared = 0
        for path in sorted((ROOT / 'examples').glob('*.cut')):
            certificate = path.with_suffix('.txt').read_text().splitlines()
            status, text, _ = ran('tools/profile', path)
            if certificate[0].startswith('refused'):
                continue
            self.assertEqual((status, text.splitlines()[0].split()[0]), (0, 'profile'), path)
            found, words = cuts_of(text)
            _, n, k, *_ = certificate[0].split()
            self.assertEqual(len(found), int(n) - 1)
            data = path.read_bytes()
            listed = [int.from_bytes(data[24 + 4 * i:28 + 4 * i], 'little') for i in range(int(k))]
            if sorted(listed) != list(range(len(listed))):
                continue
            j = len(listed) - 1
            self.assertEqual(found[j], [line for line in certificate if line.startswith(('value', 'entropy'))], path)
            _, count, sweeps, quiet = certificate[-1].split()
            self.assertEqual(words[j][:3], [count, sweeps, quiet])
            compared += 1
        self.assertGreaterEqual(compared, 2)

    def test_refusals(self):
        self.assertEqual(ran('tools/profile', 'examples/refused-7.cut')[:2], (1, (ROOT / 'examples/refused-7.txt').read_text()))
        self.assertEqual(ran('tools/profile', 'examples/refused-8.cut')[:2], (1, (ROOT / 'examples/refused-8.txt').read_text()))
        status, text, said = ran('tools/profile', 'examples/refused-10.cut')
        self.assertEqual((status, text), (2, ''))
        self.assertIn('cut file', said)
        self.assertEqual(ran('./certify', '--profile')[0], 2)
        self.assertEqual(ran('./certify', '--profile', 'examples/nothing.cut')[:2], (3, ''))

    def test_certify_and_the_picture(self):
        with tempfile.TemporaryDirectory() as folder:
            page = os.path.join(folder, 'page.svg')
            status, text, _ = ran('./certify', '--profile', 'examples/paper.cut', '--svg', page)
            self.assertEqual((status, text), ran('tools/profile', 'examples/paper.cut')[:2])
            self.assertEqual(status, 0)
            drawn = xml.dom.minidom.parse(page)
            self.assertEqual(len(drawn.getElementsByTagName('circle')), 3)
            self.assertEqual(len(drawn.getElementsByTagName('rect')), 1 + 2 + 4 + 2)
            self.assertIn('2.000', pathlib.Path(page).read_text())


if __name__ == '__main__':
    sys.exit(unittest.main())
