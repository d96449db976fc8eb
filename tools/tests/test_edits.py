"""tools/edits --more and tools/times, in a small checkout with a stand-in for `rt`, so that nothing is proved here."""
import os
import pathlib
import re
import subprocess
import tempfile
import unittest

TOOLS = pathlib.Path(__file__).resolve().parents[1]

# It says which crates it was asked for and which edits it finds, and refuses each with the error that the edit has after `# error: `.
RT = r'''#!/bin/sh
shift
echo "asked for $*"
for edit in crates/*/must-fail/*.edit; do
  [ -f "$edit" ] || continue
  crate=$(basename "$(dirname "$(dirname "$edit")")")
  echo "rt: must-fail $crate/$(basename "$edit"): refused, as it must be: ./proofs/Laws.antt:1:1: error: $(sed -n 's/^# error: //p' "$edit")"
done
'''


class Checkout(unittest.TestCase):
    def setUp(self):
        folder = tempfile.TemporaryDirectory()
        self.addCleanup(folder.cleanup)
        self.path = pathlib.Path(folder.name)
        self.write('crates.txt', 'low:\nmiddle: low\ntop: middle\naside:\n')
        for crate in ('low', 'middle', 'top', 'aside'):
            self.write(f'crates/{crate}/src/lib.rt', '// one\n')
            self.write(f'crates/{crate}/must-fail/kept.edit', 'file: src/lib.rt\nold: one\nnew: two\n')
            self.write(f'crates/{crate}/edits/more.edit', '# error: expected 3, found 2\nfile: src/lib.rt\nold: one\nnew: two\n')
        self.write('bin/rt', RT)
        (self.path / 'bin/rt').chmod(0o755)
        for words in (['init', '-q'], ['add', 'crates', 'crates.txt'], ['-c', 'user.name=a', '-c', 'user.email=a@a', 'commit', '-qm', 'one']):
            subprocess.run(['git', *words], cwd=self.path, check=True)

    def write(self, name, text):
        path = self.path / name
        path.parent.mkdir(parents=True, exist_ok=True)
        path.write_text(text)

    def run_it(self, tool, *words):
        env = dict(os.environ, PATH=f'{self.path / "bin"}:{os.environ["PATH"]}')
        return subprocess.run(['python3', str(TOOLS / tool), *words], cwd=self.path, env=env, capture_output=True, text=True)

    def tried(self, *words):
        done = self.run_it('edits', '--more', *words)
        self.assertEqual(done.returncode, 0, done.stdout + done.stderr)
        return set(re.findall(r'^rt: must-fail (\S+)\.edit: ', done.stdout, re.M))


class More(Checkout):
    def test_named(self):
        self.assertEqual(self.tried('low', 'top'), {'low/more', 'top/more'})
        self.assertEqual(sorted(path.name for path in (self.path / 'crates/low').iterdir()), ['edits', 'must-fail', 'src'])

    def test_all(self):
        self.assertEqual(self.tried('--all'), {'low/more', 'middle/more', 'top/more', 'aside/more'})

    def test_nothing_changed(self):
        self.assertEqual(self.tried('--since', 'HEAD'), set())

    def test_since_a_commit(self):
        self.write('crates/low/src/lib.rt', '// one, said otherwise\n')
        self.assertEqual(self.tried('--since', 'HEAD'), {'low/more', 'middle/more'})

    def test_a_proof_alone(self):
        self.write('crates/low/proofs/Laws.antt', '-- a law\n')
        self.assertEqual(self.tried('--since', 'HEAD'), {'low/more'})

    def test_a_missing_name_fails(self):
        self.write('crates/top/edits/more.edit', '# error: nothing of that name can be named from here\nfile: src/lib.rt\nold: one\nnew: two\n')
        done = self.run_it('edits', '--more', 'top')
        self.assertEqual(done.returncode, 1)
        self.assertIn('top/more: a name is missing', done.stdout)

    def test_of_the_last_run(self):
        self.write('target/ci.log', '1 rt: must-fail low/a.edit: refused, as it must be: ./proofs/Laws.antt:1:1: error: expected 3, found 2\n'
                   '1 rt: must-fail low/b.edit: refused, as it must be (only by a limit of the prover, which gave no verdict, so): a\n')
        done = self.run_it('edits')
        self.assertEqual((done.returncode, done.stdout), (0, "low/b: a bound of the prover's own\n2 edits: 0 for a missing name, 1 for a weak reason\n"))
        self.write('target/ci.log', "1 rt: must-fail low/a.edit: BAD EDIT: an 'old:' text is in src/lib.rt 0 times, and not once\n")
        self.assertEqual(self.run_it('edits').returncode, 1)

    def test_cost(self):
        self.write('docs/check-times.txt', 'low 3\nmiddle 4\ntop 5\naside 6\n')
        (self.path / 'crates/top/edits/more.edit').unlink()
        self.assertEqual(self.run_it('edits', '--cost').stdout.splitlines(), ['must-fail: 4 edits, 18 s', 'edits: 3 edits, 13 s', 'proofs: 4 crates, 18 s'])


class Times(Checkout):
    """Of three crates whose out/ is made now; the log's lines say when each is proved."""

    def setUp(self):
        super().setUp()
        for name in ('low', 'middle', 'top'):
            (self.path / 'crates' / name / 'out').mkdir()
        made = [subprocess.run(['stat', '-c', '%W', self.path / 'crates' / name / 'out'], capture_output=True, text=True).stdout for name in ('low', 'middle', 'top')]
        self.at = [int(second) for second in made]
        if 0 in self.at:
            self.skipTest('the file system does not say when a folder was made')
        ends = [at + took for at, took in zip(self.at, (5, 5, 30))]
        self.log = '%d == low\n%d rt: low proved\n%d rt: middle proved\n%d rt: top proved\n%d rt: must-fail low/kept.edit: refused, as it must be\n' % (self.at[0], *ends, ends[2])

    def test_seconds(self):
        self.write('target/ci.log', self.log)
        self.write('docs/check-times.txt', '')
        self.assertEqual(self.run_it('times', '--write').returncode, 0)
        lines = (self.path / 'docs/check-times.txt').read_text().splitlines()
        self.assertEqual(lines[1:], ['low 5', 'middle 5', 'top 30'])

    def test_what_is_kept_has_no_time(self):
        self.write('target/ci.log', self.log + '%d rt: aside is kept: an earlier run on this machine proved the same files over the same libraries\n' % self.at[0])
        self.write('docs/check-times.txt', '')
        self.assertIn('3 crates 40 s, 1 crates kept', self.run_it('times', '--write').stdout)
        self.assertEqual((self.path / 'docs/check-times.txt').read_text(), '')

    def test_a_crate_that_doubled(self):
        self.write('target/ci.log', self.log)
        self.write('docs/check-times.txt', 'low 10\nmiddle 10\ntop 10\n')
        said = self.run_it('times').stdout
        self.assertIn('top: 30 s', said)
        self.assertNotIn('low:', said)

    def test_a_slow_machine_is_no_crate(self):
        self.write('target/ci.log', self.log)
        self.write('docs/check-times.txt', 'low 1\nmiddle 1\ntop 6\n')
        self.assertIn('no crate takes twice its part', self.run_it('times').stdout)


if __name__ == '__main__':
    unittest.main()
