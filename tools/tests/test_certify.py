"""./certify as an operator meets it: what is lost is never silent, and the first use. The program is the proved one, crates/cutprint/out/cutprint;
the first uses are of a small checkout with a stand-in for `rt`, so that nothing is proved here. CERTIFY may name another script."""
import os
import pathlib
import shutil
import subprocess
import tempfile
import threading
import time
import unittest

ROOT = pathlib.Path(__file__).resolve().parents[2]
CERTIFY = pathlib.Path(os.environ.get('CERTIFY') or ROOT / 'certify')
PAPER = ROOT / 'examples' / 'paper.cut'
PRINTED = (ROOT / 'examples' / 'paper.txt').read_bytes()
REFUSED = b'refused 10 0\n'
EMULATED = os.uname().machine != 'x86_64'  # by the kit's emulator, which the stand-in for `rt` does not lead to
if EMULATED and shutil.which('rt'):
    os.environ.setdefault('RATTLE_HOME', str(pathlib.Path(shutil.which('rt')).resolve().parents[1]))

# It proves three crates by waiting, counts its runs, and fails where crates/low/src/lib.rt says so. It works in a crate's folder.
RT = r'''#!/bin/sh
[ "$1" != version ] || { echo "a stand-in"; exit 0; }
echo run >>"$COUNT"
own=$(basename "$PWD")
for name in low middle "$own"; do
  echo "rt: chose --jobs 2 for $name"
  sleep "${SLOW:-0}"
  echo "logic=proved functions=1"
done
mkdir -p out || exit 2
case $1 in
run) rm -f "out/$own" && cp "$PROGRAM" "out/$own" ;;
lib) echo archive >"out/lib$own.a" ;;
esac
if grep -q broken ../low/src/lib.rt; then echo "rt: the library low did not build, so nothing above it was checked"; exit 1; fi
'''


def run(*words, script=CERTIFY, limited=False, **more):
    """limited: no file may grow beyond some megabytes, so that a version that copies a device without end does no harm."""
    before = ['bash', '-c', 'ulimit -f 9999; exec "$@"', 'limited'] if limited else []
    return subprocess.run([*before, str(script), *map(str, words)], stdin=more.pop('stdin', subprocess.DEVNULL), stdout=more.pop('stdout', subprocess.PIPE),
                          stderr=subprocess.PIPE, timeout=60, **more)


class Case(unittest.TestCase):
    def setUp(self):
        folder = tempfile.TemporaryDirectory()
        self.addCleanup(folder.cleanup)
        self.path = pathlib.Path(folder.name)
        self.path.chmod(0o755)

    def one_sentence(self, done):
        said = done.stderr.decode()
        self.assertTrue(said.startswith('certify: '), said)
        for word in ('cp:', 'head:', 'mktemp:', 'printf', 'line '):
            self.assertNotIn(word, said)


class Written(Case):
    def test_a_certificate_and_a_refusal(self):
        done = run(PAPER)
        self.assertEqual((done.returncode, done.stdout, done.stderr), (0, PRINTED, b''))
        done = run(ROOT / 'examples' / 'refused.cut')
        self.assertEqual((done.returncode, done.stdout), (1, b'refused 3 2\n'))

    def test_a_full_device(self):
        for file in (PAPER, ROOT / 'examples' / 'refused.cut'):
            with open('/dev/full', 'wb') as full:
                done = run(file, stdout=full)
            self.assertEqual(done.returncode, 3)
            self.one_sentence(done)

    def test_closed_standard_output(self):
        done = subprocess.run(['bash', '-c', '"$0" "$1" >&-', str(CERTIFY), str(PAPER)], stderr=subprocess.PIPE, timeout=60)
        self.assertEqual(done.returncode, 3)
        self.one_sentence(done)

    def test_a_reader_that_has_gone(self):
        reading, writing = os.pipe()
        os.close(reading)
        try:
            done = run(PAPER, stdout=writing)
        finally:
            os.close(writing)
        self.assertEqual(done.returncode, 3)
        self.one_sentence(done)


class Read(Case):
    def test_a_folder(self):
        done = run(self.path)
        self.assertEqual((done.returncode, done.stdout), (3, b''))
        self.one_sentence(done)

    def test_devices_are_read_to_the_room(self):
        for device in ('/dev/zero', '/dev/urandom', '/dev/null'):
            done = run(device, limited=True)
            self.assertEqual((done.returncode, done.stdout, done.stderr), (1, REFUSED, b''), device)

    def test_a_huge_file(self):
        huge = self.path / 'huge.cut'
        with open(huge, 'wb') as f:
            f.write(PAPER.read_bytes())
            f.truncate(1 << 40)
        done = run(huge, limited=True)
        self.assertEqual((done.returncode, done.stdout), (1, REFUSED))

    def test_a_missing_and_an_empty_file(self):
        done = run(self.path / 'none.cut')
        self.assertEqual((done.returncode, done.stdout), (1, REFUSED))
        self.one_sentence(done)
        (self.path / 'empty').write_bytes(b'')
        done = run(self.path / 'empty')
        self.assertEqual((done.returncode, done.stdout, done.stderr), (1, REFUSED, b''))

    @unittest.skipUnless(os.getuid() == 0, 'only root can be another user')
    def test_an_unreadable_file(self):
        small = checkout(self.path, built=True)
        file = self.path / 'secret.cut'
        shutil.copy(PAPER, file)
        file.chmod(0)
        done = run(file, script=small / 'certify', user=65534, group=65534, extra_groups=[])
        self.assertEqual((done.returncode, done.stdout), (3, b''), done.stderr)
        self.one_sentence(done)
        done = subprocess.run(['bash', '-c', '"$0" "$1" 2>&-', str(small / 'certify'), str(file)], stdout=subprocess.PIPE, user=65534, group=65534, extra_groups=[], timeout=60)
        self.assertEqual((done.returncode, done.stdout), (3, b''))

    def test_standard_input(self):
        with open(PAPER, 'rb') as f:
            done = run('-', stdin=f)
        self.assertEqual((done.returncode, done.stdout), (0, PRINTED))

    def test_several_files(self):
        done = run(PAPER, ROOT / 'examples' / 'refused.cut', self.path)
        self.assertEqual(done.returncode, 3)
        self.assertEqual(done.stdout, b'file %s\n%sfile %s\nrefused 3 2\n' % (bytes(PAPER), PRINTED, bytes(ROOT / 'examples' / 'refused.cut')))

    def test_names(self):
        for name in ('-q', 'a b', '--help', 'a\nb'):
            shutil.copy(PAPER, self.path / name)
            done = run('--', name, cwd=self.path)
            self.assertEqual((done.returncode, done.stdout), (0, PRINTED), name)


class Use(Case):
    def test_help_and_version(self):
        done = run('--help')
        self.assertEqual(done.returncode, 0)
        for code in (b'\n  0  ', b'\n  1  ', b'\n  2  ', b'\n  3  '):
            self.assertIn(code, done.stdout)
        done = run('--version')
        self.assertEqual((done.returncode, done.stdout[:20]), (0, b'certify of Zegrafult'))

    def test_wrong_use(self):
        for words in ([], ['--nothing', PAPER], ['-x']):
            done = run(*words)
            self.assertEqual((done.returncode, done.stdout), (2, b''))

    def test_from_elsewhere(self):
        link = self.path / 'link'
        link.symlink_to(CERTIFY)
        (self.path / 'second').symlink_to('link')
        shutil.copy(PAPER, self.path / 'a.cut')
        (self.path / CERTIFY.parent.name).mkdir()
        for script in (link, self.path / 'second', CERTIFY):
            done = run('a.cut', script=script, cwd=self.path, env=dict(os.environ, CDPATH=f'{self.path}:/tmp:{CERTIFY.parents[1]}'))
            self.assertEqual((done.returncode, done.stdout), (0, PRINTED), done.stderr)
        done = subprocess.run(['bash', CERTIFY.name, str(self.path / 'a.cut')], cwd=CERTIFY.parent, env=dict(os.environ, CDPATH='/tmp:.'), capture_output=True, timeout=60)
        self.assertEqual((done.returncode, done.stdout), (0, PRINTED))

    def test_time(self):
        files = 100
        run(PAPER)
        began = os.times()
        done = run(*[PAPER] * files)
        ended = os.times()
        took = (ended.children_user + ended.children_system - began.children_user - began.children_system) / files
        print('certify: %.1f ms of processor time a file' % (1000 * took))
        self.assertEqual((done.returncode, done.stdout.count(PRINTED)), (0, files))
        self.assertLess(took, 0.2 if EMULATED else 0.02)


def checkout(folder, built=False, program=None):
    """A checkout of three crates with the stand-in for rt beside it."""
    small = folder / 'small'
    (small / 'tools').mkdir(parents=True)
    shutil.copy(CERTIFY, small / 'certify')
    if (CERTIFY.parent / 'tools' / 'proving.sh').exists():
        shutil.copy(CERTIFY.parent / 'tools' / 'proving.sh', small / 'tools')
    (small / 'crates.txt').write_text('low:\nmiddle: low\ncutprint: middle io\nother:\n')
    for name in ('low', 'middle', 'cutprint', 'other'):
        (small / 'crates' / name / 'src').mkdir(parents=True)
        (small / 'crates' / name / 'src' / 'lib.rt').write_text('// nothing\n')
    (folder / 'bin').mkdir()
    (folder / 'bin' / 'rt').write_text(RT)
    (folder / 'bin' / 'rt').chmod(0o755)
    shutil.copy(ROOT / 'crates' / 'cutprint' / 'out' / 'cutprint', folder / 'program')
    if built:
        done = run(PAPER, script=small / 'certify', env=surroundings(folder))
        assert done.returncode == 0, done.stderr
    return small


def surroundings(folder, **more):
    return {**os.environ, 'PATH': f'{folder / "bin"}:{os.environ["PATH"]}', 'COUNT': str(folder / 'count'), 'PROGRAM': str(folder / 'program'),
            'XDG_CACHE_HOME': str(folder / 'cache'), **more}


class FirstUse(Case):
    def setUp(self):
        super().setUp()
        self.small = checkout(self.path)

    def use(self, *words, script=None, env=None, **more):
        return run(*(words or (PAPER,)), script=script or self.small / 'certify', env=surroundings(self.path, **(env or {})), **more)

    def count(self):
        return len((self.path / 'count').read_text().splitlines()) if (self.path / 'count').exists() else 0

    def good(self, done, count):
        self.assertEqual((done.returncode, done.stdout, self.count()), (0, PRINTED, count), done.stderr)

    def edit(self, text, name='low'):
        (self.small / 'crates' / name / 'src' / 'lib.rt').write_text(text)

    def test_once_and_after_an_edit(self):
        self.good(self.use(), 1)
        self.good(self.use(), 1)
        self.edit('// an edit\n')
        self.good(self.use(), 2)
        self.edit('// an edit\n', name='other')
        self.good(self.use(), 2)

    def test_an_edit_with_an_old_time_counts(self):
        self.good(self.use(), 1)
        time.sleep(1.1)
        file = self.small / 'crates' / 'low' / 'src' / 'lib.rt'
        self.edit('// older\n')
        os.utime(file, (1, 1))
        self.good(self.use(), 2)

    def test_a_copy_of_the_checkout_stands(self):
        self.good(self.use(), 1)
        shutil.copytree(self.small, self.path / 'copy')
        for file in (self.path / 'copy' / 'crates').rglob('*.rt'):
            os.utime(file)
        self.good(self.use(script=self.path / 'copy' / 'certify'), 1)

    def test_a_failed_check_leaves_no_program(self):
        self.good(self.use(), 1)
        self.edit('// broken\n')
        for count in (2, 3):
            done = self.use()
            self.assertEqual((done.returncode, done.stdout, self.count()), (3, b'', count))
            self.assertIn(b'did not build', done.stderr)

    def test_two_at_once(self):
        done = []
        threads = [threading.Thread(target=lambda: done.append(self.use(env={'SLOW': '0.5'}))) for _ in range(3)]
        for thread in threads:
            thread.start()
        for thread in threads:
            thread.join()
        self.assertEqual([d.returncode for d in done], [0, 0, 0], [d.stderr for d in done])
        self.assertEqual([d.stdout for d in done], [PRINTED] * 3)
        self.assertEqual(self.count(), 1)

    def test_progress(self):
        said = self.use(env={'SLOW': '1.2'}).stderr.decode()
        self.assertIn('of 3 crates proved; proving middle', said)
        self.assertIn('3 of 3 crates proved', said)

    def test_without_the_kit(self):
        done = run(PAPER, script=self.small / 'certify', env=dict(surroundings(self.path), PATH='/usr/bin:/bin'))
        self.assertEqual((done.returncode, done.stdout), (3, b''))
        self.assertIn(b'rt is not on the PATH', done.stderr)

    @unittest.skipUnless(os.getuid() == 0, 'only root can be another user')
    def test_a_checkout_that_cannot_be_written(self):
        nobody = dict(user=65534, group=65534, extra_groups=[])
        for name in ('cache', 'counts'):
            (self.path / name).mkdir()
            (self.path / name).chmod(0o777)
        count = {'COUNT': str(self.path / 'counts' / 'count')}
        shutil.copy(PAPER, self.path / 'paper.cut')
        for _ in range(2):
            done = self.use(self.path / 'paper.cut', env=count, **nobody)
            self.assertEqual((done.returncode, done.stdout), (0, PRINTED), done.stderr)
        self.assertEqual(len((self.path / 'counts' / 'count').read_text().splitlines()), 1)
        # root's own build, then an edit: what root built is stale, and nobody proves in a place of its own
        self.good(self.use(env={'XDG_CACHE_HOME': str(self.path / 'other')}), 1)
        self.edit('// an edit\n')
        done = self.use(self.path / 'paper.cut', env=count, **nobody)
        self.assertEqual((done.returncode, done.stdout), (0, PRINTED), done.stderr)

    def test_a_printout_that_is_cut_short(self):
        for text in ('cut 4 2 4 4\nside 0 1\n', 'cut 4 2 4 4\nside 0 1\nvalue 0 3FE0000000000000\nend 2\n', '', 'refused 1', 'end 0\n',
                     'cut 2 1 2 2\nside 0\nvalue 0 3FF0000000000000\nend 1'):
            (self.path / 'program').write_text("#!/bin/sh\nprintf '%s'\n" % text.replace('\n', '\\n'))
            (self.path / 'program').chmod(0o755)
            self.edit('// %r\n' % text)
            done = self.use()
            self.assertEqual((done.returncode, done.stdout), (3, b''), text)
        (self.path / 'program').write_text("#!/bin/sh\nkill -9 $$\n")
        self.edit('// killed\n')
        self.assertEqual(self.use().returncode, 3)
        # words after the count are the program's own
        (self.path / 'program').write_text("#!/bin/sh\nprintf 'cut 2 1 2 2\\nside 0\\nvalue 0 3FF0000000000000\\nentropy 0 0 68719476736\\nend 1 2 yes\\n'\n")
        self.edit('// more words\n')
        self.assertEqual(self.use().returncode, 0)


class Documents(unittest.TestCase):
    def test_readme(self):
        readme = (ROOT / 'README.md').read_text()
        for status in range(4):
            self.assertIn(f'\n| {status} | ', readme)
        if shutil.which('rt'):
            kit = subprocess.run(['rt', 'version'], capture_output=True, text=True).stdout.split()[0]
            self.assertIn(f'`{kit}`', readme)

    def test_conventions_are_linked(self):
        self.assertTrue((ROOT / 'docs' / 'CONVENTIONS.md').exists())
        for place in ('README.md', 'include/zegrafult.h', 'bindings/rust/src/lib.rs', 'tools/pack'):
            self.assertIn('docs/CONVENTIONS.md', (ROOT / place).read_text(), place)

    def test_the_table_of_the_cut_file(self):
        """Each field of the table, read from an example by the table's own numbers."""
        table = (ROOT / 'docs' / 'CONVENTIONS.md').read_text()
        file = (ROOT / 'examples' / 'product.cut').read_bytes()
        for row, value in (('| 0 to 3 | bytes | mark |', b'CUT1'), ('| 4 to 7 | u32 | n', 5), ('| 8 to 11 | u32 | k', 2), ('| 12 to 15 | u32 | list offset | 24 |', 24),
                           ('| 16 to 19 | u32 | amplitude offset', 32), ('| 20 to 23 | u32 | file length', 32 + 16 * 32)):
            self.assertIn(row, table)
            first, last = (int(word) for word in row.split('|')[1].split(' to '))
            data = file[first:last + 1]
            self.assertEqual(data if isinstance(value, bytes) else int.from_bytes(data, 'little'), value, row)
        self.assertEqual(len(file), 32 + 16 * 32)


class Library(Case):
    def setUp(self):
        super().setUp()
        self.small = checkout(self.path)
        shutil.copy(CERTIFY.parent / 'tools' / 'library', self.small / 'tools')
        (self.small / 'crates.txt').write_text('low:\nmiddle: low\nexports staticlib: middle\ncutprint: middle io\n')
        (self.small / 'crates' / 'exports').mkdir()

    def use(self, **more):
        return run(script=self.small / 'tools' / 'library', env=surroundings(self.path, **more))

    def count(self):
        return len((self.path / 'count').read_text().splitlines())

    def test_progress_and_once(self):
        done = self.use(SLOW='1.2')
        self.assertEqual(done.returncode, 0, done.stderr)
        self.assertIn('of 3 crates proved; proving middle', done.stderr.decode())
        count = self.count()
        self.assertEqual((self.use().returncode, self.count()), (0, count))
        (self.small / 'crates' / 'low' / 'src' / 'lib.rt').write_text('// an edit\n')
        self.assertEqual(self.use().returncode, 0)
        self.assertGreater(self.count(), count)

    def test_a_failed_check_is_no_build(self):
        self.assertEqual(self.use().returncode, 0)
        (self.small / 'crates' / 'low' / 'src' / 'lib.rt').write_text('// broken\n')
        for _ in range(2):
            done = self.use()
            self.assertEqual(done.returncode, 1)
            self.assertIn(b'did not build', done.stderr)

    def test_with_certify_at_once(self):
        done = []
        threads = [threading.Thread(target=lambda: done.append(self.use(SLOW='0.3'))),
                   threading.Thread(target=lambda: done.append(run(PAPER, script=self.small / 'certify', env=surroundings(self.path, SLOW='0.3'))))]
        for thread in threads:
            thread.start()
        for thread in threads:
            thread.join()
        self.assertEqual([d.returncode for d in done], [0, 0], [d.stderr for d in done])
        self.assertIn(b'waiting for it', done[0].stderr + done[1].stderr)


if __name__ == '__main__':
    unittest.main()
