"""tools/install and tools/release: what is installed works outside of the repository and without the kit, from C by pkg-config, from Rust
by path and from Python, and is moved and unpacked anywhere. It needs the proved library and cutprint, which an earlier step left."""
import hashlib
import os
import pathlib
import re
import shutil
import subprocess
import tempfile
import unittest

ROOT = pathlib.Path(__file__).resolve().parents[2]
PROGRAM = r'''
#include <zegrafult.h>
#include <zegrafult_environment.h>
#include <zegrafult_sizes.h>
#include <zegrafult_version.h>
#include <stdio.h>

int main(void) {
    const double a[] = {3, 0, 0, 0, 0, 0, 4, 0};
    double u[8], s[2], vt[8], scratch[28];
    size_t place, sweeps, turned;
    bool quiet;
    uint32_t answer = zg_svd_jacobi(a, zg_matrix_len(2, 2), 2, 2, u, zg_svd_jacobi_u_len(2, 2), s, zg_svd_jacobi_s_len(2, 2), vt,
                                    zg_svd_jacobi_vt_len(2, 2), scratch, zg_svd_jacobi_scratch_len(2, 2), &place, &sweeps, &quiet, &turned);
    printf("%s %u %g %g %d %s\n", zg_answer_text(answer), (unsigned)answer, s[0], s[1], (int)zg_environment(), zg_version() == ZEGRAFULT_VERSION_NUMBER ? zg_version_text() : "another");
    return 0;
}
'''
RUST = '''
fn main() {
    let svd = zegrafult::svd_jacobi(&[3.0, 0.0, 0.0, 4.0].map(zegrafult::Complex::real), 2, 2).unwrap();
    println!("{:?} {}", svd.s, zegrafult::environment());
}
'''
NUM_COMPLEX = '''
use num_complex::Complex64;
use zegrafult::num_complex::cells;

fn main() {
    let state = [1.0, 0.0, 0.0, 1.0].map(Complex64::from);
    let found = zegrafult::dense_schmidt_values(cells(&state), 2, &[0], zegrafult::CAP).unwrap();
    println!("{} {}", found.values.len(), zegrafult::dense_schmidt_values(cells(&state[1..]), 2, &[0], 13).unwrap_err());
}
'''
PYTHON = "import zegrafult as zg; print(zg.svd_jacobi([[3, 0], [0, 4]]).s.tolist(), zg.environment(), zg.__version__, zg.LIBRARY)"


def version():
    text = (ROOT / 'include' / 'zegrafult_version.h').read_text()
    return text.split('#define ZEGRAFULT_VERSION "')[1].split('"')[0]


def has(command):
    return shutil.which(command) is not None


def with_numpy():
    for python in ('python3', '/usr/bin/python3'):
        if has(python) and subprocess.run([python, '-c', 'import numpy'], capture_output=True).returncode == 0:
            return python
    return None


def without_kit():
    """The environment without the kit and without what the repository's own tests set."""
    path = os.pathsep.join(p for p in os.environ['PATH'].split(os.pathsep) if not os.path.exists(os.path.join(p, 'rt')))
    return {**{k: v for k, v in os.environ.items() if not k.startswith(('ZEGRAFULT', 'PYTHON', 'LD_', 'PKG_CONFIG'))}, 'PATH': path}


class Installed(unittest.TestCase):
    @classmethod
    def setUpClass(cls):
        cls.room = tempfile.TemporaryDirectory()
        cls.addClassCleanup(cls.room.cleanup)
        first, cls.prefix = pathlib.Path(cls.room.name) / 'first', pathlib.Path(cls.room.name) / 'a prefix'
        done = subprocess.run([ROOT / 'tools' / 'install', first], capture_output=True, text=True)
        assert done.returncode == 0, done.stdout + done.stderr
        first.rename(cls.prefix)  # what is installed may be moved
        cls.plain = pathlib.Path(cls.room.name) / 'prefix'  # pkg-config and cc are spared a blank
        cls.plain.symlink_to(cls.prefix)

    def setUp(self):
        folder = tempfile.TemporaryDirectory()
        self.addCleanup(folder.cleanup)
        self.path = pathlib.Path(folder.name)
        self.env = without_kit()

    def run_it(self, *words, **more):
        return subprocess.run([str(w) for w in words], cwd=self.path, env={**self.env, **more}, capture_output=True, text=True)

    def said(self, *words, **more):
        done = self.run_it(*words, **more)
        self.assertEqual(done.returncode, 0, done.stdout + done.stderr)
        return done.stdout

    # ---- programs

    def test_certify(self):
        certify = self.prefix / 'bin' / 'certify'
        for name in ('paper', 'ghz', 'refused-3'):
            done = self.run_it(certify, ROOT / 'examples' / (name + '.cut'), HOME='/nonexistent')
            self.assertEqual(done.stdout, (ROOT / 'examples' / (name + '.txt')).read_text())
            self.assertEqual((done.returncode, done.stderr), (1 if name.startswith('refused') else 0, ''))
        self.assertIn('certify of Zegrafult ' + version(), self.said(certify, '--version'))
        self.assertIn('proved with ', self.said(certify, '--version'))

    def test_cutprint(self):
        shutil.copy(ROOT / 'examples' / 'paper.cut', self.path / 'state.bin')
        self.assertEqual(self.said(self.prefix / 'bin' / 'cutprint'), (ROOT / 'examples' / 'paper.txt').read_text())

    def test_lot_and_tools(self):
        """An operator's night without the repository: a state packed, certified, read, all cuts, the chain, a lot."""
        tool = lambda name: self.prefix / 'bin' / ('zg-' + name)
        self.env['HOME'] = '/nonexistent'
        self.env['PYTHONDONTWRITEBYTECODE'] = '1'
        shutil.copy(ROOT / 'examples' / 'ghz.state.txt', self.path / 'ghz.txt')
        self.said(tool('pack'), 'ghz.txt', '-q', '0,1,2', '-o', 'ghz.cut')
        self.assertEqual((self.path / 'ghz.cut').read_bytes(), (ROOT / 'examples' / 'ghz.cut').read_bytes())
        printed = self.said(self.prefix / 'bin' / 'certify', 'ghz.cut')
        self.assertEqual(printed, (ROOT / 'examples' / 'ghz.txt').read_text())
        (self.path / 'printed').write_text(printed)
        self.assertIn('0.7071', self.said(tool('read'), 'printed', '--cut', 'ghz.cut', '--svg', 'page.svg'))
        self.said(tool('lot'), 'pack', 'ghz.cut', ROOT / 'examples' / 'refused-3.cut', '-o', 'night.lot')
        sheet = self.said(self.prefix / 'bin' / 'certify', '--lot', 'night.lot')
        self.assertTrue(sheet.startswith('lot 2\nanswer 0 1\n'), sheet)
        (self.path / 'sheet').write_text(sheet)
        self.said(tool('lot'), 'show', 'sheet')
        if has('cc'):
            for said in (self.said(tool('profile'), 'ghz.cut'), self.said(self.prefix / 'bin' / 'certify', '--profile', 'ghz.cut')):
                self.assertTrue(said.startswith('profile 6\ncut 0 2 1 yes'), said)
            self.assertIn('site', self.said(tool('chain'), 'ghz.cut'))
        self.assertFalse(list(self.prefix.rglob('*.pyc')) + list(self.prefix.rglob('libexports*')))

    def test_both_pages(self):
        done = self.run_it(self.prefix / 'bin' / 'certify', '--pages', ROOT / 'examples' / 'circuit.cut', HOME='/nonexistent')
        self.assertEqual((done.returncode, done.stdout, done.stderr), (0, (ROOT / 'examples' / 'circuit.pages.txt').read_text(), ''))
        shutil.copy(ROOT / 'examples' / 'circuit.cut', self.path / 'state.bin')
        self.assertEqual(self.said(self.prefix / 'bin' / 'pageprint'), (ROOT / 'examples' / 'circuit.pages.txt').read_text())

    def test_another_program_is_not_run(self):
        copy = self.path / 'copy'
        shutil.copytree(self.prefix, copy, symlinks=True)
        program = copy / 'lib' / 'zegrafult' / 'target' / 'certify' / 'cutprint'
        program.write_bytes(program.read_bytes() + b'.')
        done = self.run_it(copy / 'bin' / 'certify', ROOT / 'examples' / 'paper.cut', HOME='/nonexistent')
        self.assertEqual((done.returncode, done.stdout), (3, ''))

    # ---- C

    @unittest.skipUnless(has('cc') and has('pkg-config'), 'no C compiler or no pkg-config')
    def test_c_by_pkg_config(self):
        (self.path / 'program.c').write_text(PROGRAM)
        where = {'PKG_CONFIG_PATH': str(self.plain / 'lib' / 'pkgconfig')}
        flags = self.said('pkg-config', '--cflags', '--libs', 'zegrafult', **where).split()
        self.assertEqual(self.said('pkg-config', '--modversion', 'zegrafult', **where).strip(), version())
        wanted = 'done 0 4 3 1 %s\n' % version()
        self.said('cc', '-std=c99', '-Wall', '-Wextra', '-Werror', 'program.c', *flags, '-o', 'shared')
        self.assertEqual(self.said(self.path / 'shared', LD_LIBRARY_PATH=str(self.prefix / 'lib')), wanted)
        self.assertNotEqual(self.run_it(self.path / 'shared').returncode, 0, 'it was not the shared library')
        cflags = self.said('pkg-config', '--cflags', 'zegrafult', **where).split()
        archive = self.said('pkg-config', '--variable=archive', 'zegrafult', **where).strip()
        self.said('cc', '-std=c99', 'program.c', *cflags, archive, '-o', 'static')
        self.assertEqual(self.said(self.path / 'static'), wanted)
        self.said('cc', '-std=c99', self.prefix / 'share' / 'zegrafult' / 'examples' / 'from_file.c', *cflags, archive, '-o', 'from_file')
        ghz = self.said(self.path / 'from_file', self.prefix / 'share' / 'zegrafult' / 'examples' / 'ghz.cut')
        self.assertEqual(ghz, (ROOT / 'examples' / 'ghz.txt').read_text())
        if has('c++'):
            self.said('c++', '-x', 'c++', 'program.c', '-x', 'none', *cflags, archive, '-o', 'plus')
            self.assertEqual(self.said(self.path / 'plus'), wanted)

    @unittest.skipUnless(has('nm') and has('cc'), 'no nm')
    def test_shared_library(self):
        shared = self.prefix / 'lib' / 'libzegrafult.so'
        symbols = [line.split() for line in self.said('nm', '-D', shared).splitlines()]
        defined = {words[-1] for words in symbols if words[-2] == 'T'}
        needed = {words[-1].split('@')[0] for words in symbols if words[-2] == 'U'}
        self.assertEqual(needed, {'memcpy', 'memset'})
        self.assertTrue(defined and all(name.startswith('zg_') for name in defined))

    # ---- Rust

    @unittest.skipUnless(has('cargo'), 'no Rust compiler')
    def test_rust_by_path(self):
        (self.path / 'src').mkdir()
        (self.path / 'src' / 'main.rs').write_text(RUST)
        crate = self.prefix / 'share' / 'zegrafult' / 'rust'
        (self.path / 'Cargo.toml').write_text('[package]\nname = "host"\nversion = "0.0.0"\nedition = "2021"\n\n[dependencies]\nzegrafult = { path = "%s" }\n' % crate)
        self.assertEqual(self.said('cargo', 'run', '--offline', '--quiet', CARGO_TARGET_DIR=str(self.path / 'target')), '[4.0, 3.0] true\n')
        done = self.run_it('cargo', 'run', '--offline', '--quiet', CARGO_TARGET_DIR=str(self.path / 'target'), ZEGRAFULT_LIB='/nonexistent')
        self.assertNotEqual(done.returncode, 0)
        self.assertIn('tools/install PREFIX', done.stderr)

    @unittest.skipUnless(has('cargo') and list(pathlib.Path('/usr/share/cargo/registry').glob('num-complex-0.4*')), 'no num-complex')
    def test_rust_with_num_complex(self):
        for folder in ('src', '.cargo'):
            (self.path / folder).mkdir()
        (self.path / '.cargo' / 'config.toml').write_text('[source.crates-io]\nreplace-with = "debian"\n[source.debian]\ndirectory = "/usr/share/cargo/registry"\n')
        (self.path / 'src' / 'main.rs').write_text(NUM_COMPLEX)
        crate = self.prefix / 'share' / 'zegrafult' / 'rust'
        (self.path / 'Cargo.toml').write_text('[package]\nname = "host"\nversion = "0.0.0"\nedition = "2021"\n\n[dependencies]\nnum-complex = "0.4"\n'
                                              'zegrafult = { path = "%s", features = ["num-complex"] }\n' % crate)
        self.assertEqual(self.said('cargo', 'run', '--offline', '--quiet', CARGO_TARGET_DIR=str(self.path / 'target')), '2 refused 6 0: Argument slice 0 has a wrong length.\n')

    # ---- Python

    @unittest.skipUnless(with_numpy() and has('cc'), 'no numpy')
    def test_python(self):
        where = {'PYTHONPATH': str(self.prefix / 'lib' / 'python'), 'PYTHONDONTWRITEBYTECODE': '1'}
        said = self.said(with_numpy(), '-c', PYTHON, **where)
        self.assertEqual(said, '[4.0, 3.0] True %s %s\n' % (version(), (self.prefix / 'lib' / 'libzegrafult.so').resolve().parent / 'libzegrafult.so'))

    @unittest.skipUnless(with_numpy() and has('cc'), 'no numpy')
    def test_example_and_certificate(self):
        """The certificate that the example prints is certify's, to the last bit; the chain gives the state back."""
        where = {'PYTHONPATH': str(self.prefix / 'lib' / 'python'), 'PYTHONDONTWRITEBYTECODE': '1'}
        example = self.prefix / 'share' / 'zegrafult' / 'examples' / 'circuit.py'
        for qubits, layers in ((7, 5), (6, 2), (9, 3)):
            said = self.said(with_numpy(), example, '--qubits', qubits, '--layers', layers, '--cut', 'state.cut', '--plot', 'page.png', **where)
            ours = [line[4:] for line in said.splitlines() if line.startswith('    ')]
            self.assertEqual(ours, self.said(self.prefix / 'bin' / 'certify', 'state.cut').splitlines())
            last = [line for line in said.splitlines() if line.startswith('chain with')][-1]
            self.assertRegex(last, r'overlap 1\.000000000000, 0 cuts dropped')
            drawn = (self.path / 'page.png').is_file()
            self.assertIn('page.png is drawn' if drawn else 'there is no matplotlib to draw page.png with', said)

    @unittest.skipUnless(with_numpy() and has('cc'), 'no numpy')
    def test_wheel(self):
        """It is installed by pip, with no index, in an environment of its own, and works there."""
        python = with_numpy()
        names = []
        for folder in ('one', 'two'):
            done = subprocess.run([ROOT / 'tools' / 'wheel', self.path / folder], capture_output=True, text=True)
            self.assertEqual(done.returncode, 0, done.stderr)
            names.append(pathlib.Path(done.stdout.strip()))
        self.assertEqual(names[0].read_bytes(), names[1].read_bytes(), 'made twice, the wheel has other bytes')
        if subprocess.run([python, '-c', 'import ensurepip'], capture_output=True).returncode != 0:
            self.skipTest('%s has no ensurepip (Debian: python3-venv)' % python)
        self.said(python, '-m', 'venv', '--system-site-packages', 'apart')
        own = self.path / 'apart' / 'bin' / 'python'
        self.said(own, '-m', 'pip', 'install', '--no-index', '--disable-pip-version-check', names[0])
        said = self.said(own, '-c', PYTHON).split()
        self.assertEqual(said[:4], ['[4.0,', '3.0]', 'True', version()])
        self.assertTrue(said[4].startswith(str(self.path / 'apart')), said[4])
        self.assertIn('zegrafult', self.said(own, '-m', 'pip', 'list', '--disable-pip-version-check'))
        # what the machine's own packages lack is not the wheel's
        self.assertNotIn('zegrafult', self.run_it(own, '-m', 'pip', 'check', '--disable-pip-version-check').stdout)
        if has('readelf'):
            shared = said[4]
            versions = [tuple(map(int, v.split('.'))) for v in re.findall(r'GLIBC_([0-9.]+)', self.said('readelf', '-V', shared))]
            self.assertLessEqual(max(versions), (2, 17), "the wheel's name promises less than its library needs")

    # ---- papers and pages

    @unittest.skipUnless(has('groff') and has('tbl'), 'no groff')
    def test_pages(self):
        for page in ('man1/certify.1', 'man1/cutprint.1', 'man1/pageprint.1', 'man3/zegrafult.3'):
            done = self.run_it('groff', '-t', '-man', '-ww', '-Tascii', self.prefix / 'share' / 'man' / page)
            self.assertEqual((done.returncode, done.stderr), (0, ''))
            self.assertIn('Zegrafult ' + version(), done.stdout)

    def test_proof(self):
        proof = (self.prefix / 'share' / 'doc' / 'zegrafult' / 'PROOF').read_text()
        self.assertIn('kit        rattle-kit', proof)
        self.assertIn('logic=proved', proof)
        archive = hashlib.sha256((self.prefix / 'lib' / 'libzegrafult.a').read_bytes()).hexdigest()
        self.assertIn('archive ' + archive, proof)

    def test_wrong_use(self):
        for words in ([], ['--prefix=x'], ['a', 'b']):
            self.assertEqual(self.run_it(ROOT / 'tools' / 'install', *words).returncode, 2)
        self.assertEqual(list(self.path.iterdir()), [])

    # ---- the release

    def test_release(self):
        name = 'zegrafult-%s-%s-linux' % (version(), os.uname().machine)
        made = []
        for folder in ('one', 'two'):
            done = subprocess.run([ROOT / 'tools' / 'release', self.path / folder], capture_output=True, text=True)
            self.assertEqual(done.returncode, 0, done.stderr)
            made.append((self.path / folder / (name + '.tar.gz')).read_bytes())
            sums = dict(reversed(line.split()) for line in done.stdout.splitlines())
            self.assertEqual(sums[name + '.tar.gz'], hashlib.sha256(made[-1]).hexdigest())
            for file, found in sums.items():
                self.assertEqual(hashlib.sha256((self.path / folder / file).read_bytes()).hexdigest(), found)
            self.assertEqual(any(file.endswith('.whl') for file in sums), has('cc'))
        self.assertEqual(made[0], made[1], 'made twice, the archive has other bytes')
        self.said('tar', 'xf', self.path / 'one' / (name + '.tar.gz'))
        unpacked = self.path / name
        done = subprocess.run(['sha256sum', '--check', '--quiet', 'SHA256SUMS'], cwd=unpacked, capture_output=True, text=True)
        self.assertEqual((done.returncode, done.stdout), (0, ''))
        done = self.run_it(unpacked / 'bin' / 'certify', ROOT / 'examples' / 'paper.cut', HOME='/nonexistent')
        self.assertEqual((done.returncode, done.stdout), (0, (ROOT / 'examples' / 'paper.txt').read_text()))
        listed = {line.split('  ', 1)[1] for line in (unpacked / 'SHA256SUMS').read_text().splitlines()}
        there = {str(p.relative_to(unpacked)) for p in unpacked.rglob('*') if p.is_file() and not p.is_symlink()}
        self.assertEqual(there - {'SHA256SUMS'}, listed)
        # who did not make it compares it with what the sources give
        archive = self.path / 'one' / (name + '.tar.gz')
        done = subprocess.run([ROOT / 'tools' / 'release', '--check', archive], capture_output=True, text=True)
        self.assertEqual((done.returncode, done.stdout), (0, 'release: the %d files of %s are what these sources give\n' % (len(listed), archive.name)))
        program = unpacked / 'lib' / 'zegrafult' / 'target' / 'certify' / 'cutprint'
        program.write_bytes(program.read_bytes() + b'.')
        (unpacked / 'SHA256SUMS').write_text((unpacked / 'SHA256SUMS').read_text().replace('a', 'b', 1))
        self.said('tar', 'czf', 'other.tar.gz', name)
        done = subprocess.run([ROOT / 'tools' / 'release', '--check', self.path / 'other.tar.gz'], capture_output=True, text=True)
        self.assertEqual(done.returncode, 1)
        self.assertIn('\nlib/zegrafult/target/certify/cutprint\n', done.stdout)
        self.assertEqual(len(done.stdout.splitlines()), 3, done.stdout)
        for words in (['--check'], ['--check', 'a', 'b'], ['--other'], ['a', 'b']):
            self.assertEqual(self.run_it(ROOT / 'tools' / 'release', *words).returncode, 2)


if __name__ == '__main__':
    unittest.main()
