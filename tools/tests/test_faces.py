"""tools/faces: a call that a face lacks, has beside exports or has otherwise is found, each time in a copy with one edit."""
import importlib.machinery
import importlib.util
import pathlib
import shutil
import subprocess
import sys
import tempfile
import unittest

ROOT = pathlib.Path(__file__).resolve().parent.parent.parent
TOOL = ROOT / 'tools' / 'faces'
sys.dont_write_bytecode = True
loader = importlib.machinery.SourceFileLoader('faces', str(TOOL))
faces = importlib.util.module_from_spec(importlib.util.spec_from_loader('faces', loader))
loader.exec_module(faces)


class Faces(unittest.TestCase):
    def setUp(self):
        self.room = tempfile.TemporaryDirectory()
        self.addCleanup(self.room.cleanup)
        self.root = pathlib.Path(self.room.name)
        for path in [faces.EXPORTS, faces.ANSWERS, faces.HEADER, faces.SIZES, faces.SIZES_TRIED, faces.VERSION, faces.CARGO, faces.PORT]:
            (self.root / path).parent.mkdir(parents=True, exist_ok=True)
            shutil.copy(ROOT / path, self.root / path)
        for folder in ['bindings/rust/src', faces.PYTHON]:
            shutil.copytree(ROOT / folder, self.root / folder, ignore=shutil.ignore_patterns('__pycache__', '*.so'))

    def edit(self, path, old, new):
        text = (self.root / path).read_text()
        self.assertIn(old, text, path)
        (self.root / path).write_text(text.replace(old, new, 1))

    def found(self):
        return faces.check(self.root)[0]

    def says(self, *wanted):
        """The check says these sentences and no other."""
        self.assertEqual(sorted(self.found()), sorted(wanted))

    def test_as_it_stands(self):
        self.says()
        run = subprocess.run([sys.executable, str(TOOL)], capture_output=True, text=True)
        self.assertEqual(run.returncode, 0, run.stdout)

    def test_every_call_is_read(self):
        calls = faces.exported((ROOT / faces.EXPORTS).read_text())
        self.assertEqual(len(calls), (ROOT / faces.EXPORTS).read_text().count('pub extern "C" fn zg_'))
        self.assertGreaterEqual(len(calls), 40)
        self.assertEqual(calls['zg_traced_base'], ('u32', [
            ('e', 'usize'), ('list', '*const usize'), ('list_len', 'usize'), ('n', 'usize'), ('cap', 'usize'),
            ('place', '*mut usize'), ('base', '*mut usize')]))
        self.assertEqual(calls['zg_slab_drop'][1][:2], [('cells', '*mut f64[8192]'), ('index', '*mut u32[193]')])

    # ---- the header

    def test_header_drops_an_argument(self):
        self.edit(faces.HEADER, 'size_t n, size_t cap, size_t *out, size_t out_len,', 'size_t n, size_t *out, size_t out_len,')
        self.says('include/zegrafult.h: zg_row_offsets has as argument 4 out: *mut usize, in exports cap: usize')

    def test_header_drops_the_last_argument(self):
        self.edit(faces.HEADER, 'size_t *place, bool *yes, size_t *test, size_t *cell);', 'size_t *place, bool *yes, size_t *test);')
        self.says('include/zegrafult.h: zg_countersign has as argument 15 none, in exports cell: *mut usize')

    def test_header_lacks_a_call(self):
        self.edit(faces.HEADER, 'bool zg_total_less(double x, double y);', '')
        self.says('include/zegrafult.h: lacks zg_total_less')

    def test_header_has_a_call_in_a_comment_only(self):
        self.edit(faces.HEADER, 'bool zg_total_less(double x, double y);', '/* bool zg_total_less(double x, double y); */')
        self.says('include/zegrafult.h: lacks zg_total_less')

    def test_header_has_another_type(self):
        self.edit(faces.HEADER, 'size_t *place, uint64_t *rank', 'size_t *place, size_t *rank')
        self.says('include/zegrafult.h: zg_cut_rank has as argument 5 rank: *mut usize, in exports rank: *mut u64')

    def test_header_has_another_result(self):
        self.edit(faces.HEADER, 'uint32_t zg_total_order', 'int zg_total_order')
        self.says('include/zegrafult.h: zg_total_order gives int, in exports u32')

    def test_header_forgets_const(self):
        self.edit(faces.HEADER, 'zg_validate_qubit_set(const size_t *list', 'zg_validate_qubit_set(size_t *list')
        self.says('include/zegrafult.h: zg_validate_qubit_set has as argument 1 list: *mut usize, in exports list: *const usize')

    def test_header_has_another_count(self):
        self.edit(faces.HEADER, 'zg_slab_drop(double cells[8192]', 'zg_slab_drop(double cells[4096]')
        self.says('include/zegrafult.h: zg_slab_drop has as argument 1 cells: *mut f64[4096], in exports cells: *mut f64[8192]')

    def test_header_has_a_plan_that_is_only_read(self):
        self.edit(faces.HEADER, 'zg_plan_add(zg_plan *plan', 'zg_plan_add(const zg_plan *plan')
        self.says('include/zegrafult.h: zg_plan_add has as argument 1 plan: *const usize[30], in exports plan: *mut usize[30]')

    def test_header_has_a_call_twice(self):
        self.edit(faces.HEADER, 'double zg_sign(double x);', 'double zg_sign(double x);\ndouble zg_sign(double x);')
        self.says('include/zegrafult.h: has zg_sign twice')

    def test_ffi_has_a_call_twice(self):
        self.edit(faces.FFI, '    pub fn zg_sign(', '    pub fn zg_sign(y: f64) -> f64;\n    pub fn zg_sign(')
        self.says('bindings/rust/src/ffi.rs: has zg_sign twice')

    def test_swapped_names(self):
        self.edit(faces.HEADER, 'size_t a_len, size_t m, size_t n, double *u', 'size_t a_len, size_t n, size_t m, double *u')
        self.says('include/zegrafult.h: zg_svd_jacobi has as argument 3 n: usize, in exports m: usize')

    def test_sizes_lack_a_helper(self):
        self.edit(faces.SIZES, 'zg_svd_jacobi_scratch_len(size_t m', 'zg_svd_jacobi_room_len(size_t m')
        self.says('include/zegrafult_sizes.h: lacks zg_svd_jacobi_scratch_len')

    def test_a_helper_is_not_tried(self):
        self.edit(faces.SIZES_TRIED, 'zg_cut_matrix_out_len(n)', 'zg_state_len(n)')
        self.says('bindings/c/sizes.c: lacks zg_cut_matrix_out_len')

    # ---- what is said of the arguments

    def test_an_argument_is_not_explained(self):
        self.edit(faces.HEADER, ' *   exact  [out]     whether it came out even */', ' */')
        self.says('include/zegrafult.h: the comment of zg_sqrt_marked has no line "exact [out]"')

    def test_an_argument_is_said_to_be_read(self):
        self.edit(faces.HEADER, ' *   exact  [out]     whether', ' *   exact  [in]      whether')
        self.says('include/zegrafult.h: the comment of zg_sqrt_marked has no line "exact [out]"')

    def test_a_length_is_not_said(self):
        self.edit(faces.HEADER, 'list_len is k', 'of k')
        self.says('include/zegrafult.h: the comment of zg_validate_qubit_set does not say how long list is')

    # ---- the answers

    def test_an_answer_has_another_number(self):
        self.edit(faces.REFUSAL, 'Refusal::NoRun => 14,', 'Refusal::NoRun => 15,')
        self.says('bindings/rust/src/refusal.rs: lacks "Refusal::NoRun => 14,"')

    def test_an_answer_loses_its_place(self):
        self.edit(faces.MEANING, 'Cell {place} is not a whole', 'A cell is not a whole')
        self.says('bindings/python/zegrafult/refusal.py: lacks the answer 11, or its place')

    def test_an_answer_is_not_in_c(self):
        self.edit(faces.SIZES, 'ZG_NO_RUN = 14', 'ZG_NO_RUN = 17')
        self.says('include/zegrafult_sizes.h: lacks the answer 14')

    # ---- Rust

    def test_no_example(self):
        self.edit('bindings/rust/src/numbers.rs', '/// ```\n/// assert_eq!(zegrafult::sign(-0.0), -1.0);\n/// ```\n', '')
        self.says('bindings/rust/src/numbers.rs: sign has no example')

    def test_no_reason(self):
        self.edit('bindings/rust/src/lib.rs', '    // SAFETY: the call takes nothing and gives a number alone.\n', '')
        self.assertEqual(len(self.found()), 1)
        self.assertIn('has no SAFETY', self.found()[0])

    def test_ffi_lacks_a_call(self):
        self.edit(faces.FFI, '    pub fn zg_total_less(x: f64, y: f64) -> bool;\n', '')
        self.says('bindings/rust/src/ffi.rs: lacks zg_total_less')

    def test_ffi_has_another_type(self):
        self.edit(faces.FFI, 'tolerance: u64', 'tolerance: usize')
        self.says('bindings/rust/src/ffi.rs: zg_countersign has as argument 11 tolerance: usize, in exports tolerance: u64')

    def test_ffi_has_a_call_of_its_own(self):
        self.edit(faces.FFI, '    pub fn zg_sign(', '    pub fn zg_cosign(x: f64) -> f64;\n    pub fn zg_sign(')
        self.says('bindings/rust/src/ffi.rs: has zg_cosign, which exports has not')

    def test_no_safe_call(self):
        self.edit('bindings/rust/src/numbers.rs', 'ffi::zg_magnitude(x)', 'x.abs()')
        self.says('bindings/rust/src: no call uses zg_magnitude')

    def test_port_drops_an_argument(self):
        self.edit(faces.PORT, 'pub fn zg_cut_rank(bond_left: usize, ', 'pub fn zg_cut_rank(')
        self.says('oracle/port/src/lib.rs: zg_cut_rank has as argument 1 bond_mid: usize, in exports bond_left: usize')

    # ---- Python

    def test_table_lacks_a_call(self):
        self.edit(faces.TABLE, "    'zg_sign': ('f64', [\n        ('x', 'f64'),\n    ]),\n", '')
        self.says('bindings/python/zegrafult/_table.py: lacks zg_sign')

    def test_table_has_another_type(self):
        self.edit(faces.TABLE, "('epsilon', 'f64')", "('epsilon', 'u64')")
        self.says('bindings/python/zegrafult/_table.py: zg_truncated_svd_rank has as argument 3 epsilon: u64, in exports epsilon: f64')

    def test_no_python_call(self):
        for path in (self.root / faces.PYTHON).glob('*.py'):
            if path.name != '_table.py':
                path.write_text(path.read_text().replace("zg_pages_agree", 'zg_pages'))
        self.says('bindings/python/zegrafult: no call uses zg_pages_agree')

    def test_version(self):
        self.edit(faces.CARGO, 'version = "', 'version = "7')
        self.assertEqual(len(self.found()), 1)
        self.edit(faces.VERSION, '#define ZEGRAFULT_VERSION "', '#define ZEGRAFULT_VERSION "7')
        with self.assertRaises(faces.Unreadable):
            self.found()

    def test_library_of_another_version(self):
        self.edit(faces.EXPORTS, '{ result ≡ 100 }', '{ result ≡ 101 }')
        self.says('crates/exports/src/lib.rt: the version is not 0.1.0, that is 100')

    # ---- a new call

    def test_new_call(self):
        """A call that exports gains is asked for everywhere; the table is written by the command."""
        self.edit(faces.EXPORTS, '#[unsafe(no_mangle)]\npub extern "C" fn zg_sign(',
                  '#[unsafe(no_mangle)]\npub extern "C" fn zg_never_there(bytes: &[u8], sheet: &mut [usize; 32], out: &mut [f64], place: &mut usize) -> u32\n'
                  '    ensures { result ≡ 0 }\n{\n    0\n}\n\n#[unsafe(no_mangle)]\npub extern "C" fn zg_sign(')
        lacks = ['%s: lacks zg_never_there' % p for p in (faces.HEADER, faces.FFI, faces.PORT)]
        lacks += ['%s: no call uses zg_never_there' % p for p in ('bindings/rust/src', faces.PYTHON)] + [p + ': lacks zg_never_there_out_len' for p in (faces.SIZES, faces.SIZES_TRIED)]
        self.says(*lacks, faces.TABLE + ': lacks zg_never_there')
        run = subprocess.run([sys.executable, str(TOOL), '--write-python', '--root', str(self.root)], capture_output=True, text=True)
        self.assertEqual(run.returncode, 1)
        self.assertEqual(sorted(run.stdout.split('\n')[:-1]), sorted(lacks))
        said = subprocess.run([sys.executable, str(TOOL), '--declare', 'zg_never_there', '--root', str(self.root)], capture_output=True, text=True)
        lines = said.stdout.split('\n')
        comment, (c, ffi, port) = '\n'.join(lines[:6]), lines[6:9]
        self.assertEqual(lines[1], ' *   bytes      [in]      .; bytes_len')
        self.assertEqual(c, 'uint32_t zg_never_there(const uint8_t *bytes, size_t bytes_len, size_t sheet[32], double *out, size_t out_len, size_t *place);')
        self.edit(faces.HEADER, 'double zg_sign(double x);', 'double zg_sign(double x);\n' + comment + '\n' + c)
        self.edit(faces.FFI, '    pub fn zg_sign(', ffi + '\n    pub fn zg_sign(')
        self.edit(faces.PORT, '    pub fn zg_sign(', port + '\n    pub fn zg_sign(')
        self.assertEqual(sorted(self.found()), sorted(lacks[3:]))

    def test_type_that_is_not_understood(self):
        self.edit(faces.EXPORTS, 'pub extern "C" fn zg_sign(x: f64)', 'pub extern "C" fn zg_sign(x: Complex)')
        with self.assertRaises(faces.Unreadable):
            self.found()


if __name__ == '__main__':
    unittest.main()
