//! The same cut asked from the far end: the unnamed qubits named instead, in any order.
mod draw;
use draw::Draw;
use zegrafult::*;

fn cells(cut: &Cut) -> Vec<[u64; 2]> {
    cut.cells.iter().map(|z| [z.re.to_bits(), z.im.to_bits()]).collect()
}

fn values(state: &[Complex], n: usize, list: &[usize]) -> Result<Vec<u64>, Refusal> {
    dense_schmidt_values(state, n, list, 13).map(|v| v.values.iter().map(|x| x.to_bits()).collect())
}

/// 20,000 pairs of sides of different size: the same matrix and the same values, bit for bit.
#[test]
fn sides_of_different_size() {
    let mut draw = Draw(19);
    let mut pairs = 0;
    while pairs < 20000 {
        let n = 3 + draw.below(5);
        let k = 1 + draw.below(n - 1);
        if 2 * k == n {
            continue;
        }
        let (state, (list, far)) = (draw.state(n), draw.sides(n, k));
        let (a, b) = (cut_matrix(&state, n, &list, 13).unwrap(), cut_matrix(&state, n, &far, 13).unwrap());
        assert_eq!((a.rows, a.columns, cells(&a)), (b.rows, b.columns, cells(&b)), "{n} {list:?} {far:?}");
        assert_eq!(values(&state, n, &list), values(&state, n, &far), "{n} {list:?} {far:?}");
        pairs += 1;
    }
}

/// Half size: one matrix is the other's transpose, no conjugate taken.
#[test]
fn half_size() {
    let mut draw = Draw(91);
    for round in 0..2000 {
        let k = 1 + round % 4;
        let (state, (list, far)) = (draw.state(2 * k), draw.sides(2 * k, k));
        let (a, b) = (cut_matrix(&state, 2 * k, &list, 13).unwrap(), cut_matrix(&state, 2 * k, &far, 13).unwrap());
        let side = a.rows;
        let across: Vec<_> = (0..side * side).map(|x| cells(&a)[x % side * side + x / side]).collect();
        assert_eq!(cells(&b), across, "{list:?} {far:?}");
    }
}

/// At half size the values may differ, mostly in their last bits: the smallest state of whole numbers that shows it, a faint one
/// of which one list gives two values, and random ones, which stay near.
#[test]
fn half_size_values() {
    let real = |parts: [f64; 4]| parts.map(Complex::real);
    let state = real([0.0, 0.0, 2.0, 3.0]);
    assert_eq!(values(&state, 2, &[0]), Ok(vec![0x3FF0000000000000]));
    assert_eq!(values(&state, 2, &[1]), Ok(vec![0x3FEFFFFFFFFFFFFF]));
    let faint = real([0.0, 0.0, 2f64.powi(-280), 2f64.powi(-280)]);
    assert_eq!(values(&faint, 2, &[0]), Ok(vec![0x3FF0000000000000]));
    assert_eq!(values(&faint, 2, &[1]), Ok(vec![0x3FE6A09E667F3BCC; 2]));
    let mut draw = Draw(5);
    let mut other = 0;
    for round in 0..2000 {
        let k = 1 + round % 3;
        let (state, (list, far)) = (draw.state(2 * k), draw.sides(2 * k, k));
        let (a, b) = (values(&state, 2 * k, &list).unwrap(), values(&state, 2 * k, &far).unwrap());
        assert_eq!(a.len(), b.len());
        for (x, y) in a.iter().zip(&b) {
            assert!((f64::from_bits(*x) - f64::from_bits(*y)).abs() < 1e-14, "{list:?} {far:?}");
        }
        other += (a != b) as usize;
    }
    assert!(other > 0);
}

#[test]
fn refused_alike() {
    let mut draw = Draw(3);
    for round in 0..400 {
        let n = 2 + round % 5;
        let k = 1 + draw.below(n - 1);
        let (mut state, (list, far)) = (draw.state(n), draw.sides(n, k));
        match draw.below(3) {
            0 => state.truncate(draw.below(1 << n)),
            _ => {
                for _ in 0..2 {
                    let x = draw.below(state.len());
                    state[x].im = [f64::INFINITY, 2f64.powi(201)][draw.below(2)];
                }
            }
        }
        let refusal = cut_matrix(&state, n, &list, 13).unwrap_err();
        assert_eq!(cut_matrix(&state, n, &far, 13).unwrap_err(), refusal, "{n} {list:?} {far:?}");
        assert_eq!(values(&state, n, &list).unwrap_err(), refusal);
        assert_eq!(values(&state, n, &far).unwrap_err(), refusal);
    }
}
