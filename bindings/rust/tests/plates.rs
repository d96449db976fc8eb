//! Phase plates on the far side: a state behind them has the same density, bit for bit, and is refused alike.
mod draw;
use draw::Draw;
use zegrafult::*;

/// A state with some subnormal and some large parts.
fn wide(draw: &mut Draw, n: usize) -> Vec<Complex> {
    let mut state = draw.state(n);
    for z in &mut state {
        match draw.below(8) {
            0 => z.re = f64::from_bits(draw.next() & 0x800F_FFFF_FFFF_FFFF),
            1 => z.im = 2f64.powi(draw.below(400) as i32 - 200),
            _ => (),
        }
    }
    state
}

/// Times 1, i, -1, -i: parts exchanged and negated.
fn by_plate(plate: usize, z: Complex) -> Complex {
    match plate {
        0 => z,
        1 => Complex::new(-z.im, z.re),
        2 => Complex::new(-z.re, -z.im),
        _ => Complex::new(z.im, -z.re),
    }
}

/// One plate, drawn, before all amplitudes of each setting of the unnamed qubits.
fn behind(draw: &mut Draw, state: &[Complex], n: usize, list: &[usize]) -> Vec<Complex> {
    let others: Vec<usize> = (0..n).filter(|q| !list.contains(q)).collect();
    let plates: Vec<usize> = (0..1 << others.len()).map(|_| draw.below(4)).collect();
    let setting = |x: usize| others.iter().enumerate().map(|(i, q)| (x >> q & 1) << i).sum::<usize>();
    state.iter().enumerate().map(|(x, z)| by_plate(plates[setting(x)], *z)).collect()
}

fn bits(density: Result<Vec<Complex>, Refusal>) -> Result<Vec<[u64; 2]>, Refusal> {
    density.map(|cells| cells.iter().map(|z| [z.re.to_bits(), z.im.to_bits()]).collect())
}

#[test]
fn plates_are_unseen() {
    let mut draw = Draw(20);
    for round in 0..4000 {
        let n = 1 + round % 9;
        let k = 1 + draw.below(n.min(6));
        let (state, (list, _)) = (wide(&mut draw, n), draw.sides(n, k));
        let other = behind(&mut draw, &state, n, &list);
        let (a, b) = (dense_reduced_density(&state, n, &list, 13), dense_reduced_density(&other, n, &list, 13));
        assert!(a.is_ok());
        assert_eq!(bits(a), bits(b), "{n} {list:?}");
    }
}

#[test]
fn the_largest_register() {
    let mut draw = Draw(12);
    for list in [vec![0], vec![11, 3], vec![5, 4, 3, 2, 1, 0]] {
        let state = wide(&mut draw, 12);
        let other = behind(&mut draw, &state, 12, &list);
        assert_eq!(
            bits(dense_reduced_density(&state, 12, &list, 13)),
            bits(dense_reduced_density(&other, 12, &list, 13))
        );
    }
}

#[test]
fn refused_alike() {
    let mut draw = Draw(7);
    for round in 0..400 {
        let n = 1 + round % 5;
        let k = 1 + draw.below(n);
        let (mut state, (list, _)) = (draw.state(n), draw.sides(n, k));
        for _ in 0..2 {
            let x = draw.below(state.len());
            let bad = [f64::INFINITY, f64::NEG_INFINITY, f64::NAN, 2f64.powi(201)][draw.below(4)];
            if draw.below(2) == 0 {
                state[x].re = bad
            } else {
                state[x].im = bad
            }
        }
        let other = behind(&mut draw, &state, n, &list);
        let refusal = dense_reduced_density(&state, n, &list, 13).unwrap_err();
        assert_eq!(refusal.number(), 7);
        assert_eq!(dense_reduced_density(&other, n, &list, 13).unwrap_err(), refusal, "{n} {list:?}");
    }
}
