//! The slab's face: what is read back, what each refusal leaves, and that bits are kept.
use zegrafult::{Complex, Held, Slab, SLAB_CELLS, SLAB_INDEX};

fn site(n: usize, first: u64) -> Vec<Complex> {
    (0..n as u64).map(|k| Complex::new(f64::from_bits(first + 2 * k), f64::from_bits(first + 2 * k + 1))).collect()
}

fn bits(cells: &[Complex]) -> Vec<(u64, u64)> {
    cells.iter().map(|z| (z.re.to_bits(), z.im.to_bits())).collect()
}

#[test]
fn nan_payloads_come_back() {
    let mut slab = Slab::new();
    let data = site(5, 0x7FF0_0000_0000_0001);
    slab.put(u32::MAX, &data).unwrap();
    assert_eq!(bits(slab.get(u32::MAX).unwrap()), bits(&data));
    let other = site(3, 0xFFF8_DEAD_BEEF_0000);
    slab.replace(u32::MAX, &other).unwrap();
    assert_eq!(bits(slab.get(u32::MAX).unwrap()), bits(&other));
    slab.drop(u32::MAX).unwrap();
    assert_eq!(slab.get(u32::MAX), None);
    assert!(bits(slab.parts().0).iter().all(|&z| z == (0, 0)));
}

#[test]
fn dropped_room_is_used_again() {
    let mut slab = Slab::new();
    for (number, n) in [(1, 10), (2, 4), (3, 6)] {
        slab.put(number, &site(n, 1)).unwrap();
    }
    slab.drop(2).unwrap();
    slab.put(4, &site(5, 2)).unwrap();
    slab.put(5, &site(4, 3)).unwrap();
    let held: Vec<Held> = slab.sites().collect();
    let runs: Vec<_> = held.iter().map(|s| (s.number, s.start, s.cells)).collect();
    assert_eq!(runs, [(1, 0, 10), (3, 14, 6), (4, 20, 5), (5, 10, 4)]);
    assert_eq!(slab.replace(3, &site(SLAB_CELLS - 24, 4)).unwrap_err().number(), 14);
    slab.drop(4).unwrap();
    slab.replace(3, &site(SLAB_CELLS - 14, 4)).unwrap();
    assert_eq!(slab.put(6, &site(1, 5)).unwrap_err().number(), 14);
}

#[test]
fn refusals_change_nothing() {
    let mut slab = Slab::new();
    for number in 0..64 {
        slab.put(number, &site(1, 1 + u64::from(number))).unwrap();
    }
    let before = slab.clone();
    let answers = [
        (slab.put(64, &[]), 1),
        (slab.put(64, &site(SLAB_CELLS + 1, 1)), 1),
        (slab.put(3, &site(1, 1)), 13),
        (slab.put(64, &site(SLAB_CELLS, 1)), 14),
        (slab.put(64, &site(1, 1)), 15),
        (slab.drop(64), 13),
        (slab.replace(64, &site(1, 1)), 13),
        (slab.replace(3, &site(SLAB_CELLS - 62, 1)), 14),
    ];
    for (answer, number) in answers {
        assert_eq!(answer.map_err(|r| (r.number(), r.place())), Err((number, 0)));
    }
    assert_eq!(bits(slab.parts().0), bits(before.parts().0));
    assert_eq!(slab.parts().1, before.parts().1);
}

#[test]
fn a_broken_slab_is_refused() {
    let mut cells = [Complex::default(); SLAB_CELLS];
    let mut index = [0; SLAB_INDEX];
    index[0] = 65;
    assert_eq!(Slab::from_parts(&cells, index).drop(0).unwrap_err().number(), 1);
    index[..4].copy_from_slice(&[1, 0, u32::MAX, 2]);
    assert_eq!(Slab::from_parts(&cells, index).drop(0).unwrap_err().number(), 1);
    assert_eq!(Slab::from_parts(&cells, index).get(0), None);
    index[2] = 4094;
    assert_eq!(Slab::from_parts(&cells, index).drop(0), Ok(()));
    cells[9].im = -0.0;
    assert_eq!(Slab::from_parts(&cells, index).drop(0).unwrap_err().number(), 1);
}
