//! The plan's face: every change is the plan of the changed list, and each refusal has its number and place.
mod lists;

use lists::lists;
use zegrafult::{Plan, Refusal};

fn refused(number: u32, place: usize) -> Result<Plan, Refusal> {
    Err(Refusal::of(number, place).expect("a refusal"))
}

#[test]
fn a_plan_holds_the_cut() {
    for n in 2..=5 {
        for list in lists(n) {
            let plan = Plan::new(&list, n, 13).unwrap();
            let others: Vec<usize> = (0..n).filter(|q| !list.contains(q)).collect();
            let (k, rest) = (list.len(), others.len());
            let mask = |l: &[usize]| l.iter().map(|q| 1usize << q).sum::<usize>();
            let (rows, columns) = if k <= rest { (&list, &others) } else { (&others, &list) };
            assert_eq!((plan.n, plan.k, plan.list(), plan.smaller_list()), (n, k, &list[..], &rows[..]));
            assert_eq!((plan.row_mask, plan.column_mask), (mask(rows), mask(columns)));
            assert_eq!((plan.rows, plan.columns), (1 << rows.len(), 1 << columns.len()));
            assert!(plan.named[k..].iter().chain(&plan.smaller[rows.len()..]).all(|&x| x == 0));
        }
    }
}

#[test]
fn a_change_is_the_plan_of_the_changed_list() {
    for n in 2..=5 {
        for list in lists(n) {
            let plan = Plan::new(&list, n, 13).unwrap();
            let k = list.len();
            for q in 0..=n {
                let added = if q >= n {
                    refused(2, k)
                } else if list.contains(&q) {
                    refused(3, k)
                } else if k + 1 == n {
                    refused(5, 0)
                } else {
                    Plan::new(&[&list[..], &[q]].concat(), n, 13)
                };
                assert_eq!(plan.with(q), added);
                let left: Vec<usize> = list.iter().copied().filter(|&x| x != q).collect();
                let dropped = if !list.contains(&q) {
                    refused(12, 0)
                } else if k == 1 {
                    refused(4, 0)
                } else {
                    Plan::new(&left, n, 13)
                };
                assert_eq!(plan.without(q), dropped);
            }
            let others: Vec<usize> = (0..n).filter(|q| !list.contains(q)).collect();
            assert_eq!(plan.switched(), Plan::new(&others, n, 13));
            let mut rising = list.clone();
            rising.sort_unstable();
            assert_eq!(plan.switched().unwrap().switched(), Plan::new(&rising, n, 13));
        }
    }
}

#[test]
fn a_plan_that_no_list_makes_is_refused_first() {
    let good = Plan::new(&[2, 0], 12, 13).unwrap();
    let mut broken: Vec<Plan> = vec![
        Plan { n: 13, ..good },
        Plan { n: 11, ..good },
        Plan { k: 1, ..good },
        Plan { k: 13, ..good },
        Plan { k: usize::MAX, ..good },
        Plan { row_mask: good.column_mask, column_mask: good.row_mask, ..good },
        Plan { row_mask: good.row_mask + 1, ..good },
        Plan { column_mask: good.column_mask - 1, ..good },
        Plan { rows: 8, ..good },
        Plan { columns: 512, ..good },
    ];
    for place in 0..12 {
        let (mut named, mut smaller) = (good, good);
        named.named[place] ^= 1 << 40;
        smaller.smaller[place] ^= 1 << 40;
        broken.extend([named, smaller]);
    }
    for plan in broken {
        assert_eq!(plan.with(99), refused(1, 0));
        assert_eq!(plan.without(99), refused(1, 0));
        assert_eq!(plan.switched(), refused(1, 0));
    }
}

#[test]
fn making_is_refused_as_a_cut() {
    assert_eq!(Plan::new(&[0], 0, 13), refused(1, 0));
    assert_eq!(Plan::new(&[0], 13, 13), refused(1, 0));
    assert_eq!(Plan::new(&[0], 4, 4), refused(1, 0));
    assert_eq!(Plan::new(&[0, 4], 4, 5), refused(2, 1));
    assert_eq!(Plan::new(&[0, 1, 0], 4, 5), refused(3, 2));
    assert_eq!(Plan::new(&[], 4, 5), refused(4, 0));
    assert_eq!(Plan::new(&[1, 0], 2, 5), refused(5, 0));
    // a plan made under a smaller cap is as good as any
    assert_eq!(Plan::new(&[1], 4, 5).unwrap().with(2), Plan::new(&[1, 2], 4, 13));
}
