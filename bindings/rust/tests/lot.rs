//! The sheet of a lot: the kept lots of crates/file_cases give what is kept beside them.
use zegrafult::{lot_sheet, LotSheet, RankAt};

fn printed(sheet: &LotSheet) -> String {
    let mut out = format!("lot {}\n", sheet.answers.iter().sum::<usize>());
    for (k, n) in sheet.answers.iter().enumerate() {
        out += &format!("answer {k} {n}\n");
    }
    for (r, n) in sheet.ranks.iter().enumerate() {
        out += &format!("rank {} {n}\n", r + 1);
    }
    let mark = |at: Option<RankAt>| at.map_or("0 0".into(), |at| format!("{} {}", at.rank, at.file));
    out + &format!("smallest {}\nlargest {}\nsum {}\n", mark(sheet.smallest), mark(sheet.largest), sheet.sum)
}

#[test]
fn the_kept_lots() {
    let folder = concat!(env!("CARGO_MANIFEST_DIR"), "/../../crates/file_cases");
    let table = |part: u32| std::fs::read(format!("{folder}/data/lots-{part}.bin")).unwrap();
    let (table, mut out) = ([table(1), table(2), table(3)].concat(), String::new());
    let mut rest = &table[..];
    while !rest.is_empty() {
        let (size, behind) = rest.split_at(4);
        let (lot, next) = behind.split_at(u32::from_le_bytes(size.try_into().unwrap()) as usize);
        match lot_sheet(lot) {
            Ok(sheet) => out += &printed(&sheet),
            Err(refusal) => out += &format!("refused {} {}\n", refusal.number(), refusal.place()),
        }
        rest = next;
    }
    let kept = std::fs::read_to_string(format!("{folder}/stdout")).unwrap();
    let lines = kept.lines().skip_while(|line| *line != "lots-1.bin").filter(|line| !line.ends_with(".bin"));
    assert_eq!(out, lines.map(|line| format!("{line}\n")).collect::<String>());
}

#[test]
fn a_lot_of_a_thousand() {
    let paper = std::fs::read(concat!(env!("CARGO_MANIFEST_DIR"), "/../../examples/paper.cut")).unwrap();
    let lot_of = |count: u32| {
        let mut lot = count.to_le_bytes().to_vec();
        (0..count).for_each(|_| lot.extend((paper.len() as u32).to_le_bytes()));
        (0..count).for_each(|_| lot.extend(&paper));
        lot
    };
    let sheet = lot_sheet(&lot_of(1000)).unwrap();
    assert_eq!((sheet.answers[0], sheet.ranks[3], sheet.sum), (1000, 1000, 4000));
    assert_eq!(sheet.smallest, Some(RankAt { rank: 4, file: 1 }));
    assert_eq!(lot_sheet(&lot_of(1001)).unwrap_err().number(), 16);
}
