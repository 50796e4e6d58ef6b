//! The program on records of every kind.

use chart::{chart, compared, length, PAGE};
use reference::limits;
use reference::record;
use reference::sample::{at_rest, damaged_record, growing, sound_state, Random};

/// Document 02's example: counts 1, 3, growth finished, s = 3.
const EXAMPLE: &str = "   row         0         1         2
     0         4         0         3
     1         5         6         1
     2         2         7         8
";

#[test]
fn example_of_document_02() {
    let sector = record::write(&at_rest(&[1, 3], 3));
    assert_eq!(compared(&sector), EXAMPLE);
}

/// Document 01's growth with blocks 0 and 3 recorded: the columns of the new
/// disks are there, and "-" where nothing lives.
#[test]
fn growth_under_way() {
    let text = compared(&record::write(&growing(&[3, 5], 5, 0, 0b11)));
    let first_rows = "   row         0         1         2         3         4
     0         -         1         2         0         -
     1         -         4         5         3         -
";
    assert!(text.starts_with(first_rows), "{text}");
    let none_moved = compared(&record::write(&growing(&[3, 5], 5, 0, 0)));
    assert_eq!(none_moved.matches('-').count(), 10);
    compared(&record::write(&growing(&[3, 5], 6, 1, 0)));
    compared(&record::write(&growing(&[8, 16], 40, 2, u64::MAX - 1)));
}

#[test]
fn more_than_512_bytes() {
    let mut input = record::write(&at_rest(&[1, 3], 3)).to_vec();
    for more in [1, 511, 512, 100_000] {
        input.resize(512 + more, b'x');
        assert_eq!(compared(&input), EXAMPLE);
    }
}

#[test]
fn fewer_than_512_bytes() {
    let sector = record::write(&at_rest(&[1, 3], 3));
    for few in [0, 1, 130, 511] {
        assert_eq!(compared(&sector[..few]), "2\n");
    }
}

/// Each byte of a record changed, and records damaged at random.
#[test]
fn damaged_records() {
    let sector = record::write(&growing(&[3, 5], 5, 0, 0b11));
    let mut refused = 0;
    for at in 0..limits::RECORD {
        let mut changed = sector;
        changed[at] ^= 1;
        refused += (compared(&changed) == "13\n") as u32;
    }
    assert!(refused > 400, "{refused}");
    let mut random = Random::new(1);
    for _ in 0..200 {
        let state = sound_state(&mut random, 30);
        let damaged = damaged_record(&mut random, &state);
        compared(&damaged);
    }
}

/// The longest chart that a page takes, and one of a row more, for each count
/// of disks. No chart has exactly 65,536 bytes; that of one disk has 65,535.
#[test]
fn longest_charts() {
    for disks in 1..=limits::DISKS {
        let rows = PAGE as u64 / (6 + 10 * disks + 1) - 1;
        let text = compared(&record::write(&at_rest(&[disks], rows)));
        assert_eq!(text.len(), length(disks, rows));
        let longer = record::write(&at_rest(&[disks], rows + 1));
        assert_eq!(compared(&longer), "16\n");
    }
    assert_eq!(length(1, 3_854), PAGE - 1);
    let most = record::write(&at_rest(&[16], 1_000_000));
    assert_eq!(compared(&most), "16\n");
}

#[test]
fn random_records() {
    let mut random = Random::new(2);
    let mut with_dash = 0;
    for _ in 0..300 {
        let state = sound_state(&mut random, 60);
        let text = compared(&record::write(&state));
        assert_eq!(text, chart(&state));
        with_dash += text.contains('-') as u32;
    }
    assert!(with_dash > 50 && with_dash < 300, "{with_dash}");
}
