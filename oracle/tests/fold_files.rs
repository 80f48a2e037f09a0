//! Fold files by document 02's words: how long they are, byte by byte where it counts, and what is
//! refused with which number.

use oracle::fold_file::{listed, read, sum, summed, write, written};

/// A text of so many rows.
fn rows(n: usize) -> Vec<u32> {
    vec![10; n - 1]
}

fn folds(n: u32) -> Vec<[u32; 3]> {
    (0..n).map(|i| [i, i + 1, i % 2]).collect()
}

#[test]
fn no_folds_are_512_zeros() {
    assert_eq!(written(&[]), [0; 512]);
    assert_eq!(listed(&[0; 512]), Ok(vec![]));
}

#[test]
fn blocks_hold_56() {
    for (n, blocks) in [(0, 1), (1, 1), (56, 1), (57, 2), (112, 2), (113, 3), (168, 3), (169, 4), (224, 4), (225, 5), (256, 5)] {
        let file = written(&folds(n));
        assert_eq!(file.len(), 512 * blocks, "{n}");
        assert_eq!(listed(&file), Ok(folds(n)), "{n}");
    }
}

#[test]
fn one_fold_byte_by_byte() {
    let file = written(&[[0x0102_0304, 0x0506_0708, 1]]);
    assert_eq!(file[..14], [0, 0, 1, 0, 4, 3, 2, 1, 8, 7, 6, 5, 1, 0]);
    assert!(file[13..508].iter().all(|&b| b == 0));
    assert_eq!(file[508..], [1, 0, 39, 0]);
    let far = written(&[[u32::MAX, u32::MAX, 1]; 56]);
    assert_eq!(sum(&far), (56 * (8 * 255 + 1) + 56 + 56_u32) as u16);
}

#[test]
fn refusals_in_their_order() {
    let text = rows(300);
    let good = written(&folds(57));
    for length in [0, 511, 513, 3072] {
        assert_eq!(read(&text, &vec![0; length], 900), Err(18), "{length}");
    }
    assert_eq!(read(&[0x0D], &[], 0), Err(3));
    let mut both = good.clone();
    both[0] = 9;
    both[1022] ^= 1;
    assert_eq!(read(&text, &both, 0), Err(19));
    let broken = |at: usize, to: u8| {
        let mut file = good.clone();
        file[at] = to;
        read(&text, &summed(file), 0)
    };
    for at in [0, 2, 508, 512, 514, 1020, 512 + 4 + 9] {
        assert_eq!(broken(at, 0xFF), Err(20), "{at}");
    }
    assert_eq!(broken(12, 2), Err(5), "closed above 1");
    assert_eq!(broken(6, 1), Err(5), "a start behind its end");
    let empty_last = [written(&folds(56)), vec![1, 0].into_iter().chain([0; 506]).chain([56, 0, 0, 0]).collect()].concat();
    assert_eq!(read(&text, &summed(empty_last), 900), Err(20));
    assert_eq!(read(&text, &written(&folds(257)), 900), Err(5), "over 256 folds");
    assert_eq!(read(&rows(57), &good, 0), Err(5), "an end behind the rows");
    assert_eq!(read(&text, &good, 170), Err(14));
    assert_eq!(read(&text, &good, 171).map(|l| l.len()), Ok(171));
    assert_eq!(write(&text, &[0, 1], 900), Err(5));
    assert_eq!(write(&text, &[0, 1, 1], 511), Err(14));
    assert_eq!(write(&text, &[], 511), Err(14));
    assert_eq!(write(&text, &[0, 1, 1], 512).map(|f| f.len()), Ok(512));
}

/// The stored files, to which any program can be held: fold i of n is (i, i + i % 44, i % 2).
#[test]
fn stored_files_are_those_bytes() {
    for n in [0_u32, 1, 56, 57, 256] {
        let list: Vec<[u32; 3]> = (0..n).map(|i| [i, i + i % 44, i % 2]).collect();
        let stored = std::fs::read(format!("{}/../host/folds/{n}.folds", env!("CARGO_MANIFEST_DIR"))).unwrap();
        assert_eq!(written(&list), stored, "{n}");
        assert_eq!(listed(&stored), Ok(list), "{n}");
    }
}
