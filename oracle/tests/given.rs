//! The given text stands as it was given: what is cut from it is a part of its file.

macro_rules! given {
    ($path:literal) => {
        include_str!(concat!("../given/", $path))
    };
}

#[test]
fn excerpts_are_parts_of_the_given_files() {
    let cuts = [
        (given!("crates/hjkl-buffer/src/folds.rs"), given!("excerpts/fold.rs")),
        (given!("crates/hjkl-engine/src/buffer_impl.rs"), given!("excerpts/visible_rows.rs")),
        (given!("crates/hjkl-engine/src/viewport_math.rs"), given!("excerpts/row_text.rs")),
    ];
    for (file, excerpt) in cuts {
        assert!(excerpt.lines().count() > 20);
        assert!(file.contains(excerpt));
    }
}

/// FNV-1a over each given file: an edit to one shows here.
#[test]
fn given_files_are_unchanged() {
    let sum = |text: &str| text.bytes().fold(0xCBF2_9CE4_8422_2325u64, |h, b| (h ^ u64::from(b)).wrapping_mul(0x100_0000_01B3));
    let sums: [(&str, u64); 7] = [
        (given!("crates/hjkl-buffer/src/folds.rs"), 0xD99C_6330_40B6_A42E),
        (given!("crates/hjkl-buffer/src/geom.rs"), 0xB4A0_2C4C_4463_CAFE),
        (given!("crates/hjkl-buffer/src/motion.rs"), 0xC929_8161_B2BE_0FBC),
        (given!("crates/hjkl-buffer/src/wrap.rs"), 0x6BF8_B16A_2E2F_3F8B),
        (given!("crates/hjkl-engine/src/buffer_impl.rs"), 0x950E_5B64_DCCA_888A),
        (given!("crates/hjkl-engine/src/motions.rs"), 0x641C_0900_31FA_5FF4),
        (given!("crates/hjkl-engine/src/viewport_math.rs"), 0x0EA4_3199_5617_8EAF),
    ];
    for (text, stored) in sums {
        assert_eq!(format!("{:#x}", sum(text)), format!("{stored:#x}"));
    }
}
