/// No-alloc-when-possible borrow of row `r`'s content (trailing separator
/// excluded) — [`hjkl_buffer::rope_line_str`]'s slice, minus the
/// unconditional `.to_string()`. ropey's `From<RopeSlice> for Cow<str>`
/// borrows the chunk when the line is contiguous (the common case: any
/// line shorter than a rope chunk, ~256 bytes) and only falls back to an
/// owned `String` for multi-chunk lines. Rows come from a caller-owned
/// rope snapshot (one `Query::rope` clone per walk).
///
/// `r` must be in-bounds: `ropey` panics otherwise, matching the
/// `Query::line` contract this replaces.
///
/// `pub` inside the crate-private `viewport_math` module so the engine's
/// scrolloff walk (`editor.rs`) reuses the same borrow instead of
/// materializing a `String` per dropped row.
pub fn rope_line_slice<'a>(rope: &'a ropey::Rope, r: usize) -> std::borrow::Cow<'a, str> {
    let start = rope.line_to_byte(r);
    // Content end, separator excluded — mirrors `rope_line_content_end` (the
    // final row runs to `len_bytes`). Computed inline so the row's start byte
    // is resolved once instead of again inside `rope_line_bytes`.
    let end = if r + 1 >= rope.len_lines() {
        rope.len_bytes()
    } else {
        hjkl_buffer::floor_char_boundary(rope, rope.line_to_byte(r + 1).saturating_sub(1))
    };
    rope.byte_slice(start..end).into()
}
