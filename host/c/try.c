/* The header and the archive, tried from C: each argument list once, and some refusals. */
#include "tsivareza.h"

int printf(const char *, ...);

static int failed;

/* An answer's number and values against what they are to be. */
static void expect(const char *what, uint32_t number, uint32_t wanted, const uint32_t *out,
                   const uint32_t *values, size_t n) {
    int good = number == wanted;
    for (size_t i = 0; i < n; i++) good = good && out[i] == values[i];
    if (!good) {
        printf("FAILED: %s answers %u\n", what, number);
        failed = 1;
    }
}

#define SAYS(what, call, ...)                                                                       \
    do {                                                                                            \
        const uint32_t values[] = {__VA_ARGS__};                                                    \
        uint32_t number = (call);                                                                   \
        expect(what, number, 0, out, values, sizeof values / sizeof *values);                       \
    } while (0)

/* A refusal leaves `out` as it was. */
#define REFUSES(what, call, wanted)                                                                 \
    do {                                                                                            \
        uint32_t before[9];                                                                         \
        for (int i = 0; i < 9; i++) before[i] = out[i];                                             \
        uint32_t number = (call);                                                                   \
        expect(what, number, wanted, out, before, 9);                                               \
    } while (0)

/* Nothing, as C hosts pass it: a null pointer with the length 0, for every slice of every call. */
static void nothing_is_null(void) {
    uint32_t out[9] = {7, 7, 7, 7, 7, 7, 7, 7, 7}, caret[6] = {0}, sizes[3] = {0, 0, 0}, one[1] = {9};
    static uint8_t printed[TSIVAREZA_SESSION_ROOM];
    const uint32_t *none = NULL;
    const uint8_t *bytes = NULL;
    uint32_t *places = NULL;
    uint8_t *written = NULL;

    SAYS("null rows", tsivareza_content_row_count_u32(none, 0, out), 1);
    SAYS("null rows on bytes", tsivareza_content_row_count(bytes, 0, places, 0, out), 1);
    SAYS("a null list", tsivareza_keywords_u32(TSIVAREZA_PARSE, none, 0, 0, out), 0);
    SAYS("a null list on bytes", tsivareza_keywords(TSIVAREZA_PARSE, bytes, 0, places, 0, 0, out), 0);
    SAYS("a null list entered", (uint32_t)tsivareza_enter_u32(TSIVAREZA_ENTER, none, 0, 0, out), 0);
    SAYS("a null list entered on bytes", (uint32_t)tsivareza_enter(TSIVAREZA_ENTER, bytes, 0, places, 0, 0, out), 0);
    SAYS("a null list written", tsivareza_without_plus_u32(none, 0, places, 0, out), 0);
    SAYS("a null list written on bytes", tsivareza_without_plus(bytes, 0, places, 0, places, 0, out), 0);
    SAYS("columns of a null row", tsivareza_columns_u32(TSIVAREZA_CURSOR_VISUAL_COL, none, 0, 0, 8, out), 0);
    SAYS("columns of a null row on bytes", tsivareza_columns(TSIVAREZA_CURSOR_VISUAL_COL, bytes, 0, places, 0, 0, 8, out), 0);
    SAYS("offsets of a null row", tsivareza_offsets_u32(TSIVAREZA_VISUAL_OFFSET_FOR_CHAR_COL, none, 0, 0, 0, 0, out), 0);
    SAYS("offsets of a null row on bytes", tsivareza_offsets(TSIVAREZA_VISUAL_OFFSET_FOR_CHAR_COL, bytes, 0, places, 0, 0, 0, 0, out), 0);
    SAYS("null segments", tsivareza_segment_for_col_u32(none, 0, 3, out), 0);
    SAYS("null segments on bytes", tsivareza_segment_for_col(bytes, 0, places, 0, 3, out), 0);
    REFUSES("a null row wrapped", tsivareza_wrap_segments_u32(TSIVAREZA_WRAP_CHAR, none, 0, 4, places, 0, out), 9);
    REFUSES("a null row wrapped on bytes", tsivareza_wrap_segments(TSIVAREZA_WRAP_CHAR, bytes, 0, places, 0, 4, places, 0, out), 9);
    SAYS("a motion of a null text", tsivareza_motion_u32(TSIVAREZA_MOVE_BOTTOM, none, 0, 0, 0, 0, 0, 0, out), 0, 0, 0, 0);
    SAYS("a motion of a null text on bytes", tsivareza_motion(TSIVAREZA_MOVE_BOTTOM, bytes, 0, places, 0, 0, 0, 0, 0, 0, out), 0, 0, 0, 0);
    SAYS("match_bracket of a null text", tsivareza_seek_u32(TSIVAREZA_MATCH_BRACKET, none, 0, 0, 0, 0, 0, 0, out), 0, 0, 0, 0, 0);
    SAYS("match_bracket of a null text on bytes", tsivareza_seek(TSIVAREZA_MATCH_BRACKET, bytes, 0, places, 0, 0, 0, 0, 0, 0, out), 0, 0, 0, 0, 0);
    SAYS("a partner in a null text", tsivareza_matching_bracket_pos_u32(none, 0, 0, 0, out), 0, 0, 0);
    SAYS("a partner in a null text on bytes", tsivareza_matching_bracket_pos(bytes, 0, places, 0, 0, 0, out), 0, 0, 0);
    SAYS("a pair in a null text", tsivareza_inner_pair_u32(TSIVAREZA_CURLY, none, 0, 0, 0, out), 0);
    SAYS("a pair in a null text on bytes", tsivareza_inner_pair(TSIVAREZA_CURLY, bytes, 0, places, 0, 0, 0, out), 0);
    SAYS("words, all null", tsivareza_word_u32(TSIVAREZA_MOVE_WORD_FWD, none, 0, none, 0, none, 0, 0, 0, 0, 0, 0, 1, out), 0, 0, 0, 0);
    SAYS("words, all null, on bytes",
         tsivareza_word(TSIVAREZA_MOVE_WORD_BACK, bytes, 0, bytes, 0, bytes, 0, places, 0, 0, 0, 0, 0, 0, 1, out), 0, 0, 0, 0);
    SAYS("words by a null Vim list",
         (uint32_t)tsivareza_word_vim_u32(TSIVAREZA_MOVE_WORD_FWD, none, 0, none, 0, none, 0, 0, 0, 0, 0, 0, 1, out), 0, 0, 0, 0);
    SAYS("words by a null Vim list on bytes",
         (uint32_t)tsivareza_word_vim(TSIVAREZA_MOVE_WORD_BACK, bytes, 0, bytes, 0, bytes, 0, places, 0, 0, 0, 0, 0, 0, 1, out), 0, 0, 0, 0);
    REFUSES("null classes", tsivareza_word_classes_u32(none, 0, none, 0, written, 0, out), 14);
    REFUSES("null classes on bytes", tsivareza_word_classes(bytes, 0, bytes, 0, places, 0, written, 0, out), 14);
    REFUSES("words by null classes",
            tsivareza_word_by_class_u32(TSIVAREZA_MOVE_WORD_FWD, none, 0, none, 0, none, 0, 0, 0, 0, 0, 0, 1, written, 0, out), 14);
    REFUSES("words by null classes on bytes",
            tsivareza_word_by_class(TSIVAREZA_MOVE_WORD_FWD, bytes, 0, bytes, 0, bytes, 0, places, 0, 0, 0, 0, 0, 0, 1, written, 0, out), 14);
    SAYS("down in a null text", tsivareza_vertical_u32(TSIVAREZA_MOVE_DOWN, none, 0, none, 0, 0, 0, 0, 0, 0, 0, 1, 8, out), 0, 0, 1, 0);
    SAYS("down in a null text on bytes",
         tsivareza_vertical(TSIVAREZA_MOVE_DOWN, bytes, 0, bytes, 0, places, 0, 0, 0, 0, 0, 0, 0, 1, 8, out), 0, 0, 1, 0);
    SAYS("the screen of a null text",
         tsivareza_screen_kept_u32(0, none, 0, none, 0, 0, 0, 0, 0, 0, 0, TSIVAREZA_WRAP_NONE, 4, 1, 8, out), 0, 0, 1, 0, 0, 0);
    SAYS("the screen of a null text on bytes",
         tsivareza_screen_kept(0, bytes, 0, bytes, 0, places, 0, 0, 0, 0, 0, 0, 0, TSIVAREZA_WRAP_NONE, 4, 1, 8, out), 0, 0, 1, 0, 0, 0);
    SAYS("the viewport of a null text", tsivareza_viewport_u32(0, none, 0, 0, 0, 0, 0, 0, 1, 0, out), 0, 0, 0, 0);
    SAYS("the viewport of a null text on bytes", tsivareza_viewport(0, bytes, 0, places, 0, 0, 0, 0, 0, 0, 1, 0, out), 0, 0, 0, 0);
    SAYS("nothing decoded", (uint32_t)tsivareza_utf8_decode(bytes, 0, places, 0, out), 0);
    SAYS("nothing encoded", tsivareza_utf8_encode_u32(none, 0, written, 0, out), 0);
    SAYS("nothing encoded on bytes", tsivareza_utf8_encode(bytes, 0, places, 0, written, 0, out), 0);
    REFUSES("folds into a null file", tsivareza_folds_write_u32(none, 0, none, 0, written, 0, out), 14);
    REFUSES("folds into a null file on bytes", tsivareza_folds_write(bytes, 0, bytes, 0, places, 0, written, 0, out), 14);
    REFUSES("a null fold file", tsivareza_folds_read_u32(none, 0, bytes, 0, places, 0, out), 18);
    REFUSES("a null fold file on bytes", tsivareza_folds_read(bytes, 0, bytes, 0, places, 0, places, 0, out), 18);
    SAYS("an insert of nothing", tsivareza_insert_u32(places, 0, places, 0, none, 0, 0, 0, caret, sizes), out[0]);
    SAYS("an insert of nothing on bytes", tsivareza_insert(places, 0, places, 0, bytes, 0, places, 0, 0, 0, caret, sizes), out[0]);
    SAYS("a delete of nothing", tsivareza_delete(places, 0, places, 0, 0, 0, 0, 0, caret, sizes), out[0]);
    REFUSES("null row starts", tsivareza_row_starts_u32(none, 0, places, 0, out), 15);
    REFUSES("null row starts on bytes", tsivareza_row_starts(bytes, 0, places, 0, places, 0, out), 15);
    SAYS("row starts of a null text", tsivareza_row_starts_u32(none, 0, one, 1, sizes + 2), out[0]);
    SAYS("an insert of nothing that keeps them",
         tsivareza_insert_rows_u32(places, 0, places, 0, one, 1, none, 0, 0, 0, caret, sizes), out[0]);
    SAYS("an insert of nothing that keeps them on bytes",
         tsivareza_insert_rows(places, 0, places, 0, one, 1, bytes, 0, places, 0, 0, 0, caret, sizes), out[0]);
    SAYS("a delete of nothing that keeps them",
         tsivareza_delete_rows(places, 0, places, 0, one, 1, 0, 0, 0, 0, caret, sizes), out[0]);
    REFUSES("a motion with a null table", tsivareza_motion_rows_u32(TSIVAREZA_MOVE_BOTTOM, none, 0, none, 0, 1, 0, 0, 0, 0, 0, out), 15);
    REFUSES("a motion with a null table on bytes",
            tsivareza_motion_rows(TSIVAREZA_MOVE_BOTTOM, bytes, 0, none, 0, 1, places, 0, 0, 0, 0, 0, 0, out), 15);
    REFUSES("match_bracket with a null table", tsivareza_seek_rows_u32(TSIVAREZA_MATCH_BRACKET, none, 0, none, 0, 1, 0, 0, 0, 0, 0, out), 15);
    REFUSES("match_bracket with a null table on bytes",
            tsivareza_seek_rows(TSIVAREZA_MATCH_BRACKET, bytes, 0, none, 0, 1, places, 0, 0, 0, 0, 0, 0, out), 15);
    REFUSES("words with a null table",
            tsivareza_word_rows_u32(TSIVAREZA_MOVE_WORD_FWD, none, 0, none, 0, 1, none, 0, none, 0, 0, 0, 0, 0, 0, 1, out), 15);
    REFUSES("words with a null table on bytes",
            tsivareza_word_rows(TSIVAREZA_MOVE_WORD_FWD, bytes, 0, none, 0, 1, bytes, 0, bytes, 0, places, 0, 0, 0, 0, 0, 0, 1, out), 15);
    REFUSES("down with a null table",
            tsivareza_vertical_rows_u32(TSIVAREZA_MOVE_DOWN, none, 0, none, 0, 1, none, 0, 0, 0, 0, 0, 0, 0, 1, 8, out), 15);
    REFUSES("down with a null table on bytes",
            tsivareza_vertical_rows(TSIVAREZA_MOVE_DOWN, bytes, 0, none, 0, 1, bytes, 0, places, 0, 0, 0, 0, 0, 0, 0, 1, 8, out), 15);
    REFUSES("the screen with a null table",
            tsivareza_screen_kept_rows_u32(0, none, 0, none, 0, 1, none, 0, 0, 0, 0, 0, 0, 0, TSIVAREZA_WRAP_NONE, 4, 1, 8, out), 15);
    REFUSES("the screen with a null table on bytes",
            tsivareza_screen_kept_rows(0, bytes, 0, none, 0, 1, bytes, 0, places, 0, 0, 0, 0, 0, 0, 0, TSIVAREZA_WRAP_NONE, 4, 1, 8, out), 15);
    REFUSES("the viewport with a null table", tsivareza_viewport_rows_u32(0, none, 0, none, 0, 1, 0, 0, 0, 0, 0, 1, 0, out), 15);
    REFUSES("the viewport with a null table on bytes",
            tsivareza_viewport_rows(0, bytes, 0, none, 0, 1, places, 0, 0, 0, 0, 0, 0, 1, 0, out), 15);
    SAYS("no jumps", tsivareza_jumps_u32(none, 0, one, 1, 1, none, 0, none, 0, 0, 0, 0, 0, 0, 0, none, 0, places, 0, out), 0, 0, 0, 0, 0, 0);
    SAYS("no jumps on bytes",
         tsivareza_jumps(bytes, 0, bytes, 0, bytes, 0, places, 0, one, 1, 1, 0, 0, 0, 0, 0, 0, none, 0, places, 0, out), 0, 0, 0, 0, 0, 0);
    static const uint32_t kept[] = {0, 0, 1, 0};
    const uint32_t left[] = {sizes[0], sizes[1], sizes[2], one[0]};
    expect("the sizes and the table of nothing", 0, 0, left, kept, 4);
    static const char refused[] = "refused\n";
    int good = tsivareza_session(bytes, 0, printed) == sizeof refused - 1;
    for (size_t i = 0; i < sizeof refused - 1; i++) good = good && printed[i] == (uint8_t)refused[i];
    expect("the session of nothing", !good, 0, out, out, 0);
}

int main(void) {
    nothing_is_null();
    uint32_t out[9] = {7, 7, 7, 7, 7, 7, 7, 7, 7}, room[16], segments[4];
    static const uint32_t branch[] = {'i', 'f', ' ', '(', 'n', ')', ' ', '{', 10, '}'};
    static const uint32_t none[] = {0}, list[] = {'@', ',', '_'}, tab[] = {9, 'x'}, words[] = {'a', 'b', ' ', 'c', 'd'};
    static const uint8_t bytes[] = {'(', 0, 0, 0, '[', 0, 0, 0, ')', 0, 0, 0, ']', 0, 0, 0};
    static const uint8_t nothing[] = {0};

    SAYS("width", tsivareza_character(TSIVAREZA_WIDTH, 0x3042, out), 2);
    SAYS("is_keyword_char", tsivareza_keywords_u32(TSIVAREZA_IS_KEYWORD_CHAR, list, 3, 'z', out), 1);
    SAYS("cursor_visual_col", tsivareza_columns_u32(TSIVAREZA_CURSOR_VISUAL_COL, tab, 2, 0, 8, out), 7);
    SAYS("wrap_segments", tsivareza_wrap_segments_u32(TSIVAREZA_WRAP_WORD, words, 5, 4, segments, 4, out), 2);
    SAYS("segment_for_col", tsivareza_segment_for_col_u32(segments, 4, 3, out), 1);
    SAYS("visual_offset_for_char_col", tsivareza_offsets_u32(TSIVAREZA_VISUAL_OFFSET_FOR_CHAR_COL, words, 5, 3, 0, 4, out), 1);
    SAYS("content_row_count", tsivareza_content_row_count_u32(branch, 10, out), 2);
    SAYS("matching_bracket_pos", tsivareza_matching_bracket_pos_u32(branch, 10, 0, 7, out), 1, 1, 0);
    static const uint32_t branch_starts[] = {0, 9}, jump_pairs[] = {TSIVAREZA_JUMP_WORD_FWD, 1, TSIVAREZA_JUMP_MATCH_BRACKET, 0};
    uint32_t jump_places[4];
    SAYS("jumps", tsivareza_jumps_u32(branch, 10, branch_starts, 2, 2, none, 0, list, 3, 0, 0, 0, 0, 0, 0, jump_pairs, 4, jump_places, 4, out), 0, 5, 0, 0, 0, 0);
    REFUSES("too few places for jumps", tsivareza_jumps_u32(branch, 10, branch_starts, 2, 2, none, 0, list, 3, 0, 0, 0, 0, 0, 0, jump_pairs, 4, jump_places, 3, out), 14);
    SAYS("matching_bracket_pos on bytes", tsivareza_matching_bracket_pos(bytes, 16, room, 4, 0, 0, out), 1, 0, 2);
    SAYS("inner_pair", tsivareza_inner_pair_u32(TSIVAREZA_CURLY, branch, 10, 0, 8, out), 1, 0, 8, 1, 0, 0, 7, 1, 1);
    SAYS("inner_pair on bytes", tsivareza_inner_pair(TSIVAREZA_SQUARE, bytes, 16, room, 4, 0, 2, out), 1, 0, 2, 0, 3, 0, 1, 0, 4);
    SAYS("no inner_pair", tsivareza_inner_pair_u32(TSIVAREZA_ANGLE, branch, 10, 0, 8, out), 0, 0, 0, 0, 0, 0, 0, 0, 0);
    SAYS("move_line_end", tsivareza_motion_u32(TSIVAREZA_MOVE_LINE_END, branch, 10, 0, 0, 1, 5, 0, out), 0, 7, 1, 5);
    SAYS("move_word_fwd", tsivareza_word_u32(TSIVAREZA_MOVE_WORD_FWD, branch, 10, none, 0, list, 3, 0, 0, 0, 0, 0, 1, out), 0, 3, 0, 0);
    SAYS("move_word_end on bytes",
         tsivareza_word(TSIVAREZA_MOVE_WORD_END, bytes, 16, nothing, 0, nothing, 0, room, 4, 0, 0, 0, 0, 1, 1, out), 0, 3, 0, 0);
    SAYS("move_down", tsivareza_vertical_u32(TSIVAREZA_MOVE_DOWN, branch, 10, none, 0, 0, 7, 0, 0, 0, 0, 1, 8, out), 1, 0, 1, 7);
    SAYS("move_screen_down",
         tsivareza_vertical_u32(TSIVAREZA_MOVE_SCREEN_DOWN, branch, 10, none, 0, 0, 1, 0, 0, TSIVAREZA_WRAP_CHAR, 4, 1, 8, out), 0, 5, 1, 1);
    SAYS("move_screen_down_kept",
         tsivareza_screen_kept_u32(TSIVAREZA_MOVE_SCREEN_DOWN_KEPT, words, 5, none, 0, 0, 2, 1, 1, 1, 1, TSIVAREZA_WRAP_WORD, 2, 1, 8, out),
         0, 4, 1, 1, 1, 1);
    SAYS("move_screen_up_kept on bytes",
         tsivareza_screen_kept(TSIVAREZA_MOVE_SCREEN_UP_KEPT, bytes, 16, nothing, 0, room, 4, 0, 4, 0, 0, 0, 0, TSIVAREZA_WRAP_CHAR, 2, 1, 8, out),
         0, 1, 1, 4, 1, 2);
    SAYS("move_viewport_bottom", tsivareza_viewport_u32(TSIVAREZA_MOVE_VIEWPORT_BOTTOM, branch, 10, 0, 0, 0, 0, 0, 9, 0, out), 1, 0, 0, 0);
    SAYS("match_bracket", tsivareza_seek_u32(TSIVAREZA_MATCH_BRACKET, branch, 10, 0, 4, 0, 0, 0, out), 1, 0, 3, 0, 0);
    SAYS("find till", tsivareza_seek_u32(TSIVAREZA_FIND + TSIVAREZA_FIND_FORWARD + TSIVAREZA_FIND_TILL, branch, 10, 0, 0, 0, 0, '{', out),
         1, 0, 6, 0, 0);

    /* Two arrows in two cells each: with the flag on the operation, or on the mode. */
    static const uint32_t arrows[] = {0x2192, 0x2192, 10, 'a', 'b', 'c'};
    SAYS("a wide arrow", tsivareza_character(TSIVAREZA_WIDTH + TSIVAREZA_WIDE, 0x2192, out), 2);
    SAYS("columns of arrows", tsivareza_columns_u32(TSIVAREZA_CHAR_COL_TO_VISUAL_COL + TSIVAREZA_WIDE, arrows, 2, 1, 8, out), 2);
    SAYS("wrapped arrows", tsivareza_wrap_segments_u32(TSIVAREZA_WRAP_CHAR + TSIVAREZA_WIDE, arrows, 2, 2, segments, 4, out), 2);
    SAYS("cells of arrows", tsivareza_offsets_u32(TSIVAREZA_VISUAL_OFFSET_FOR_CHAR_COL + TSIVAREZA_WIDE, arrows, 2, 0, 0, 2, out), 4);
    SAYS("down from an arrow", tsivareza_vertical_u32(TSIVAREZA_MOVE_DOWN + TSIVAREZA_WIDE, arrows, 6, none, 0, 0, 1, 0, 0, 0, 0, 1, 8, out),
         1, 2, 1, 2);
    SAYS("narrow", tsivareza_vertical_u32(TSIVAREZA_MOVE_DOWN, arrows, 6, none, 0, 0, 1, 0, 0, 0, 0, 1, 8, out), 1, 1, 1, 1);
    REFUSES("a letter under wide", tsivareza_character(TSIVAREZA_IS_LETTER + TSIVAREZA_WIDE, 'a', out), 100);
    REFUSES("a motion under wide", tsivareza_motion_u32(TSIVAREZA_MOVE_LEFT + TSIVAREZA_WIDE, arrows, 6, 0, 1, 0, 0, 1, out), 100);
    REFUSES("the flag twice", tsivareza_columns_u32(TSIVAREZA_CURSOR_VISUAL_COL + 512, arrows, 2, 1, 8, out), 100);
    REFUSES("the flag on the mode of down",
            tsivareza_vertical_u32(TSIVAREZA_MOVE_DOWN, arrows, 6, none, 0, 0, 1, 0, 0, TSIVAREZA_WIDE, 0, 1, 8, out), 100);

    REFUSES("white space of a surrogate", tsivareza_character(TSIVAREZA_IS_WHITE, 0xD800, out), 2);
    REFUSES("a letter above U+10FFFF", tsivareza_character(TSIVAREZA_IS_LETTER, 0x110000, out), 2);
    REFUSES("the width of a surrogate", tsivareza_character(TSIVAREZA_WIDTH, 0xDFFF, out), 2);
    REFUSES("no such fact", tsivareza_character(4, 0xD800, out), 100);
    SAYS("is_scalar of a surrogate", tsivareza_character(TSIVAREZA_IS_SCALAR, 0xD800, out), 0);
    REFUSES("a caret outside", tsivareza_motion_u32(TSIVAREZA_MOVE_TOP, branch, 10, 2, 0, 0, 0, 0, out), 4);
    REFUSES("inner_pair past the row's end", tsivareza_inner_pair_u32(TSIVAREZA_CURLY, branch, 10, 0, 9, out), 4);
    REFUSES("no such kind", tsivareza_inner_pair_u32(4, branch, 10, 9, 9, out), 100);
    REFUSES("no such motion", tsivareza_motion_u32(99, branch, 10, 0, 0, 0, 0, 0, out), 100);
    REFUSES("no such move that remembers",
            tsivareza_screen_kept_u32(2, branch, 10, none, 0, 9, 0, 0, 0, 1, 3, TSIVAREZA_WRAP_CHAR, 2, 1, 8, out), 100);
    REFUSES("no such mode of down", tsivareza_vertical_u32(TSIVAREZA_MOVE_DOWN, branch, 10, none, 0, 9, 0, 0, 0, 3, 0, 1, 8, out), 100);

    /* UTF-8 both ways; 13 has its place in the high half, and leaves everything. */
    static const uint8_t accents[] = {0xC3, 0xA9, 0xE2, 0x86, 0x92}, bad[] = {'a', 0xED, 0xA0, 0x80}, four[] = {0xE9, 0, 0, 0};
    uint8_t back[5] = {7, 7, 7, 7, 7};
    SAYS("utf8_decode", (uint32_t)tsivareza_utf8_decode(accents, 5, room, 2, out), 2);
    SAYS("utf8_encode", tsivareza_utf8_encode_u32(room, 2, back, 5, out), 5);
    for (int i = 0; i < 5; i++) expect("a byte of UTF-8", back[i], accents[i], out, out, 0);
    SAYS("utf8_encode on bytes", tsivareza_utf8_encode(four, 4, room, 1, back, 2, out), 2);
    uint64_t told = 0;
    REFUSES("bad UTF-8", (uint32_t)(told = tsivareza_utf8_decode(bad, 4, room, 1, out)), 13);
    expect("the place of bad UTF-8", (uint32_t)(told >> 32), 2, out, out, 0);
    REFUSES("too little room for UTF-8", (uint32_t)tsivareza_utf8_decode(accents, 5, room, 1, out), 14);

    /* A keyword list with a retired sign: 21 has its place in the high half; and the list without it. */
    static const uint32_t signed_list[] = {'5', ',', '+', '4'}, plain_list[] = {'5', ',', '4', 7};
    static const uint8_t signed_bytes[] = {'+', 0, 0, 0, '4', 0, 0, 0};
    uint32_t written[4] = {7, 7, 7, 7};
    REFUSES("a retired sign", (uint32_t)(told = tsivareza_enter_u32(TSIVAREZA_ENTER, signed_list, 4, 0, out)), 21);
    expect("the place of a retired sign", (uint32_t)(told >> 32), 2, out, out, 0);
    SAYS("without_plus", tsivareza_without_plus_u32(signed_list, 4, written, 3, out), 3);
    expect("a list without its sign", 0, 0, written, plain_list, 4);
    SAYS("enter", (uint32_t)tsivareza_enter_u32(TSIVAREZA_ENTER, written, 3, 0, out), 2);
    SAYS("enter, and match", (uint32_t)tsivareza_enter_u32(TSIVAREZA_ENTER_MATCHES, written, 3, 4, out), 1);
    REFUSES("a retired sign in bytes", (uint32_t)tsivareza_enter(TSIVAREZA_ENTER, signed_bytes, 8, room, 2, 0, out), 21);
    SAYS("without_plus on bytes", tsivareza_without_plus(signed_bytes, 8, room, 2, written, 1, out), 1);
    REFUSES("too little room for a list", tsivareza_without_plus_u32(signed_list, 4, written, 2, out), 14);

    /* A list of Vim's: a to c but b; written without its zeros; and 17 with its place. */
    static const uint32_t vim_list[] = {'a', '-', '0', '9', '9', ',', '^', 'b'}, vim_plain[] = {'a', '-', '9', '9', ',', '^', 'b', 7};
    static const uint8_t vim_bytes[] = {'^', 0, 0, 0, '-', 0, 0, 0, '~', 0, 0, 0};
    uint32_t vim_written[8] = {7, 7, 7, 7, 7, 7, 7, 7};
    SAYS("a Vim list", (uint32_t)tsivareza_vim_list_u32(TSIVAREZA_VIM_PARSE, vim_list, 8, 0, out), 2);
    SAYS("c by it", (uint32_t)tsivareza_vim_list_u32(TSIVAREZA_VIM_MATCHES, vim_list, 8, 'c', out), 1);
    SAYS("b by it", (uint32_t)tsivareza_vim_list_u32(TSIVAREZA_VIM_MATCHES, vim_list, 8, 'b', out), 0);
    REFUSES("a Vim list that goes wrong", (uint32_t)(told = tsivareza_vim_list(TSIVAREZA_VIM_PARSE, vim_bytes, 12, room, 3, 0, out)), 17);
    expect("the place where it does", (uint32_t)(told >> 32), 2, out, out, 0);
    REFUSES("too little room for a Vim list", (uint32_t)tsivareza_vim_write_u32(vim_list, 8, vim_written, 6, out), 14);
    SAYS("a Vim list written", (uint32_t)tsivareza_vim_write_u32(vim_list, 8, vim_written, 8, out), 7);
    expect("without its zeros", 0, 0, vim_written, vim_plain, 8);
    SAYS("and from bytes", (uint32_t)tsivareza_vim_write(vim_bytes, 8, room, 2, vim_written, 2, out), 2);

    /* The word motions by a list of Vim's: a word of a to c but b, and 17 with its place. */
    static const uint32_t vim_text[] = {'a', 'b', 'c', ' ', 'a'};
    SAYS("w by a Vim list",
         (uint32_t)tsivareza_word_vim_u32(TSIVAREZA_MOVE_WORD_FWD, vim_text, 5, none, 0, vim_list, 8, 0, 0, 0, 0, 0, 1, out), 0, 1, 0, 0);
    SAYS("W by a Vim list",
         (uint32_t)tsivareza_word_vim_u32(TSIVAREZA_MOVE_WORD_FWD, vim_text, 5, none, 0, vim_list, 8, 0, 0, 0, 0, 1, 1, out), 0, 4, 0, 0);
    REFUSES("w by a Vim list that goes wrong",
            (uint32_t)(told = tsivareza_word_vim(TSIVAREZA_MOVE_WORD_FWD, nothing, 0, nothing, 0, vim_bytes, 12, room, 3, 0, 0, 0, 0, 0, 1, out)),
            17);
    expect("the place where it does", (uint32_t)(told >> 32), 2, out, out, 0);

    /* The second engine: the classes of the places, and the motions by them. */
    static const uint8_t branch_classes[] = {0, 0, 2, 1, 0, 1, 2, 1, 4, 1, 4, 7};
    uint8_t classes[12] = {7, 7, 7, 7, 7, 7, 7, 7, 7, 7, 7, 7};
    REFUSES("too few places for classes", tsivareza_word_classes_u32(branch, 10, list, 3, classes, 10, out), 14);
    expect("no class on a refusal", classes[0], 7, out, out, 0);
    SAYS("word_classes", tsivareza_word_classes_u32(branch, 10, list, 3, classes, 12, out), 11);
    for (int i = 0; i < 12; i++) expect("a class", classes[i], branch_classes[i], out, out, 0);
    SAYS("word_by_class",
         tsivareza_word_by_class_u32(TSIVAREZA_MOVE_WORD_FWD, branch, 10, none, 0, list, 3, 0, 0, 0, 0, 0, 1, classes, 12, out), 0, 3, 0, 0);
    SAYS("word_classes on bytes", tsivareza_word_classes(bytes, 16, nothing, 0, room, 4, classes, 5, out), 5);
    expect("a mark in bytes", classes[0], TSIVAREZA_CLASS_MARK, out, out, 0);
    SAYS("word_by_class on bytes",
         tsivareza_word_by_class(TSIVAREZA_MOVE_WORD_END, bytes, 16, nothing, 0, nothing, 0, room, 4, 0, 0, 0, 0, 1, 1, classes, 5, out),
         0, 3, 0, 0);

    /* Edits: three code points in five places, and a fold over both rows. */
    uint32_t page[] = {'a', 10, 'b', 0, 0}, fold[] = {0, 1, 1}, caret[] = {0, 1, 1, 7, 0, 0}, sizes[] = {3, 1};
    static const uint32_t put[] = {'x', 10}, longer[] = {'a', 'x', 10, 10, 'b'}, shorter[] = {'a', 'b', 0, 0, 0};
    static const uint32_t shifted[] = {1, 0, 0, 0, 0, 0}, returned[] = {0, 1, 0, 0, 0, 0}, five[] = {5, 1}, two[] = {2, 0};
    expect("insert", tsivareza_insert_u32(page, 5, fold, 3, put, 2, 0, 1, caret, sizes), 0, page, longer, 5);
    expect("the caret after an insert", 0, 0, caret, shifted, 6);
    expect("the sizes after an insert", fold[1], 2, sizes, five, 2);
    expect("no room", tsivareza_insert_u32(page, 5, fold, 3, put, 1, 0, 1, caret, sizes), 12, page, longer, 5);
    expect("delete", tsivareza_delete(page, 5, fold, 3, 0, 1, 2, 0, caret, sizes), 0, page, shorter, 5);
    expect("the caret after a delete", 0, 0, caret, returned, 6);
    expect("the sizes after a delete", fold[1], 0, sizes, two, 2);

    /* Row starts: filled, kept in an edit, and refused where they are not the text's. */
    uint32_t lines[] = {'a', 10, 'b', 0}, starts[] = {9, 9, 9, 9}, home[] = {0, 0, 0, 0, 0, 0}, held[] = {3, 0, 0};
    static const uint32_t row_places[] = {0, 2, 9, 9}, later_places[] = {0, 2, 4, 9}, later_sizes[] = {4, 0, 2};
    expect("row starts", tsivareza_row_starts_u32(lines, 3, starts, 4, held + 2), 0, starts, row_places, 4);
    expect("an insert that keeps them", tsivareza_insert_rows_u32(lines, 4, fold, 0, starts, 4, put + 1, 1, 1, 1, home, held), 0, starts, later_places, 4);
    expect("the sizes then", 0, 0, held, later_sizes, 3);
    expect("too few places", tsivareza_row_starts_u32(lines, 4, starts, 2, held + 2), 15, starts, later_places, 4);
    /* The motions with them: `a`, `b` and an empty row. */
    SAYS("move_bottom with row starts", tsivareza_motion_rows_u32(TSIVAREZA_MOVE_BOTTOM, lines, 4, starts, 4, 2, 0, 0, 1, 5, 0, out), 1, 0, 1, 5);
    SAYS("move_word_fwd with row starts",
         tsivareza_word_rows_u32(TSIVAREZA_MOVE_WORD_FWD, lines, 4, starts, 4, 2, none, 0, list, 3, 0, 0, 0, 0, 0, 1, out), 1, 0, 0, 0);
    SAYS("move_down with row starts",
         tsivareza_vertical_rows_u32(TSIVAREZA_MOVE_DOWN, lines, 4, starts, 4, 2, none, 0, 0, 0, 0, 0, 0, 0, 2, 8, out), 2, 0, 1, 0);
    SAYS("move_screen_down_kept with row starts",
         tsivareza_screen_kept_rows_u32(TSIVAREZA_MOVE_SCREEN_DOWN_KEPT, lines, 4, starts, 4, 2, none, 0, 0, 0, 1, 0, 1, 3, TSIVAREZA_WRAP_CHAR, 2, 1, 8, out),
         1, 0, 1, 0, 1, 3);
    SAYS("move_viewport_bottom with row starts",
         tsivareza_viewport_rows_u32(TSIVAREZA_MOVE_VIEWPORT_BOTTOM, lines, 4, starts, 4, 2, 0, 0, 0, 0, 0, 9, 0, out), 1, 0, 0, 0);
    SAYS("find with row starts",
         tsivareza_seek_rows_u32(TSIVAREZA_FIND + TSIVAREZA_FIND_FORWARD, lines, 4, starts, 4, 2, 1, 0, 0, 0, 'a', out), 0, 1, 0, 0, 0);
    SAYS("match_bracket on bytes with row starts", tsivareza_seek_rows(TSIVAREZA_MATCH_BRACKET, bytes, 16, starts, 1, 1, room, 4, 0, 0, 0, 0, 0, out),
         1, 0, 2, 0, 0);
    SAYS("move_word_end on bytes with row starts",
         tsivareza_word_rows(TSIVAREZA_MOVE_WORD_END, bytes, 16, starts, 1, 1, nothing, 0, nothing, 0, room, 4, 0, 0, 0, 0, 1, 1, out), 0, 3, 0, 0);
    REFUSES("a motion with too few places", tsivareza_motion_rows_u32(TSIVAREZA_MOVE_TOP, lines, 4, starts, 2, 2, 0, 0, 0, 0, 0, out), 15);
    REFUSES("a motion with another count", tsivareza_motion_rows_u32(TSIVAREZA_MOVE_TOP, lines, 4, starts, 4, 3, 0, 0, 0, 0, 0, out), 16);
    REFUSES("4 before 15", tsivareza_motion_rows_u32(TSIVAREZA_MOVE_TOP, lines, 4, starts, 0, 2, 3, 0, 0, 0, 0, out), 4);
    REFUSES("100 before 4", tsivareza_motion_rows_u32(21, lines, 4, starts, 0, 2, 3, 0, 0, 0, 0, out), 100);

    starts[1] = 1;
    expect("another table", tsivareza_delete_rows(lines, 4, fold, 0, starts, 4, 0, 0, 0, 1, home, held), 16, held, later_sizes, 3);

    /* Folds in a file and back; a byte changed is refused, and leaves everything. */
    static const uint32_t folded[] = {0, 1, 1};
    static uint8_t file[512];
    uint32_t folds[3] = {7, 7, 7};
    SAYS("folds_write", tsivareza_folds_write_u32(branch, 10, folded, 3, file, 512, out), 512);
    SAYS("folds_read", tsivareza_folds_read_u32(branch, 10, file, 512, folds, 3, out), 1);
    expect("the folds read", 0, 0, folds, folded, 3);
    REFUSES("a file cut off", tsivareza_folds_read_u32(branch, 10, file, 511, folds, 3, out), 18);
    file[8] = 0;
    REFUSES("a byte changed", tsivareza_folds_read_u32(branch, 10, file, 512, folds, 3, out), 19);
    REFUSES("too little room for a file", tsivareza_folds_write_u32(branch, 10, folded, 3, file, 511, out), 14);

    /* 101, 102 and 100, each before the next and before 4; the room is written to from 100 on. */
    static const uint32_t kept[] = {7, 7, 7, 7, 7}, filled[] = {'(', '[', ')', ']', 7};
    for (int i = 0; i < 5; i++) room[i] = 7;
    REFUSES("half a code point", tsivareza_motion(99, bytes, 15, room, 3, 9, 0, 0, 0, 0, out), 101);
    REFUSES("too little room", tsivareza_motion(99, bytes, 16, room, 3, 9, 0, 0, 0, 0, out), 102);
    expect("the room before 100", 0, 0, room, kept, 5);
    REFUSES("no such motion on bytes", tsivareza_motion(99, bytes, 16, room, 5, 9, 0, 0, 0, 0, out), 100);
    expect("the room after 100", 0, 0, room, filled, 5);
    REFUSES("a caret outside, on bytes", tsivareza_motion(TSIVAREZA_MOVE_TOP, bytes, 8, room, 5, 9, 0, 0, 0, 0, out), 4);
    expect("the room after 4", 0, 0, room, filled, 5);

    static uint8_t printed[TSIVAREZA_SESSION_ROOM];
    static const char input[] = "$\n%\n.\n(a)\n", wanted[] = "$ 0 2\n% 0 0\n";
    int good = tsivareza_session((const uint8_t *)input, sizeof input - 1, printed) == sizeof wanted - 1;
    for (size_t i = 0; i < sizeof wanted - 1; i++) good = good && printed[i] == (uint8_t)wanted[i];
    if (!good) {
        printf("FAILED: the session\n");
        failed = 1;
    }
    if (!failed) printf("the header and the archive agree\n");
    return failed;
}
