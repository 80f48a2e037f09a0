/* The proved calls of tsivareza for C. Link with libexports.a (x86-64 Linux).
 *
 * A call but the session answers 0 and puts its answer into `out`, or answers a number and leaves
 * `out` as it was:
 *     1  over 1,048,576 code points          6  a tabstop above 1,000
 *     2  a value that is no scalar value     7  a keyword list over 1,024 code points, or with such a value
 *     3  U+000B, C, D, U+0085, U+2028, 9     8  over 128 tokens kept of a keyword list
 *     4  a position outside the text         9  too little room for the segments
 *     5  wrong folds                        10  segments of odd length
 *    13  bytes that are no UTF-8            14  too little room to write into
 *    21  a retired plus sign in a keyword list, with its place
 *   100  no such operation, mode or kind   102  too little room for the code points
 *   101  bytes that make no whole points   103  an answer that no uint32_t holds
 * 101 comes first, then 102, then 100, for with one of these there is no call to be made; then the
 * lowest of 1 to 14 that applies. 103 stands in an answer's place, in tsivareza_segment_for_col alone, and
 * of tsivareza_utf8_decode it comes first of all, for over 4,294,967,295 bytes.
 *
 * A text, row or list goes as code points (the `_u32` forms), or as bytes, four to a code point, the
 * lowest first, with room for the code points: `room_len` counts uint32_t places, and where a call
 * takes several byte strings they share it. The code points are put at the start of the room before
 * the call looks at them, one string after the other, and stay there also where it is refused, for
 * there is no other place to read them in; the rest of the room is left as it was, and after 101 and
 * 102 all of it. Nothing else that is lent is changed by a refusal.
 *
 * A fold is three numbers: first row, last row, 1 where it is closed or else 0. A caret is its row and
 * column; `held` is 0 where it has no sticky column, else `sticky` is that column. Answers with a caret
 * hold row, column, held, sticky.
 *
 * The calls on widths take the flag TSIVAREZA_WIDE, added to `op`, or to `mode` of wrap_segments: each
 * character of class A (Ambiguous) of EastAsianWidth.txt whose width is 1, as an arrow, then takes two
 * cells. These are WIDTH, tab columns, wrap_segments, cells within a segment, up, down and the screen;
 * elsewhere the flag is 100, as any other number that stands for nothing.
 *
 * Where a length is 0 the pointer may be null: it is not read. Other pointers are not null, those to
 * `out`, a caret and the sizes included, and nothing that is written to overlaps anything else that is
 * lent. */
#ifndef TSIVAREZA_H
#define TSIVAREZA_H

#include <stddef.h>
#include <stdint.h>

#ifdef __cplusplus
extern "C" {
#endif

enum { TSIVAREZA_WIDE = 256 };

/* Characters: out[0] is 1 or 0, or the width. IS_SCALAR answers for every number; the others refuse
 * one that is no scalar value with 2. */
enum { TSIVAREZA_IS_SCALAR, TSIVAREZA_IS_WHITE, TSIVAREZA_IS_LETTER, TSIVAREZA_WIDTH };

uint32_t tsivareza_character(uint32_t op, uint32_t x, uint32_t out[1]);

/* Keyword lists: how many tokens are kept; whether the list's table, or the list read directly, holds x. */
enum { TSIVAREZA_PARSE, TSIVAREZA_MATCHES, TSIVAREZA_IS_KEYWORD_CHAR };

uint32_t tsivareza_keywords_u32(uint32_t op, const uint32_t *list, size_t list_len, uint32_t x,
                                uint32_t out[1]);
uint32_t tsivareza_keywords(uint32_t op, const uint8_t *list, size_t list_len, uint32_t *room,
                            size_t room_len, uint32_t x, uint32_t out[1]);

/* The entry of a keyword list, where the plus sign of a number that is kept is retired: how many tokens
 * are kept; whether the list's table holds x. A refusal has its number in the answer's low 32 bits and
 * its place in the high ones: 7, then 21, a retired sign, with the place of the first, then 8; else the
 * place is 0. A character that is no scalar value is 2, before these. */
enum { TSIVAREZA_ENTER, TSIVAREZA_ENTER_MATCHES };

uint64_t tsivareza_enter_u32(uint32_t op, const uint32_t *list, size_t list_len, uint32_t x,
                             uint32_t out[1]);
uint64_t tsivareza_enter(uint32_t op, const uint8_t *list, size_t list_len, uint32_t *room,
                         size_t room_len, uint32_t x, uint32_t out[1]);

/* A keyword list without its retired signs, written to the front of `written`; out[0] counts its code
 * points. Refuses 7, then 14 where `written` is too short. */
uint32_t tsivareza_without_plus_u32(const uint32_t *list, size_t list_len, uint32_t *written,
                                    size_t written_len, uint32_t out[1]);
uint32_t tsivareza_without_plus(const uint8_t *list, size_t list_len, uint32_t *room, size_t room_len,
                                uint32_t *written, size_t written_len, uint32_t out[1]);

/* Vim's own keyword lists. out[0]: how many tokens the list has; whether it holds x, 1 or 0. The answer's
 * low half is a refusal's number: 7, 17, 8; its high half the place that 17 has, the length of the longest
 * beginning that some list of the grammar has. A character that is no scalar value is 2, before these. */
enum { TSIVAREZA_VIM_PARSE, TSIVAREZA_VIM_MATCHES };

uint64_t tsivareza_vim_list_u32(uint32_t op, const uint32_t *list, size_t list_len, uint32_t x,
                                uint32_t out[1]);
uint64_t tsivareza_vim_list(uint32_t op, const uint8_t *list, size_t list_len, uint32_t *room,
                            size_t room_len, uint32_t x, uint32_t out[1]);

/* A Vim list read (7, 17, 8) and written to the front of `written`, each end as it was spelt; out[0] counts
 * its code points. Refuses 14 where `written` is too short. */
uint64_t tsivareza_vim_write_u32(const uint32_t *list, size_t list_len, uint32_t *written,
                                 size_t written_len, uint32_t out[1]);
uint64_t tsivareza_vim_write(const uint8_t *list, size_t list_len, uint32_t *room, size_t room_len,
                             uint32_t *written, size_t written_len, uint32_t out[1]);

/* Tab columns of a row. */
enum {
    TSIVAREZA_VISUAL_COL_TO_CHAR_COL,
    TSIVAREZA_CHAR_COL_TO_VISUAL_COL,
    TSIVAREZA_CURSOR_VISUAL_COL,
    TSIVAREZA_LEADING_VISUAL_WIDTH
};

uint32_t tsivareza_columns_u32(uint32_t op, const uint32_t *row, size_t row_len, uint32_t col,
                               uint32_t tabstop, uint32_t out[1]);
uint32_t tsivareza_columns(uint32_t op, const uint8_t *row, size_t row_len, uint32_t *room,
                           size_t room_len, uint32_t col, uint32_t tabstop, uint32_t out[1]);

/* Wrapping: modes; out[0] counts the segments, which stand in `segments` as start, end, start, end .. */
enum { TSIVAREZA_WRAP_NONE, TSIVAREZA_WRAP_CHAR, TSIVAREZA_WRAP_WORD };

uint32_t tsivareza_wrap_segments_u32(uint32_t mode, const uint32_t *row, size_t row_len, uint16_t width,
                                     uint32_t *segments, size_t segments_len, uint32_t out[1]);
uint32_t tsivareza_wrap_segments(uint32_t mode, const uint8_t *row, size_t row_len, uint32_t *room,
                                 size_t room_len, uint16_t width, uint32_t *segments,
                                 size_t segments_len, uint32_t out[1]);

/* The segment of a column. */
uint32_t tsivareza_segment_for_col_u32(const uint32_t *segments, size_t segments_len, uint32_t col,
                                       uint32_t out[1]);
uint32_t tsivareza_segment_for_col(const uint8_t *segments, size_t segments_len, uint32_t *room,
                                   size_t room_len, uint32_t col, uint32_t out[1]);

/* Cells within a segment: the character at a visual offset, and back (which takes no end). */
enum { TSIVAREZA_CHAR_COL_FOR_VISUAL_OFFSET, TSIVAREZA_VISUAL_OFFSET_FOR_CHAR_COL };

uint32_t tsivareza_offsets_u32(uint32_t op, const uint32_t *row, size_t row_len, uint32_t start,
                               uint32_t end, uint32_t at, uint32_t out[1]);
uint32_t tsivareza_offsets(uint32_t op, const uint8_t *row, size_t row_len, uint32_t *room,
                           size_t room_len, uint32_t start, uint32_t end, uint32_t at, uint32_t out[1]);

/* How many rows with content a text has. */
uint32_t tsivareza_content_row_count_u32(const uint32_t *text, size_t text_len, uint32_t out[1]);
uint32_t tsivareza_content_row_count(const uint8_t *text, size_t text_len, uint32_t *room,
                                     size_t room_len, uint32_t out[1]);

/* The partner of a bracket: 1, row, column, or 0, 0, 0 where it has none. */
uint32_t tsivareza_matching_bracket_pos_u32(const uint32_t *text, size_t text_len, uint32_t row,
                                            uint32_t col, uint32_t out[3]);
uint32_t tsivareza_matching_bracket_pos(const uint8_t *text, size_t text_len, uint32_t *room,
                                        size_t room_len, uint32_t row, uint32_t col, uint32_t out[3]);

/* The innermost pair of a kind around a position, which may stand on a bracket or at its row's end: 1,
 * then row and column of four positions, start and end of what stands between the brackets, start and
 * end of that with them; or nine times 0 where no pair of the kind encloses the position. A position
 * outside the text is refused with 4, as a caret is. */
enum { TSIVAREZA_ROUND, TSIVAREZA_SQUARE, TSIVAREZA_CURLY, TSIVAREZA_ANGLE };

uint32_t tsivareza_inner_pair_u32(uint32_t kind, const uint32_t *text, size_t text_len, uint32_t row,
                                  uint32_t col, uint32_t out[9]);
uint32_t tsivareza_inner_pair(uint32_t kind, const uint8_t *text, size_t text_len, uint32_t *room,
                              size_t room_len, uint32_t row, uint32_t col, uint32_t out[9]);

/* Edits of a text at the start of the buffer `text`, with its folds at the start of the buffer `folds`.
 * sizes: how many code points and how many folds they hold; caret: row, column, held, sticky, and `kept`
 * and `offset` of the screen moves that remember; an edit clears the last four. Both are read, and hold
 * the new numbers where the answer is 0; else nothing has changed. Insert puts `points` at a position,
 * delete takes away what stands from a position up to another. Places that become free are 0. Refused in
 * this order: 1, 2, 3 (text or points), 4 (the caret), 5, 11 (a position outside the text, or the second
 * before the first), 12 (too long). */
uint32_t tsivareza_insert_u32(uint32_t *text, size_t text_len, uint32_t *folds, size_t folds_len,
                              const uint32_t *points, size_t points_len, uint32_t row, uint32_t col,
                              uint32_t caret[6], uint32_t sizes[2]);
uint32_t tsivareza_insert(uint32_t *text, size_t text_len, uint32_t *folds, size_t folds_len,
                          const uint8_t *points, size_t points_len, uint32_t *room, size_t room_len,
                          uint32_t row, uint32_t col, uint32_t caret[6], uint32_t sizes[2]);
uint32_t tsivareza_delete(uint32_t *text, size_t text_len, uint32_t *folds, size_t folds_len, uint32_t row,
                          uint32_t col, uint32_t end_row, uint32_t end_col, uint32_t caret[6],
                          uint32_t sizes[2]);

/* Row starts: puts where each row of the text starts into the first places of `starts`, the last empty row
 * too, and how many rows have content into out[0]. Places behind the rows stay. Refused with 1, 2, 3, and
 * with 15 where there are fewer places than rows. */
uint32_t tsivareza_row_starts_u32(const uint32_t *text, size_t text_len, uint32_t *starts, size_t starts_len,
                                  uint32_t out[1]);
uint32_t tsivareza_row_starts(const uint8_t *text, size_t text_len, uint32_t *room, size_t room_len,
                              uint32_t *starts, size_t starts_len, uint32_t out[1]);

/* Edits that keep them: as insert and delete above, and `starts` and sizes[2], how many rows have content,
 * are those of the new text then. Places of `starts` that become free are 0. After 12 they are refused
 * with 15 where `starts` has fewer places than the text has rows, before the edit or after it, and with 16
 * where it or sizes[2] is not the text's. */
uint32_t tsivareza_insert_rows_u32(uint32_t *text, size_t text_len, uint32_t *folds, size_t folds_len,
                                   uint32_t *starts, size_t starts_len, const uint32_t *points,
                                   size_t points_len, uint32_t row, uint32_t col, uint32_t caret[6],
                                   uint32_t sizes[3]);
uint32_t tsivareza_insert_rows(uint32_t *text, size_t text_len, uint32_t *folds, size_t folds_len,
                               uint32_t *starts, size_t starts_len, const uint8_t *points, size_t points_len,
                               uint32_t *room, size_t room_len, uint32_t row, uint32_t col, uint32_t caret[6],
                               uint32_t sizes[3]);
uint32_t tsivareza_delete_rows(uint32_t *text, size_t text_len, uint32_t *folds, size_t folds_len,
                               uint32_t *starts, size_t starts_len, uint32_t row, uint32_t col,
                               uint32_t end_row, uint32_t end_col, uint32_t caret[6], uint32_t sizes[3]);

/* Motions of a text and a caret; a count of 0 acts as the Rust has it. */
enum {
    TSIVAREZA_MOVE_LEFT,
    TSIVAREZA_MOVE_RIGHT_IN_LINE,
    TSIVAREZA_MOVE_RIGHT_TO_END,
    TSIVAREZA_MOVE_SPACE_FWD,
    TSIVAREZA_MOVE_BACKSPACE_BACK,
    TSIVAREZA_MOVE_LINE_START,
    TSIVAREZA_MOVE_FIRST_NON_BLANK,
    TSIVAREZA_MOVE_LINE_END,
    TSIVAREZA_MOVE_GOTO_COLUMN,
    TSIVAREZA_MOVE_LAST_NON_BLANK,
    TSIVAREZA_MOVE_PARAGRAPH_PREV,
    TSIVAREZA_MOVE_PARAGRAPH_NEXT,
    TSIVAREZA_MOVE_SECTION_BACKWARD,
    TSIVAREZA_MOVE_SECTION_FORWARD,
    TSIVAREZA_MOVE_SECTION_END_BACKWARD,
    TSIVAREZA_MOVE_SECTION_END_FORWARD,
    TSIVAREZA_MOVE_FIRST_NON_BLANK_NEXT_LINE,
    TSIVAREZA_MOVE_FIRST_NON_BLANK_PREV_LINE,
    TSIVAREZA_MOVE_FIRST_NON_BLANK_LINE,
    TSIVAREZA_MOVE_TOP,
    TSIVAREZA_MOVE_BOTTOM
};

uint32_t tsivareza_motion_u32(uint32_t op, const uint32_t *text, size_t text_len, uint32_t row,
                              uint32_t col, uint32_t held, uint32_t sticky, uint32_t count,
                              uint32_t out[4]);
uint32_t tsivareza_motion(uint32_t op, const uint8_t *text, size_t text_len, uint32_t *room,
                          size_t room_len, uint32_t row, uint32_t col, uint32_t held, uint32_t sticky,
                          uint32_t count, uint32_t out[4]);

/* Word motions, big words where `big` is not 0; MOVE_WORD_END_BACK takes no folds. */
enum {
    TSIVAREZA_MOVE_WORD_FWD,
    TSIVAREZA_MOVE_WORD_BACK,
    TSIVAREZA_MOVE_WORD_END,
    TSIVAREZA_MOVE_WORD_END_STOP,
    TSIVAREZA_MOVE_WORD_END_BACK
};

uint32_t tsivareza_word_u32(uint32_t op, const uint32_t *text, size_t text_len, const uint32_t *folds,
                            size_t folds_len, const uint32_t *list, size_t list_len, uint32_t row,
                            uint32_t col, uint32_t held, uint32_t sticky, uint32_t big, uint32_t count,
                            uint32_t out[4]);
uint32_t tsivareza_word(uint32_t op, const uint8_t *text, size_t text_len, const uint8_t *folds,
                        size_t folds_len, const uint8_t *list, size_t list_len, uint32_t *room,
                        size_t room_len, uint32_t row, uint32_t col, uint32_t held, uint32_t sticky,
                        uint32_t big, uint32_t count, uint32_t out[4]);

/* The second engine of the word motions. The class of each place of a text, one for each code point and one
 * for its end, is written to the front of `classes`; out[0] counts them: text_len + 1. 14 where there are
 * fewer places, after all other refusals; the places past the classes stay, and all of them on a refusal. */
enum {
    TSIVAREZA_CLASS_WORD,
    TSIVAREZA_CLASS_MARK,
    TSIVAREZA_CLASS_SPACE,
    TSIVAREZA_CLASS_EMPTY_ROW,
    TSIVAREZA_CLASS_ROW_END
};

uint32_t tsivareza_word_classes_u32(const uint32_t *text, size_t text_len, const uint32_t *list,
                                    size_t list_len, uint8_t *classes, size_t classes_len,
                                    uint32_t out[1]);
uint32_t tsivareza_word_classes(const uint8_t *text, size_t text_len, const uint8_t *list,
                                size_t list_len, uint32_t *room, size_t room_len, uint8_t *classes,
                                size_t classes_len, uint32_t out[1]);

/* A word motion by the classes, by the numbers of tsivareza_word, and with its answer. */
uint32_t tsivareza_word_by_class_u32(uint32_t op, const uint32_t *text, size_t text_len,
                                     const uint32_t *folds, size_t folds_len, const uint32_t *list,
                                     size_t list_len, uint32_t row, uint32_t col, uint32_t held,
                                     uint32_t sticky, uint32_t big, uint32_t count, uint8_t *classes,
                                     size_t classes_len, uint32_t out[4]);
uint32_t tsivareza_word_by_class(uint32_t op, const uint8_t *text, size_t text_len, const uint8_t *folds,
                                 size_t folds_len, const uint8_t *list, size_t list_len, uint32_t *room,
                                 size_t room_len, uint32_t row, uint32_t col, uint32_t held,
                                 uint32_t sticky, uint32_t big, uint32_t count, uint8_t *classes,
                                 size_t classes_len, uint32_t out[4]);

/* A word motion by a list of Vim's grammar, by the numbers of tsivareza_word. The answer's low half is a
 * refusal's number, in the list's place 7, 17, 8; its high half the place that 17 has. */
uint64_t tsivareza_word_vim_u32(uint32_t op, const uint32_t *text, size_t text_len, const uint32_t *folds,
                                size_t folds_len, const uint32_t *list, size_t list_len, uint32_t row,
                                uint32_t col, uint32_t held, uint32_t sticky, uint32_t big, uint32_t count,
                                uint32_t out[4]);
uint64_t tsivareza_word_vim(uint32_t op, const uint8_t *text, size_t text_len, const uint8_t *folds,
                            size_t folds_len, const uint8_t *list, size_t list_len, uint32_t *room,
                            size_t room_len, uint32_t row, uint32_t col, uint32_t held, uint32_t sticky,
                            uint32_t big, uint32_t count, uint32_t out[4]);

/* Up, down and the screen; mode and width matter to the screen moves alone, but a mode above 2 is 100
 * for up and down too. */
enum {
    TSIVAREZA_MOVE_UP,
    TSIVAREZA_MOVE_DOWN,
    TSIVAREZA_MOVE_SCREEN_UP,
    TSIVAREZA_MOVE_SCREEN_DOWN
};

uint32_t tsivareza_vertical_u32(uint32_t op, const uint32_t *text, size_t text_len,
                                const uint32_t *folds, size_t folds_len, uint32_t row, uint32_t col,
                                uint32_t held, uint32_t sticky, uint32_t mode, uint16_t width,
                                uint32_t count, uint32_t tabstop, uint32_t out[4]);
uint32_t tsivareza_vertical(uint32_t op, const uint8_t *text, size_t text_len, const uint8_t *folds,
                            size_t folds_len, uint32_t *room, size_t room_len, uint32_t row,
                            uint32_t col, uint32_t held, uint32_t sticky, uint32_t mode, uint16_t width,
                            uint32_t count, uint32_t tabstop, uint32_t out[4]);

/* The screen moves that remember: a caret of six numbers, in and out. `kept` is 0 where the caret keeps
 * no offset within a segment, and `offset` is that; out is row, column, held, sticky, kept and offset.
 * With mode NONE or width 0 they move as up and down do, and keep no offset. Nor does the caret that any
 * other motion answers with, moved or not: hand kept 0 on after one. A refusal leaves it. */
enum { TSIVAREZA_MOVE_SCREEN_UP_KEPT, TSIVAREZA_MOVE_SCREEN_DOWN_KEPT };

uint32_t tsivareza_screen_kept_u32(uint32_t op, const uint32_t *text, size_t text_len,
                                   const uint32_t *folds, size_t folds_len, uint32_t row, uint32_t col,
                                   uint32_t held, uint32_t sticky, uint32_t kept, uint32_t offset,
                                   uint32_t mode, uint16_t width, uint32_t count, uint32_t tabstop,
                                   uint32_t out[6]);
uint32_t tsivareza_screen_kept(uint32_t op, const uint8_t *text, size_t text_len, const uint8_t *folds,
                               size_t folds_len, uint32_t *room, size_t room_len, uint32_t row,
                               uint32_t col, uint32_t held, uint32_t sticky, uint32_t kept,
                               uint32_t offset, uint32_t mode, uint16_t width, uint32_t count,
                               uint32_t tabstop, uint32_t out[6]);

/* The viewport: `offset` rows from its edge. TOP takes no height, MIDDLE no offset. */
enum { TSIVAREZA_MOVE_VIEWPORT_TOP, TSIVAREZA_MOVE_VIEWPORT_MIDDLE, TSIVAREZA_MOVE_VIEWPORT_BOTTOM };

uint32_t tsivareza_viewport_u32(uint32_t op, const uint32_t *text, size_t text_len, uint32_t row,
                                uint32_t col, uint32_t held, uint32_t sticky, uint32_t top,
                                uint16_t height, uint32_t offset, uint32_t out[4]);
uint32_t tsivareza_viewport(uint32_t op, const uint8_t *text, size_t text_len, uint32_t *room,
                            size_t room_len, uint32_t row, uint32_t col, uint32_t held, uint32_t sticky,
                            uint32_t top, uint16_t height, uint32_t offset, uint32_t out[4]);

/* Searches in the caret's row: MATCH_BRACKET, which seeks no character, or FIND plus any of the
 * flags. Answers 1 or 0, found or missing, and the caret. */
enum {
    TSIVAREZA_MATCH_BRACKET,
    TSIVAREZA_FIND,
    TSIVAREZA_FIND_FORWARD = 1,
    TSIVAREZA_FIND_TILL = 2,
    TSIVAREZA_FIND_SKIP_ADJACENT = 4
};

uint32_t tsivareza_seek_u32(uint32_t op, const uint32_t *text, size_t text_len, uint32_t row,
                            uint32_t col, uint32_t held, uint32_t sticky, uint32_t x, uint32_t out[5]);
uint32_t tsivareza_seek(uint32_t op, const uint8_t *text, size_t text_len, uint32_t *room,
                        size_t room_len, uint32_t row, uint32_t col, uint32_t held, uint32_t sticky,
                        uint32_t x, uint32_t out[5]);

/* motion, word, vertical, screen_kept, viewport and seek with row starts: each takes `starts`, `starts_len`
 * and `content` after the text, as tsivareza_row_starts and the edits leave them (its out[0], their
 * sizes[2]), and else what the call without them takes, and answers as that does. Where that gives no
 * refusal, it is 15 for fewer places than the text has rows, and 16 where `starts` or `content` is not the
 * text's. Places behind the rows are not looked at. `starts` is uint32_t in either form. */
uint32_t tsivareza_motion_rows_u32(uint32_t op, const uint32_t *text, size_t text_len,
                                   const uint32_t *starts, size_t starts_len, uint32_t content,
                                   uint32_t row, uint32_t col, uint32_t held, uint32_t sticky,
                                   uint32_t count, uint32_t out[4]);
uint32_t tsivareza_motion_rows(uint32_t op, const uint8_t *text, size_t text_len, const uint32_t *starts,
                               size_t starts_len, uint32_t content, uint32_t *room, size_t room_len,
                               uint32_t row, uint32_t col, uint32_t held, uint32_t sticky, uint32_t count,
                               uint32_t out[4]);
uint32_t tsivareza_word_rows_u32(uint32_t op, const uint32_t *text, size_t text_len, const uint32_t *starts,
                                 size_t starts_len, uint32_t content, const uint32_t *folds,
                                 size_t folds_len, const uint32_t *list, size_t list_len, uint32_t row,
                                 uint32_t col, uint32_t held, uint32_t sticky, uint32_t big, uint32_t count,
                                 uint32_t out[4]);
uint32_t tsivareza_word_rows(uint32_t op, const uint8_t *text, size_t text_len, const uint32_t *starts,
                             size_t starts_len, uint32_t content, const uint8_t *folds, size_t folds_len,
                             const uint8_t *list, size_t list_len, uint32_t *room, size_t room_len,
                             uint32_t row, uint32_t col, uint32_t held, uint32_t sticky, uint32_t big,
                             uint32_t count, uint32_t out[4]);
uint32_t tsivareza_vertical_rows_u32(uint32_t op, const uint32_t *text, size_t text_len,
                                     const uint32_t *starts, size_t starts_len, uint32_t content,
                                     const uint32_t *folds, size_t folds_len, uint32_t row, uint32_t col,
                                     uint32_t held, uint32_t sticky, uint32_t mode, uint16_t width,
                                     uint32_t count, uint32_t tabstop, uint32_t out[4]);
uint32_t tsivareza_vertical_rows(uint32_t op, const uint8_t *text, size_t text_len, const uint32_t *starts,
                                 size_t starts_len, uint32_t content, const uint8_t *folds,
                                 size_t folds_len, uint32_t *room, size_t room_len, uint32_t row,
                                 uint32_t col, uint32_t held, uint32_t sticky, uint32_t mode,
                                 uint16_t width, uint32_t count, uint32_t tabstop, uint32_t out[4]);
uint32_t tsivareza_screen_kept_rows_u32(uint32_t op, const uint32_t *text, size_t text_len,
                                        const uint32_t *starts, size_t starts_len, uint32_t content,
                                        const uint32_t *folds, size_t folds_len, uint32_t row, uint32_t col,
                                        uint32_t held, uint32_t sticky, uint32_t kept, uint32_t offset,
                                        uint32_t mode, uint16_t width, uint32_t count, uint32_t tabstop,
                                        uint32_t out[6]);
uint32_t tsivareza_screen_kept_rows(uint32_t op, const uint8_t *text, size_t text_len,
                                    const uint32_t *starts, size_t starts_len, uint32_t content,
                                    const uint8_t *folds, size_t folds_len, uint32_t *room, size_t room_len,
                                    uint32_t row, uint32_t col, uint32_t held, uint32_t sticky,
                                    uint32_t kept, uint32_t offset, uint32_t mode, uint16_t width,
                                    uint32_t count, uint32_t tabstop, uint32_t out[6]);
uint32_t tsivareza_viewport_rows_u32(uint32_t op, const uint32_t *text, size_t text_len,
                                     const uint32_t *starts, size_t starts_len, uint32_t content,
                                     uint32_t row, uint32_t col, uint32_t held, uint32_t sticky,
                                     uint32_t top, uint16_t height, uint32_t offset, uint32_t out[4]);
uint32_t tsivareza_viewport_rows(uint32_t op, const uint8_t *text, size_t text_len, const uint32_t *starts,
                                 size_t starts_len, uint32_t content, uint32_t *room, size_t room_len,
                                 uint32_t row, uint32_t col, uint32_t held, uint32_t sticky, uint32_t top,
                                 uint16_t height, uint32_t offset, uint32_t out[4]);
uint32_t tsivareza_seek_rows_u32(uint32_t op, const uint32_t *text, size_t text_len, const uint32_t *starts,
                                 size_t starts_len, uint32_t content, uint32_t row, uint32_t col,
                                 uint32_t held, uint32_t sticky, uint32_t x, uint32_t out[5]);
uint32_t tsivareza_seek_rows(uint32_t op, const uint8_t *text, size_t text_len, const uint32_t *starts,
                             size_t starts_len, uint32_t content, uint32_t *room, size_t room_len,
                             uint32_t row, uint32_t col, uint32_t held, uint32_t sticky, uint32_t x,
                             uint32_t out[5]);

/* Jumps over one text, which is checked once, each from where the one before ended. `pairs` holds a kind
 * and a count for each (MATCH_BRACKET's count is not used), `answers` takes a row and a column for each,
 * and out is the caret at the end, in six numbers as of the screen moves that remember. `starts` and
 * `content` are what tsivareza_row_starts made. Then 15, 16, 22 (a kind above 3, or an odd pairs_len) and
 * 14 (answers_len below pairs_len); a refusal writes no answer. A bracket that has no partner stays. */
enum {
    TSIVAREZA_JUMP_WORD_FWD,
    TSIVAREZA_JUMP_WORD_BACK,
    TSIVAREZA_JUMP_WORD_END,
    TSIVAREZA_JUMP_MATCH_BRACKET
};

uint32_t tsivareza_jumps_u32(const uint32_t *text, size_t text_len, const uint32_t *starts,
                             size_t starts_len, uint32_t content, const uint32_t *folds,
                             size_t folds_len, const uint32_t *list, size_t list_len, uint32_t row,
                             uint32_t col, uint32_t held, uint32_t sticky, uint32_t kept,
                             uint32_t offset, const uint32_t *pairs, size_t pairs_len,
                             uint32_t *answers, size_t answers_len, uint32_t out[6]);
uint32_t tsivareza_jumps(const uint8_t *text, size_t text_len, const uint8_t *folds, size_t folds_len,
                         const uint8_t *list, size_t list_len, uint32_t *room, size_t room_len,
                         const uint32_t *starts, size_t starts_len, uint32_t content, uint32_t row,
                         uint32_t col, uint32_t held, uint32_t sticky, uint32_t kept, uint32_t offset,
                         const uint32_t *pairs, size_t pairs_len, uint32_t *answers,
                         size_t answers_len, uint32_t out[6]);

/* UTF-8 by RFC 3629; out[0] counts the code points, or the bytes, which stand at the start of `points` or
 * `bytes`. Decoding answers 64 bits: in the low half 0 or the number, and in the high half, for 13 alone,
 * the place of the first byte that can't stand there, bytes_len where they are cut off. Encoding gives 1,
 * 2 and then 14. */
uint64_t tsivareza_utf8_decode(const uint8_t *bytes, size_t bytes_len, uint32_t *points,
                               size_t points_len, uint32_t out[1]);
uint32_t tsivareza_utf8_encode_u32(const uint32_t *points, size_t points_len, uint8_t *bytes,
                                   size_t bytes_len, uint32_t out[1]);
uint32_t tsivareza_utf8_encode(const uint8_t *points, size_t points_len, uint32_t *room,
                               size_t room_len, uint8_t *bytes, size_t bytes_len, uint32_t out[1]);

/* Folds in a file, in blocks of 512 bytes: puts the file of folds over a text at the start of `file`,
 * and how many bytes it has into out[0]; 1 to 3, 5, and then 14, too little room. Reads it back: puts
 * the folds at the start of `folds`, and how many there are into out[0]; 1 to 3, 18 a length that
 * isn't 1 to 5 blocks, 19 a sum that doesn't fit, 20 any other rule of the layout broken, 5 against
 * the text, and then 14. The file is bytes in either form. */
uint32_t tsivareza_folds_write_u32(const uint32_t *text, size_t text_len, const uint32_t *folds,
                                   size_t folds_len, uint8_t *file, size_t file_len, uint32_t out[1]);
uint32_t tsivareza_folds_write(const uint8_t *text, size_t text_len, const uint8_t *folds,
                               size_t folds_len, uint32_t *room, size_t room_len, uint8_t *file,
                               size_t file_len, uint32_t out[1]);
uint32_t tsivareza_folds_read_u32(const uint32_t *text, size_t text_len, const uint8_t *file,
                                  size_t file_len, uint32_t *folds, size_t folds_len, uint32_t out[1]);
uint32_t tsivareza_folds_read(const uint8_t *text, size_t text_len, const uint8_t *file,
                              size_t file_len, uint32_t *room, size_t room_len, uint32_t *folds,
                              size_t folds_len, uint32_t out[1]);

/* A session: command rows, a row with only a full stop, and a text, to the lines that they print.
 * Answers how many bytes of `out` those are; there is always room. */
enum { TSIVAREZA_SESSION_ROOM = 393240 };

size_t tsivareza_session(const uint8_t *input, size_t input_len, uint8_t out[393240]);

#ifdef __cplusplus
}
#endif
#endif
