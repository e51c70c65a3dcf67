/* Wagtailfen: a text builder that is proved, byte for byte. Link crates/wagtailfen/out/libwagtailfen.a, which
 * `rt lib` in crates/wagtailfen makes. Built for x86-64-v2.
 *
 * A slice is a pointer and then a length. The pointer of an empty slice is not null either: any aligned address that is
 * not null will do. A buffer that is written (out, left, middle, work) overlaps no other slice of the call.
 *
 * Each answer begins with a number: 0 accepted, else the refusal of document 01, section 8:
 *   1 work buffer too short            7 seventh dictionary, include or import level
 *   2 bundle breaks its layout         8 raw round that moves by nothing
 *   3 sheet breaks its layout          9 sheet, value or growing dictionary longer than the sheet buffer, or than 65,535 bytes
 *   4 path or folder rule broken      10 middle buffer too short
 *   5 file absent                     11 output buffer too short
 *   6 byte from 128 in a text or opened file
 * Refused: the other fields are 0 and every byte of a buffer that is written is 0.
 */
#ifndef WAGTAILFEN_H
#define WAGTAILFEN_H

#include <stdbool.h>
#include <stddef.h>
#include <stdint.h>

#ifdef __cplusplus
extern "C" {
#endif

/* What a path names in a sheet. kind: 0 missing, 1 none, 2 text, 3 dictionary. A text is the first len bytes of out, and 0 behind them; for
 * another kind len is 0, and so is every byte of out. An empty text and a missing name differ in kind alone. */
struct wf_resolved {
    uint8_t number;
    uint8_t kind;
    size_t len;
};

/* Refusals 3, 6, and 11 for a text longer than out: any other kind fits into 0 bytes. */
struct wf_resolved wf_resolve(const uint8_t *sheet, size_t sheet_len, const uint8_t *path, size_t path_len,
                              uint8_t *out, size_t out_len);

/* What a path is in a bundle. kind: 0 absent, 1 folder, 2 file. A file's content is the len bytes at start in the bundle;
 * otherwise start and len are 0. */
struct wf_found {
    uint8_t number;
    uint8_t kind;
    size_t start;
    size_t len;
};

/* Refusals 2, 4. */
struct wf_found wf_find_file(const uint8_t *bundle, size_t bundle_len, const uint8_t *path, size_t path_len);

/* A text that a call writes: the first len bytes of out, and 0 behind them. */
struct wf_text {
    uint8_t number;
    size_t len;
};

/* The text with its marks #include and #source-include resolved from the files of the bundle. folder is the folder of the
 * bundle where the text stands, or empty. Refusals 2, 4, 6 for the arguments; then whichever comes first in reading: 11 for
 * what is written, and 4, 5, 7, 6, in this order, for a file. */
struct wf_text wf_resolve_includes(const uint8_t *bundle, size_t bundle_len, const uint8_t *folder, size_t folder_len,
                                   const uint8_t *text, size_t text_len, uint8_t *out, size_t out_len);

/* An expansion: the first len bytes of out, the first sheet_len bytes of left, and 0 behind them. */
struct wf_expanded {
    uint8_t number;
    size_t len;
    size_t sheet_len;
};

/* The text with its references and its calls of #raw and #link expanded, and the sheet with the text's own bindings in left. sheet is
 * the one that the text begins with; #raw(read(...)) reads files of the bundle. Refusals 2, 3, 6 for the arguments, and 9 where the
 * sheet given is longer than left; then whichever comes first in reading: 9 for the sheet behind a #let, 11 for what is written, and
 * for a raw call 4, 5, 6 of its file, then 8. A left longer than 65,535 bytes counts as 65,535. */
struct wf_expanded wf_preprocess_typst(const uint8_t *bundle, size_t bundle_len, const uint8_t *text, size_t text_len,
                                       const uint8_t *sheet, size_t sheet_len, uint8_t *out, size_t out_len,
                                       uint8_t *left, size_t left_len);

/* The bindings of a definitions file: the first sheet_len bytes of left, and 0 behind them. */
struct wf_defined {
    uint8_t number;
    size_t sheet_len;
};

/* The bindings of the file at path, and of the files that it imports. L is left_len, or 65,535 where that is less. work has at least 16
 * times L bytes, else 1; it is 0 afterwards. Refusals 1, 2, 4, then 5, 6 for the file itself; then whichever comes first in reading: 9 for
 * a value, a growing dictionary or a sheet longer than L, 7 for a seventh dictionary level, and 4, 5, 7, 6, in this order, for an
 * imported file. */
struct wf_defined wf_parse_definitions(const uint8_t *bundle, size_t bundle_len, const uint8_t *path, size_t path_len,
                                       uint8_t *left, size_t left_len, uint8_t *work, size_t work_len);

/* A pass: the first len bytes of out, the first sheet_len bytes of left, and 0 behind them. closed: is the text closed (document 01,
 * section 6). What follows a closed text can be given to a further pass, which starts from the sheet that is left here; where one pass over
 * both texts is accepted, the two outputs joined are its output. */
struct wf_passed {
    uint8_t number;
    size_t len;
    size_t sheet_len;
    bool closed;
};

/* The text with its includes resolved, into middle, and then expanded, into out: both as the calls above do it. The sheet with the text's own
 * bindings is in left; middle is 0 afterwards. Refusals 2, 3, 4, 6 for the arguments, and 9 where the sheet given is longer than left; then
 * those of the includes, where a short middle is 10; then those of the expansion. */
struct wf_passed wf_pass(const uint8_t *bundle, size_t bundle_len, const uint8_t *folder, size_t folder_len,
                         const uint8_t *text, size_t text_len, const uint8_t *sheet, size_t sheet_len,
                         uint8_t *middle, size_t middle_len, uint8_t *out, size_t out_len,
                         uint8_t *left, size_t left_len);

/* An out of so many bytes is never too short for a test load, whatever its seed and list. */
#define WF_LOAD_ROOM 448

/* The test load of a seed (document 02, E2): pieces drawn from the list of definition pieces where definitions is true, else from that of
 * document pieces. Refusal 11 for a load longer than out. */
struct wf_text wf_test_load(uint32_t seed, bool definitions, uint8_t *out, size_t out_len);

#ifdef __cplusplus
}
#endif

#endif
