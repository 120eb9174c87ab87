/* The C doors of crates/doors (specification, 'The doors'). Each slice is a pointer and then its length, in bytes;
   the length of `pieces` counts 32-bit numbers. A row is 16 bytes: what, kind, start, end, little-endian.
   Each returns the refusal or 0, and fills the report: three little-endian eight-byte numbers, named below; on a
   refusal its place, 0 and 0. Refusal 11, a report of other than 24 bytes, comes first and changes nothing.
   After 4, 5 and 7 to 10 the other slices that a door writes are all 0; after the rest they are unchanged.
   Nothing tests the pointers: each is valid for its length and not null, `pieces` is aligned for 32 bits, and no
   slice that a door writes overlaps another. */
#ifndef FURZEWRENCH_DOORS_H
#define FURZEWRENCH_DOORS_H

#include <stddef.h>
#include <stdint.h>

#ifdef __cplusplus
extern "C" {
#endif

/* length, inserted commas, plain; style 0 SameLine, 1 Allman */
uint32_t rl_layout(uint32_t style, uint32_t indent_width, uint32_t signature_width, uint32_t list_width,
                   const uint8_t *rows, size_t rows_len, const uint8_t *text, size_t text_len, uint8_t *out,
                   size_t out_len, uint8_t *report, size_t report_len);

/* the same, by the default options 1, 4, 40, 40 and after the shebang line of `source`, where it has one */
uint32_t rl_layout_source(const uint8_t *source, size_t source_len, const uint8_t *rows, size_t rows_len,
                          const uint8_t *text, size_t text_len, uint8_t *out, size_t out_len, uint8_t *report,
                          size_t report_len);

/* rows, text bytes, 0 */
uint32_t rl_read_sheet(const uint8_t *sheet, size_t sheet_len, uint8_t *rows, size_t rows_len, uint8_t *text,
                       size_t text_len, uint8_t *report, size_t report_len);

/* pieces, 0, 0; each piece is its start and its end */
uint32_t rl_read_pieces(const uint8_t *text, size_t text_len, uint32_t *pieces, size_t pieces_len, uint8_t *report,
                        size_t report_len);

/* 1 where a space is needed between tokens of the two kinds, else 0; 0, 0 */
uint32_t rl_needs_space(uint32_t first, uint32_t second, uint8_t *report, size_t report_len);

#ifdef __cplusplus
}
#endif

#endif
