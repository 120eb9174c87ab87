/* furzewrench.h: the layout of rl source text, for C99 and C++11 or later. Token rows in, text out.

   The library is libdoors.a, for Linux on x86-64 (`tools/build.sh doors`). What each call answers is proved;
   this header is tested, not proved. "Specification" is docs/SPECIFICATION.md, cited by its sections.

   Take a text only where its layout reports plain 1. Such a text reads back as the lexemes that went in, with
   commas inserted before `]` or `}` and nothing else (specification, 'What the mark promises'). Plain 0
   promises nothing: it is no refusal, and yet the text may have lost tokens. A loader takes plain texts
   alone. Comments are one way to lose tokens: see enum rl_trivia. */
#ifndef FURZEWRENCH_H
#define FURZEWRENCH_H

#include <stddef.h>
#include <stdint.h>

#ifdef __cplusplus
extern "C" {
#endif

/* ---- The doors (specification, 'Calls', 'The doors')

   Each returns 0 or a refusal (enum rl_refusal), and fills `report`, of RL_REPORT_BYTES, with three numbers,
   which rl_get_report reads; after a refusal they are its place, 0 and 0. The caller lends all memory.
   Lengths are in bytes, that of `pieces` in 32-bit numbers. The end of this file says which sizes suffice,
   what a caller owes and what a call costs. */

/* Lays out the tokens that `rows` name in `text`. Reports the length, the number of inserted commas, and
   plain (1 or 0). The text is the first bytes of `out`, as many as the length; no byte 0 is put after it. */
uint32_t rl_layout(uint32_t style, uint32_t indent_width, uint32_t signature_width, uint32_t list_width,
                   const uint8_t *rows, size_t rows_len, const uint8_t *text, size_t text_len, uint8_t *out,
                   size_t out_len, uint8_t *report, size_t report_len);

/* The same by RL_DEFAULT_OPTIONS. Where the first line of `source` begins `#!` and not `#![`, it comes first
   in `out`, and plain is 0 (specification, 'The shebang wrapper'). */
uint32_t rl_layout_source(const uint8_t *source, size_t source_len, const uint8_t *rows, size_t rows_len,
                          const uint8_t *text, size_t text_len, uint8_t *out, size_t out_len, uint8_t *report,
                          size_t report_len);

/* Reads a sheet into rows and their text (specification, 'The sheet'). Reports the number of rows, that of
   the text's bytes, and 0. */
uint32_t rl_read_sheet(const uint8_t *sheet, size_t sheet_len, uint8_t *rows, size_t rows_len, uint8_t *text,
                       size_t text_len, uint8_t *report, size_t report_len);

/* Reads a text back (specification, 'Reading back'). A piece is two numbers in `pieces`: its start, and its
   end, not included. Reports the number of pieces, 0 and 0. */
uint32_t rl_read_pieces(const uint8_t *text, size_t text_len, uint32_t *pieces, size_t pieces_len,
                        uint8_t *report, size_t report_len);

/* Reports 1 where a space stands between tokens of two kinds, else 0 (specification, 'Spaces'); 0 and 0. */
uint32_t rl_needs_space(uint32_t first, uint32_t second, uint8_t *report, size_t report_len);

#ifdef __cplusplus
}
#endif

/* ---- Refusals (specification, 'Refusals'): when, and after the semicolon the place. After those marked Z
   each slice that the door writes, but for the report, is all 0; after the rest it is unchanged. After
   success what lies past the result is unchanged. */
enum rl_refusal {
    RL_REFUSAL_NONE = 0,
    RL_REFUSAL_OPTION = 1,       /* an option is out of bounds; its position, 0 to 3 */
    RL_REFUSAL_RAGGED = 2,       /* rows not of RL_ROW_BYTES each, or over RL_MAX_ROWS; 0 */
    RL_REFUSAL_BAD_ROW = 3,      /* a wrong number in a row, or rows out of order; the row, from 0.
                                    Of rl_needs_space: a kind over RL_MAX_KIND; 0 if the first, else 1 */
    RL_REFUSAL_DEEP = 4,         /* Z: a 65th broken list would be open; the token, by token rows from 0 */
    RL_REFUSAL_FULL = 5,         /* Z: the next byte does not fit `out`; the token. Lend more, call again */
    RL_REFUSAL_NO_NAMES = 6,     /* the sheet does not begin with its names line; 0 */
    RL_REFUSAL_BAD_LINE = 7,     /* Z: a line of the sheet breaks its form; the line, the names line is 0 */
    RL_REFUSAL_SHEET_FULL = 8,   /* Z: rows or text do not fit, or an index tops 4,294,967,295; the line */
    RL_REFUSAL_UNREADABLE = 9,   /* Z: a byte of no class, or a quote never closed; its index */
    RL_REFUSAL_PIECES_FULL = 10, /* Z: a piece does not fit, or its end tops 4,294,967,295; its start */
    RL_REFUSAL_REPORT = 11       /* the report is not of RL_REPORT_BYTES: it is unchanged, and has no place */
};

/* ---- Rows and options (specification, 'Rows', 'Kinds', 'Options')

   A row is four little-endian 32-bit numbers: what, kind, and the start and the end (not included) of its
   bytes in the text. rl_put_row writes one. Leading rows precede their token, trailing rows follow it. */
enum rl_bound {
    RL_ROW_BYTES = 16,
    RL_REPORT_BYTES = 24,
    RL_MAX_ROWS = 65535,
    RL_MAX_KIND = 34, /* of a token */
    RL_MAX_INDENT_WIDTH = 16,
    RL_MAX_WIDTH = 65535 /* of a signature, of a list */
};

enum rl_style {
    RL_STYLE_SAME_LINE = 0, /* the `{` of a block of several lines ends the line before it */
    RL_STYLE_ALLMAN = 1     /* it has a line of its own */
};

/* The first four arguments of rl_layout: style, indent width, signature width, list width. */
#define RL_DEFAULT_OPTIONS RL_STYLE_ALLMAN, 4, 40, 40

enum rl_what {
    RL_WHAT_LEADING = 0, /* trivia before a token */
    RL_WHAT_TOKEN = 1,
    RL_WHAT_TRAILING = 2 /* trivia after a token */
};

/* Of a token row. Where a kind has another lexeme than is shown here, the layout is not plain. */
enum rl_kind {
    RL_KIND_EOF = 0,
    RL_KIND_NEWLINE = 1,
    RL_KIND_LEFT_BRACE = 2,    /* { */
    RL_KIND_RIGHT_BRACE = 3,   /* } */
    RL_KIND_LEFT_PAREN = 4,    /* ( */
    RL_KIND_RIGHT_PAREN = 5,   /* ) */
    RL_KIND_LEFT_BRACKET = 6,  /* [ */
    RL_KIND_RIGHT_BRACKET = 7, /* ] */
    RL_KIND_COMMA = 8,         /* , */
    RL_KIND_COLON = 9,         /* : */
    RL_KIND_SEMICOLON = 10,    /* ; */
    RL_KIND_QUESTION = 11,     /* ? */
    RL_KIND_DOT = 12,          /* . */
    RL_KIND_DOT_DOT = 13,      /* .. */
    RL_KIND_COLON_COLON = 14,  /* :: */
    RL_KIND_HASH = 15,         /* # */
    RL_KIND_BANG = 16,         /* ! */
    RL_KIND_BANG_HASH = 17,    /* operator bytes alone */
    RL_KIND_MINUS = 18,        /* - */
    RL_KIND_ELSE = 19,         /* else */
    RL_KIND_FN = 20,
    RL_KIND_RECORD = 21,
    RL_KIND_IDENTIFIER = 22,
    RL_KIND_NUMBER_LITERAL = 23,
    RL_KIND_BYTE_LITERAL = 24,
    RL_KIND_STRING_LITERAL = 25,
    RL_KIND_CHARACTER_LITERAL = 26,
    RL_KIND_FLOAT_LITERAL = 27,
    RL_KIND_BOOL_LITERAL = 28,
    RL_KIND_NULL = 29,
    RL_KIND_ARRAY = 30,
    RL_KIND_MAP = 31,
    RL_KIND_SET = 32,
    RL_KIND_RESULT = 33,
    RL_KIND_OTHER = 34
};

// Of a leading or trailing row, whose bytes c are the comment without its marks. What each writes
// (specification, 'Comments'); the gap is the indent at a line's start, else a space:
//
//                    leading row                     trailing row
//     LINE_COMMENT   gap, `// c`, line feed          `// c`
//     DOC_COMMENT    gap, `/// c`, line feed         `/// c`
//     BLOCK_COMMENT  gap, `/* c */`, line feed       `/*c*/`
//     BLANK_LINE     line feed; in a record nothing  nothing
//
// The trap: `x`, a trailing LINE_COMMENT `why` and `y` give `x// why y`. The token `y` is lost in the
// comment, with plain 0 and no refusal. A field of a record is lost in the same way. So make a comment a
// LEADING row of the next token that is no Newline (there it would add a line feed), or of an Eof token at
// the end: it then ends in a line feed. A list with any comment is never plain.
enum rl_trivia {
    RL_TRIVIA_LINE_COMMENT = 0,
    RL_TRIVIA_DOC_COMMENT = 1,
    RL_TRIVIA_BLOCK_COMMENT = 2,
    RL_TRIVIA_BLANK_LINE = 3
};

/* ---- Helpers */

/* Writes a row's RL_ROW_BYTES. */
static inline void rl_put_row(uint8_t *row, uint32_t what, uint32_t kind, uint32_t start, uint32_t end)
{
    const uint32_t numbers[4] = {what, kind, start, end};
    for (int i = 0; i < RL_ROW_BYTES; i++)
        row[i] = (uint8_t)(numbers[i / 4] >> (8 * (i % 4)));
}

/* The report's numbers, in the order in which each door names them; after a refusal `first` is its place. */
struct rl_report {
    uint64_t first, second, third;
};

static inline struct rl_report rl_get_report(const uint8_t *report)
{
    uint64_t numbers[3] = {0, 0, 0};
    for (int i = 0; i < RL_REPORT_BYTES; i++)
        numbers[i / 8] |= (uint64_t)report[i] << (8 * (i % 8));
    const struct rl_report read = {numbers[0], numbers[1], numbers[2]};
    return read;
}

/* A refusal's name as the specification has it; "none" for 0, "unknown" for any other number. */
static inline const char *rl_refusal_name(uint32_t refusal)
{
    static const char *const names[] = {
        "none",     "option",   "ragged",     "bad row",    "deep",        "full",
        "no names", "bad line", "sheet full", "unreadable", "pieces full", "report",
    };
    return refusal < sizeof names / sizeof *names ? names[refusal] : "unknown";
}

/* ---- Sizes that suffice

   - `out`: by trying. After RL_REFUSAL_FULL lend more and call again.
   - `pieces`: two numbers for each byte of the text always suffice.
   - a sheet of n bytes: n / 5 rows, so n / 5 * RL_ROW_BYTES bytes, and n bytes of text always suffice, since
     a row's line has 5 bytes at least. The layout takes RL_MAX_ROWS rows.

   ---- What a caller owes, and no door can test

   - Each pointer is valid for its length. With length 0 it may be null: it is neither read nor written.
   - `pieces` is aligned for 32 bits. The other slices need no alignment.
   - No slice that a door writes overlaps another. Those that it only reads may overlap.
   - A slice has less than 2 to the power of 63 bytes.

   ---- What a call costs; the numbers were measured, and are not proved

   - Stack: nothing recurses. By the frames in the archive a layout takes at most 1,200 bytes, rl_read_pieces
     300, the others 150. Where the process binds memset at its first call, that one took 1,500 more. Plan
     with 8 KiB.
   - Threads: the library has no data that can be written, and keeps no pointer. Calls may run at the same
     time, as long as none writes what another uses. No heap, no lock, no errno.
   - Symbols: it needs `memset` alone, for gaps and for slices that are set to 0. rl_needs_space never
     calls it.
   - Time: 5 to 15 ns a token on usual lists (docs/BENCHMARKS.md). Pieces and sheets are read in proportion
     to their bytes. The worst layouts take time with the square of the rows, where each opener looks over
     all that comes after it. The worst that was found, of 65,535 rows, takes 5 s by the default options and
     14 s by the widest; of 16,384 rows 0.2 s and 0.9 s (`costs worst` of tests/costs.c). */

#endif
