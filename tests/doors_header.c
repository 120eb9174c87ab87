/* Calls each C door on a few inputs and compares what it returns and every byte that it was lent. The
   expected values are worked out by hand from docs/SPECIFICATION.md. tests/run_doors.sh builds and runs
   it. */
#include "furzewrench.h"
#include <stdio.h>
#include <string.h>

enum { REPORT = RL_REPORT_BYTES, SPACE = 64, UNTOUCHED = 7 };

static int compared, failed;

static void expect(const char *name, int holds)
{
    compared++;
    if (!holds) {
        failed++;
        printf("failed: %s\n", name);
    }
}

static void fill(void *bytes, size_t n)
{
    memset(bytes, UNTOUCHED, n);
}

static int all(const uint8_t *bytes, size_t n, uint8_t value)
{
    for (size_t i = 0; i < n; i++)
        if (bytes[i] != value)
            return 0;
    return 1;
}

/* By the bytes, so that rl_get_report is no part of it. */
static int reports(const uint8_t *report, uint64_t first, uint64_t second, uint64_t third)
{
    uint64_t numbers[3] = {first, second, third};
    for (int i = 0; i < RL_REPORT_BYTES; i++)
        if (report[i] != (uint8_t)(numbers[i / 8] >> (8 * (i % 8))))
            return 0;
    return 1;
}

static int refuses(uint32_t refusal, uint32_t expected, const uint8_t *report, uint64_t place)
{
    return refusal == expected && reports(report, place, 0, 0);
}

static void put_numbers(uint8_t *row, const uint32_t numbers[4])
{
    rl_put_row(row, numbers[0], numbers[1], numbers[2], numbers[3]);
}

/* ---- the layout */

enum { ROWS_MOST = 16 };

struct row {
    uint32_t what, kind;
    const char *bytes; /* NULL after the last row */
};

struct layout_case {
    const char *source; /* of rl_layout_source; else NULL */
    uint32_t options[4];
    struct row rows[ROWS_MOST];
    size_t out_len;
    uint32_t refusal;
    uint64_t first, second, third; /* length, commas, plain, or the place */
    const char *out;
};

#define T(kind, bytes) {RL_WHAT_TOKEN, RL_KIND_##kind, bytes}
#define NAME(bytes) T(IDENTIFIER, bytes)
#define LF T(NEWLINE, "")
#define DEFAULTS {RL_DEFAULT_OPTIONS}
#define LOG {NAME("log"), T(LEFT_PAREN, "("), NAME("a"), T(COMMA, ","), NAME("b"), T(RIGHT_PAREN, ")")}
#define LIST {NAME("x"), T(LEFT_BRACKET, "["), NAME("a"), T(COMMA, ","), NAME("b"), T(RIGHT_BRACKET, "]")}
#define FN {T(FN, "F"), NAME("f"), T(LEFT_PAREN, "("), T(RIGHT_PAREN, ")")}
#define BLOCK {NAME("a"), T(LEFT_BRACE, "{"), LF, NAME("b"), T(RIGHT_BRACE, "}")}
#define BAD_ROW {NAME("x"), {RL_WHAT_TOKEN, RL_MAX_KIND + 1, "["}}

static const struct layout_case LAYOUTS[] = {
    {NULL, DEFAULTS, LOG, 40, 0, 9, 0, 1, "log(a, b)"},
    {NULL, DEFAULTS, LOG, 9, 0, 9, 0, 1, "log(a, b)"},
    {NULL, {1, 4, 40, 8}, LOG, 40, 0, 9, 0, 1, "log(a, b)"},
    {NULL, {1, 4, 40, 7}, LOG, 40, 0, 19, 0, 1, "log(\n    a,\n    b\n)"},
    {NULL, {1, 4, 40, 7}, LIST, 40, 0, 18, 1, 1, "x[\n    a,\n    b,\n]"},
    {NULL, {1, 4, 2, 40}, FN, 40, 0, 5, 0, 1, "F f()"},
    {NULL, {1, 4, 1, 40}, FN, 40, 0, 15, 0, 1, "F f(\n    \n    )"},
    {NULL, {1, 2, 1, 40}, FN, 40, 0, 11, 0, 1, "F f(\n  \n  )"},
    {NULL, DEFAULTS, BLOCK, 40, 0, 11, 0, 1, "a\n{\n    b\n}"},
    {NULL, {RL_STYLE_SAME_LINE, 2, 40, 40}, BLOCK, 40, 0, 9, 0, 1, "a {\n  b\n}"},
    {NULL, DEFAULTS, {{0, 0, NULL}}, 0, 0, 0, 0, 1, ""},
    {NULL, {2, 4, 40, 40}, LOG, 40, RL_REFUSAL_OPTION, 0, 0, 0, ""},
    {NULL, {1, RL_MAX_INDENT_WIDTH + 1, 40, 40}, LOG, 40, RL_REFUSAL_OPTION, 1, 0, 0, ""},
    {NULL, {1, 4, RL_MAX_WIDTH + 1, 40}, LOG, 40, RL_REFUSAL_OPTION, 2, 0, 0, ""},
    {NULL, {1, 4, 40, RL_MAX_WIDTH + 1}, LOG, 40, RL_REFUSAL_OPTION, 3, 0, 0, ""},
    {NULL, {1, RL_MAX_INDENT_WIDTH, RL_MAX_WIDTH, RL_MAX_WIDTH}, LOG, 40, 0, 9, 0, 1, "log(a, b)"},
    {NULL, DEFAULTS, BAD_ROW, 40, RL_REFUSAL_BAD_ROW, 1, 0, 0, ""},
    {NULL, DEFAULTS, LOG, 8, RL_REFUSAL_FULL, 5, 0, 0, ""},
    {NULL, DEFAULTS, LOG, 3, RL_REFUSAL_FULL, 1, 0, 0, ""},
    {NULL, DEFAULTS, LOG, 0, RL_REFUSAL_FULL, 0, 0, 0, ""},
    {"log(a, b)", DEFAULTS, LOG, 40, 0, 9, 0, 1, "log(a, b)"},
    {"#![x]\nlog(a, b)", DEFAULTS, LOG, 40, 0, 9, 0, 1, "log(a, b)"},
    {"#!/bin/rl\nlog(a, b)", DEFAULTS, LOG, 40, 0, 19, 0, 0, "#!/bin/rl\nlog(a, b)"},
    {"#!", DEFAULTS, LIST, 40, 0, 10, 0, 0, "#!\nx[a, b]"},
    {"#!/bin/rl\n", DEFAULTS, BAD_ROW, 9, RL_REFUSAL_BAD_ROW, 1, 0, 0, ""},
    {"#!/bin/rl\n", DEFAULTS, LOG, 9, RL_REFUSAL_FULL, 0, 0, 0, ""},
    {"#!/bin/rl\n", DEFAULTS, LOG, 18, RL_REFUSAL_FULL, 5, 0, 0, ""},
};

/* ---- what comments write (specification, 'Comments') */

#define LEADING(kind, bytes) {RL_WHAT_LEADING, RL_TRIVIA_##kind, bytes}
#define TRAILING(kind, bytes) {RL_WHAT_TRAILING, RL_TRIVIA_##kind, bytes}
#define BETWEEN(row) {NAME("x"), row, NAME("y")}
#define ON_A_LINE(row) {NAME("x"), T(LEFT_BRACE, "{"), LF, row, NAME("y"), LF, T(RIGHT_BRACE, "}")}
#define RECORD T(RECORD, "record"), NAME("Log"), T(LEFT_BRACE, "{"), LF
#define FIELD(name, value) NAME(name), T(COLON, ":"), T(NUMBER_LITERAL, value)
/* No list with trivia rows is plain. */
#define WRITES(rows, commas, out) {NULL, DEFAULTS, rows, SPACE, 0, sizeof(out) - 1, commas, 0, out}
#define ROWS(...) {__VA_ARGS__}

static const struct layout_case COMMENTS[] = {
    /* leading rows: in the middle of a line, and at a line's start */
    WRITES(BETWEEN(LEADING(LINE_COMMENT, "c")), 0, "x // c\n y"),
    WRITES(BETWEEN(LEADING(DOC_COMMENT, "c")), 0, "x /// c\n y"),
    WRITES(BETWEEN(LEADING(BLOCK_COMMENT, "c")), 0, "x /* c */\n y"),
    WRITES(BETWEEN(LEADING(BLANK_LINE, "c")), 0, "x\ny"),
    WRITES(ON_A_LINE(LEADING(LINE_COMMENT, "c")), 0, "x\n{\n    // c\n    y\n}"),
    WRITES(ON_A_LINE(LEADING(DOC_COMMENT, "c")), 0, "x\n{\n    /// c\n    y\n}"),
    WRITES(ON_A_LINE(LEADING(BLOCK_COMMENT, "c")), 0, "x\n{\n    /* c */\n    y\n}"),
    WRITES(ON_A_LINE(LEADING(BLANK_LINE, "c")), 0, "x\n{\n\n    y\n}"),
    WRITES(ROWS(RECORD, LEADING(BLANK_LINE, ""), FIELD("beacon", "15"), LF, T(RIGHT_BRACE, "}")), 1,
           "record Log\n{\n    beacon: 15,\n}"),
    /* trailing rows: in the middle of a line, and at a line's start, after a Newline */
    WRITES(BETWEEN(TRAILING(LINE_COMMENT, "c")), 0, "x// c y"),
    WRITES(BETWEEN(TRAILING(DOC_COMMENT, "c")), 0, "x/// c y"),
    WRITES(BETWEEN(TRAILING(BLOCK_COMMENT, "c")), 0, "x/*c*/ y"),
    WRITES(BETWEEN(TRAILING(BLANK_LINE, "c")), 0, "x y"),
    WRITES(ROWS(NAME("x"), LF, TRAILING(LINE_COMMENT, "c"), NAME("y")), 0, "x\n// cy"),
    WRITES(ROWS(NAME("x"), LF, TRAILING(DOC_COMMENT, "c"), NAME("y")), 0, "x\n/// cy"),
    WRITES(ROWS(NAME("x"), LF, TRAILING(BLOCK_COMMENT, "c"), NAME("y")), 0, "x\n/*c*/y"),
    WRITES(ROWS(NAME("x"), LF, TRAILING(BLANK_LINE, "c"), NAME("y")), 0, "x\ny"),
    /* the trap, in a list and in a record */
    WRITES(ROWS(NAME("x"), TRAILING(LINE_COMMENT, "why"), NAME("y"), T(SEMICOLON, ";")), 0, "x// why y;"),
    WRITES(ROWS(RECORD, FIELD("beacon", "15"), T(COMMA, ","), TRAILING(LINE_COMMENT, "why"), LF,
                FIELD("power", "45"), LF, T(RIGHT_BRACE, "}")),
           1, "record Log\n{\n    beacon: 15,\n// why    power: 45,\n}"),
    /* as a leading row of the next token that is no Newline, of a Newline, and of an Eof */
    WRITES(ROWS(RECORD, FIELD("beacon", "15"), T(COMMA, ","), LF, LEADING(LINE_COMMENT, "why"),
                FIELD("power", "45"), LF, T(RIGHT_BRACE, "}")),
           1, "record Log\n{\n    beacon: 15,\n    // why\n    power: 45,\n}"),
    WRITES(ROWS(NAME("x"), LF, LEADING(LINE_COMMENT, "why"), NAME("y")), 0, "x\n// why\ny"),
    WRITES(ROWS(NAME("x"), LEADING(LINE_COMMENT, "why"), LF, NAME("y")), 0, "x // why\n\ny"),
    WRITES(ROWS(NAME("x"), LF, LEADING(LINE_COMMENT, "why"), T(EOF, "")), 0, "x\n// why\n"),
};

/* Writes the rows and their bytes, and returns how many rows there are. */
static size_t put_rows(const struct row *from, uint8_t *rows, char *text)
{
    size_t n = 0;
    *text = 0;
    for (; n < ROWS_MOST && from[n].bytes; n++) {
        uint32_t start = strlen(text), end = start + strlen(from[n].bytes);
        strcpy(text + start, from[n].bytes);
        rl_put_row(rows + RL_ROW_BYTES * n, from[n].what, from[n].kind, start, end);
    }
    return n;
}

static uint32_t call_layout(const struct layout_case *c, uint8_t *out, uint8_t *report)
{
    uint8_t rows[RL_ROW_BYTES * ROWS_MOST];
    char text[SPACE];
    size_t rows_len = RL_ROW_BYTES * put_rows(c->rows, rows, text), text_len = strlen(text);
    const uint8_t *bytes = (const uint8_t *)text, *source = (const uint8_t *)c->source;
    const uint32_t *o = c->options;
    if (!source)
        return rl_layout(o[0], o[1], o[2], o[3], rows, rows_len, bytes, text_len, out, c->out_len, report,
                         REPORT);
    return rl_layout_source(source, strlen(c->source), rows, rows_len, bytes, text_len, out, c->out_len,
                            report, REPORT);
}

static void check_layout(const struct layout_case *c)
{
    uint8_t out[SPACE], report[REPORT];
    fill(out, SPACE), fill(report, REPORT);
    uint32_t refusal = call_layout(c, out, report);
    size_t length = refusal == RL_REFUSAL_NONE ? c->first : 0;
    uint8_t left = refusal == RL_REFUSAL_FULL ? 0 : UNTOUCHED;
    expect(c->out, refusal == c->refusal);
    expect(c->out, reports(report, c->first, c->second, c->third));
    expect(c->out, refusal != RL_REFUSAL_NONE || strlen(c->out) == length);
    expect(c->out, memcmp(out, c->out, length) == 0);
    expect(c->out, all(out + length, c->out_len - length, left));
    expect(c->out, all(out + c->out_len, SPACE - c->out_len, UNTOUCHED));
}

/* ---- rows that no token list has, for the text `ab`; 2 and 3 come before the shebang line's own 5 */

static const struct {
    size_t rows_len;
    uint32_t rows[3][4], refusal, place;
} WRONG[] = {
    {15, {{1, 22, 0, 1}}, RL_REFUSAL_RAGGED, 0},
    {47, {{3, 0, 0, 0}, {1, 22, 0, 1}, {1, 22, 0, 1}}, RL_REFUSAL_RAGGED, 0},
    {48, {{1, 22, 0, 1}, {3, 0, 0, 0}, {4, 0, 0, 0}}, RL_REFUSAL_BAD_ROW, 1},
    {32, {{1, 22, 0, 1}, {2, 4, 0, 0}}, RL_REFUSAL_BAD_ROW, 1},
    {16, {{1, 22, 2, 1}}, RL_REFUSAL_BAD_ROW, 0},
    {32, {{1, 22, 1, 2}, {1, 22, 1, 3}}, RL_REFUSAL_BAD_ROW, 1},
    {32, {{2, 3, 0, 0}, {1, 22, 0, 1}}, RL_REFUSAL_BAD_ROW, 0},
    {48, {{1, 22, 0, 1}, {0, 3, 0, 0}, {2, 3, 0, 0}}, RL_REFUSAL_BAD_ROW, 2},
    {48, {{1, 22, 0, 1}, {0, 3, 0, 0}, {0, 3, 0, 0}}, RL_REFUSAL_BAD_ROW, 2},
};

static void check_rows(void)
{
    static const uint8_t text[] = "ab", shebang[] = "#!";
    for (size_t i = 0; i < sizeof WRONG / sizeof *WRONG; i++) {
        uint8_t rows[48], out[SPACE], report[REPORT];
        size_t n = WRONG[i].rows_len;
        uint32_t wrong = WRONG[i].refusal, place = WRONG[i].place, refusal;
        for (int j = 0; j < 3; j++)
            put_numbers(rows + RL_ROW_BYTES * j, WRONG[i].rows[j]);
        fill(out, SPACE), fill(report, REPORT);
        refusal = rl_layout(RL_DEFAULT_OPTIONS, rows, n, text, 2, out, SPACE, report, REPORT);
        expect("rows", refuses(refusal, wrong, report, place));
        refusal = rl_layout_source(shebang, 2, rows, n, text, 2, out, 1, report, REPORT);
        expect("rows", refuses(refusal, wrong, report, place));
        refusal = rl_layout(1, 17, 40, 40, rows, n, text, 2, out, SPACE, report, REPORT);
        expect("rows", refuses(refusal, RL_REFUSAL_OPTION, report, 1));
        expect("rows", all(out, SPACE, UNTOUCHED));
    }
}

/* Newlines without bytes: their layout is as many line feeds as there are rows, at most two. */
static void check_most_rows(void)
{
    static uint8_t rows[RL_ROW_BYTES * (RL_MAX_ROWS + 1)];
    uint8_t out[SPACE], report[REPORT];
    const size_t most = RL_ROW_BYTES * RL_MAX_ROWS;
    for (size_t i = 0; i <= RL_MAX_ROWS; i++)
        rl_put_row(rows + RL_ROW_BYTES * i, RL_WHAT_TOKEN, RL_KIND_NEWLINE, 0, 0);
    fill(out, SPACE);
    expect("most rows", !rl_layout(RL_DEFAULT_OPTIONS, rows, most, NULL, 0, out, SPACE, report, REPORT));
    expect("most rows", reports(report, 2, 0, 1) && memcmp(out, "\n\n", 2) == 0);
    uint32_t refusal = rl_layout(RL_DEFAULT_OPTIONS, rows, sizeof rows, NULL, 0, out, SPACE, report, REPORT);
    expect("most rows", refuses(refusal, RL_REFUSAL_RAGGED, report, 0));
}

/* `(,` again and again, with list width 0: each opens a group that breaks. */
static void check_depth(size_t groups, uint32_t refusal, uint64_t first, uint64_t third)
{
    enum { MOST = 65 };
    static const uint8_t text[] = "(,";
    uint8_t rows[32 * MOST], out[4 * MOST], report[REPORT];
    for (size_t i = 0; i < groups; i++) {
        rl_put_row(rows + 32 * i, RL_WHAT_TOKEN, RL_KIND_LEFT_PAREN, 0, 1);
        rl_put_row(rows + 32 * i + 16, RL_WHAT_TOKEN, RL_KIND_COMMA, 1, 2);
    }
    fill(out, sizeof out), fill(report, REPORT);
    uint32_t said = rl_layout(1, 0, 40, 0, rows, 32 * groups, text, 2, out, sizeof out, report, REPORT);
    expect("depth", said == refusal);
    expect("depth", reports(report, first, 0, third));
    for (size_t i = 0; i < sizeof out; i++)
        expect("depth", out[i] == (refusal ? 0 : i < first ? "(\n,\n"[i % 4] : UNTOUCHED));
}

/* ---- the sheet reader */

#define NAMES "what kind text\n"

struct sheet_case {
    const char *sheet;
    size_t rows_len, text_len;
    uint32_t refusal;
    uint64_t first, second; /* rows and text bytes, or the place */
    const char *text;
    uint32_t numbers[8];    /* of the rows */
};

static const struct sheet_case SHEETS[] = {
    {NAMES "T 22 log\nL 3 \n", 40, 10, 0, 2, 3, "log", {1, 22, 0, 3, 0, 3, 3, 3}},
    {NAMES "R 0 a\\nb\\\\\n", 16, 4, 0, 1, 4, "a\nb\\", {2, 0, 0, 4}},
    {NAMES, 16, 4, 0, 0, 0, "", {0}},
    {"", 16, 4, RL_REFUSAL_NO_NAMES, 0, 0, "", {0}},
    {"what kind text", 16, 4, RL_REFUSAL_NO_NAMES, 0, 0, "", {0}},
    {NAMES "T 22 a\nT 35 b\n", 64, 8, RL_REFUSAL_BAD_LINE, 2, 0, "", {0}},
    {NAMES "T 22 a", 64, 8, RL_REFUSAL_BAD_LINE, 1, 0, "", {0}},
    {NAMES "T 22 a\nT 22 b\n", 31, 8, RL_REFUSAL_SHEET_FULL, 2, 0, "", {0}},
    {NAMES "T 22 abcd\n", 64, 3, RL_REFUSAL_SHEET_FULL, 1, 0, "", {0}},
    {NAMES "T 22 abcd\\x\n", 64, 3, RL_REFUSAL_BAD_LINE, 1, 0, "", {0}},
};

static void check_sheet(const struct sheet_case *c)
{
    uint8_t rows[SPACE], text[SPACE], report[REPORT];
    fill(rows, SPACE), fill(text, SPACE), fill(report, REPORT);
    uint32_t refusal = rl_read_sheet((const uint8_t *)c->sheet, strlen(c->sheet), rows, c->rows_len, text,
                                     c->text_len, report, REPORT);
    int read = refusal == RL_REFUSAL_NONE;
    size_t row_bytes = read ? RL_ROW_BYTES * c->first : 0, text_bytes = read ? c->second : 0;
    uint8_t left = read || refusal == RL_REFUSAL_NO_NAMES ? UNTOUCHED : 0;
    expect(c->sheet, refusal == c->refusal);
    expect(c->sheet, reports(report, c->first, c->second, 0));
    for (size_t i = 0; i < row_bytes; i++)
        expect(c->sheet, rows[i] == (uint8_t)(c->numbers[i / 4] >> (8 * (i % 4))));
    expect(c->sheet, memcmp(text, c->text, text_bytes) == 0);
    expect(c->sheet, all(rows + row_bytes, c->rows_len - row_bytes, left));
    expect(c->sheet, all(text + text_bytes, c->text_len - text_bytes, left));
    expect(c->sheet, all(rows + c->rows_len, SPACE - c->rows_len, UNTOUCHED));
    expect(c->sheet, all(text + c->text_len, SPACE - c->text_len, UNTOUCHED));
}

/* Reads the names line and `lines` times `line` into the sizes that furzewrench.h says suffice, into the
   sizes that it takes, and into one byte less of rows or text. */
static void check_sheet_sizes(const char *line, size_t lines, size_t text_bytes)
{
    static uint8_t sheet[4096], rows[16 * 4096 / 5], text[4096];
    uint8_t report[REPORT];
    size_t n = strlen(NAMES), row_bytes = RL_ROW_BYTES * lines;
    memcpy(sheet, NAMES, n);
    for (size_t i = 0; i < lines; i++, n += strlen(line))
        memcpy(sheet + n, line, strlen(line));
    expect(line, !rl_read_sheet(sheet, n, rows, n / 5 * RL_ROW_BYTES, text, n, report, REPORT));
    expect(line, reports(report, lines, text_bytes, 0));
    expect(line, !rl_read_sheet(sheet, n, rows, row_bytes, text, text_bytes, report, REPORT));
    expect(line, rl_read_sheet(sheet, n, rows, row_bytes - 1, text, n, report, REPORT) == 8);
    if (text_bytes > 0)
        expect(line, rl_read_sheet(sheet, n, rows, row_bytes, text, text_bytes - 1, report, REPORT) == 8);
    /* cut anywhere, it breaks its form or is read, and is never too much for these sizes */
    for (size_t m = 0; m < n; m++) {
        uint32_t refusal = rl_read_sheet(sheet, m, rows, m / 5 * RL_ROW_BYTES, text, m, report, REPORT);
        expect(line, refusal != RL_REFUSAL_SHEET_FULL && refusal <= RL_REFUSAL_BAD_LINE);
    }
}

/* ---- reading back */

struct pieces_case {
    const char *text;
    size_t pieces_len;
    uint32_t refusal;
    uint64_t first; /* the pieces or the place */
    uint32_t numbers[8];
};

static const struct pieces_case TEXTS[] = {
    {"log(a)", 9, 0, 4, {0, 3, 3, 4, 4, 5, 5, 6}},
    {"1.5 ::x", 8, 0, 3, {0, 3, 4, 6, 6, 7}},
    {"'a\\'b' \"\n\"", 4, 0, 2, {0, 6, 7, 10}},
    {" \n", 0, 0, 0, {0}},
    {"", 2, 0, 0, {0}},
    {"ab \t", 8, RL_REFUSAL_UNREADABLE, 3, {0}},
    {"ab 'c", 8, RL_REFUSAL_UNREADABLE, 3, {0}},
    {"a b c", 5, RL_REFUSAL_PIECES_FULL, 4, {0}},
    {"a \t b", 2, RL_REFUSAL_UNREADABLE, 2, {0}},
    {"(,)", 6, 0, 3, {0, 1, 1, 2, 2, 3}}, /* two numbers for each byte: no text has more pieces */
};

static void check_pieces(const struct pieces_case *c)
{
    uint32_t pieces[SPACE];
    uint8_t report[REPORT];
    fill(pieces, sizeof pieces), fill(report, REPORT);
    uint32_t refusal = rl_read_pieces((const uint8_t *)c->text, strlen(c->text), pieces, c->pieces_len,
                                      report, REPORT);
    size_t stored = refusal == 0 ? 2 * c->first : 0;
    uint8_t left = refusal == 0 ? UNTOUCHED : 0;
    expect(c->text, refusal == c->refusal);
    expect(c->text, reports(report, c->first, 0, 0));
    expect(c->text, memcmp(pieces, c->numbers, 4 * stored) == 0);
    expect(c->text, all((uint8_t *)(pieces + stored), 4 * (c->pieces_len - stored), left));
    expect(c->text, all((uint8_t *)(pieces + c->pieces_len), 4 * (SPACE - c->pieces_len), UNTOUCHED));
}

/* ---- spaces */

static const struct {
    uint32_t first, second, refusal, reported;
} SPACES[] = {
    {RL_KIND_IDENTIFIER, RL_KIND_IDENTIFIER, 0, 1},  /* a b */
    {RL_KIND_IDENTIFIER, RL_KIND_LEFT_PAREN, 0, 0},  /* a( */
    {RL_KIND_COMMA, RL_KIND_IDENTIFIER, 0, 1},       /* , a */
    {RL_KIND_IDENTIFIER, RL_KIND_COMMA, 0, 0},       /* a, */
    {RL_KIND_LEFT_BRACE, RL_KIND_RIGHT_BRACE, 0, 0}, /* {} */
    {RL_KIND_DOT, RL_KIND_IDENTIFIER, 0, 0},         /* .a */
    {RL_MAX_KIND, RL_MAX_KIND, 0, 1},
    {RL_MAX_KIND + 1, 0, RL_REFUSAL_BAD_ROW, 0},
    {0, RL_MAX_KIND + 1, RL_REFUSAL_BAD_ROW, 1},
    {UINT32_MAX, UINT32_MAX, RL_REFUSAL_BAD_ROW, 0},
};

static void check_spaces(void)
{
    for (size_t i = 0; i < sizeof SPACES / sizeof *SPACES; i++) {
        uint8_t report[REPORT];
        fill(report, REPORT);
        uint32_t refusal = rl_needs_space(SPACES[i].first, SPACES[i].second, report, REPORT);
        expect("space", refusal == SPACES[i].refusal);
        expect("space", reports(report, SPACES[i].reported, 0, 0));
    }
}

/* ---- refusal 11 */

static void check_report(size_t report_len)
{
    static const uint8_t sheet[] = NAMES "T 35 a\n", shebang[] = "#!";
    const size_t n = sizeof sheet - 1;
    uint8_t row[RL_ROW_BYTES], rows[SPACE], text[SPACE], report[SPACE];
    uint32_t pieces[SPACE];
    rl_put_row(row, RL_WHAT_TOKEN, RL_KIND_IDENTIFIER, 0, 1);
    fill(rows, SPACE), fill(text, SPACE), fill(report, SPACE), fill(pieces, sizeof pieces);
    expect("report", rl_layout(RL_DEFAULT_OPTIONS, row, 16, sheet, 1, text, SPACE, report, report_len) == 11);
    expect("report", rl_layout_source(shebang, 2, row, 16, sheet, 1, text, SPACE, report, report_len) == 11);
    expect("report", rl_read_sheet(sheet, n, rows, SPACE, text, SPACE, report, report_len) == 11);
    expect("report", rl_read_pieces(sheet, n, pieces, SPACE, report, report_len) == 11);
    expect("report", rl_needs_space(35, 35, report, report_len) == RL_REFUSAL_REPORT);
    expect("report", all(rows, SPACE, UNTOUCHED) && all(text, SPACE, UNTOUCHED));
    expect("report", all(report, SPACE, UNTOUCHED));
    expect("report", all((uint8_t *)pieces, sizeof pieces, UNTOUCHED));
}

/* ---- slices of length 0, at a pointer that is null, one past an object, or a local's */

static void check_empty_layout(uint8_t *empty)
{
    static const uint8_t text[] = "ab", shebang[] = "#!x\n";
    uint8_t row[RL_ROW_BYTES], none[RL_ROW_BYTES], out[SPACE], report[REPORT];
    uint32_t refusal;
    rl_put_row(row, RL_WHAT_TOKEN, RL_KIND_IDENTIFIER, 0, 2);
    rl_put_row(none, RL_WHAT_TOKEN, RL_KIND_IDENTIFIER, 0, 0);
    fill(out, SPACE);
    /* each alone, then all */
    refusal = rl_layout(RL_DEFAULT_OPTIONS, empty, 0, text, 2, out, SPACE, report, REPORT);
    expect("no rows", refusal == 0 && reports(report, 0, 0, 1));
    refusal = rl_layout(RL_DEFAULT_OPTIONS, none, 16, empty, 0, out, SPACE, report, REPORT);
    expect("no text", refusal == 0 && reports(report, 0, 0, 0));
    refusal = rl_layout(RL_DEFAULT_OPTIONS, row, 16, text, 2, empty, 0, report, REPORT);
    expect("no out", refuses(refusal, RL_REFUSAL_FULL, report, 0));
    refusal = rl_layout(RL_DEFAULT_OPTIONS, row, 16, empty, 0, empty, 0, report, REPORT);
    expect("no text, no out", refuses(refusal, RL_REFUSAL_BAD_ROW, report, 0));
    refusal = rl_layout(RL_DEFAULT_OPTIONS, empty, 0, empty, 0, empty, 0, report, REPORT);
    expect("nothing", refusal == 0 && reports(report, 0, 0, 1));
    refusal = rl_layout_source(empty, 0, row, 16, text, 2, out, SPACE, report, REPORT);
    expect("no source", refusal == 0 && reports(report, 2, 0, 1) && memcmp(out, "ab", 2) == 0);
    refusal = rl_layout_source(shebang, 4, empty, 0, empty, 0, out, SPACE, report, REPORT);
    expect("no rows, no text", refusal == 0 && reports(report, 4, 0, 0) && memcmp(out, "#!x\n", 4) == 0);
    refusal = rl_layout_source(shebang, 4, row, 16, text, 2, empty, 0, report, REPORT);
    expect("no out", refuses(refusal, RL_REFUSAL_FULL, report, 0));
    refusal = rl_layout_source(empty, 0, empty, 0, empty, 0, empty, 0, report, REPORT);
    expect("nothing", refusal == 0 && reports(report, 0, 0, 1));
}

static void check_empty_readers(uint8_t *empty, uint32_t *none)
{
    static const uint8_t sheet[] = NAMES "T 0 \n", lexeme[] = NAMES "T 22 a\n", bad[] = NAMES "T\n";
    static const uint8_t text[] = "a\t";
    const size_t n = sizeof sheet - 1, m = sizeof lexeme - 1;
    uint8_t rows[RL_ROW_BYTES], out[SPACE], report[REPORT];
    uint32_t pieces[2], refusal;
    refusal = rl_read_sheet(empty, 0, rows, 16, out, SPACE, report, REPORT);
    expect("no sheet", refuses(refusal, RL_REFUSAL_NO_NAMES, report, 0));
    refusal = rl_read_sheet(sheet, n, empty, 0, out, SPACE, report, REPORT);
    expect("no rows", refuses(refusal, RL_REFUSAL_SHEET_FULL, report, 1) && all(out, SPACE, 0));
    refusal = rl_read_sheet(sheet, n, rows, 16, empty, 0, report, REPORT);
    expect("no text", refusal == 0 && reports(report, 1, 0, 0));
    refusal = rl_read_sheet(lexeme, m, rows, 16, empty, 0, report, REPORT);
    expect("no text", refuses(refusal, RL_REFUSAL_SHEET_FULL, report, 1) && all(rows, sizeof rows, 0));
    refusal = rl_read_sheet(bad, sizeof bad - 1, empty, 0, empty, 0, report, REPORT);
    expect("no rows, no text", refuses(refusal, RL_REFUSAL_BAD_LINE, report, 1));
    refusal = rl_read_sheet(empty, 0, empty, 0, empty, 0, report, REPORT);
    expect("nothing", refuses(refusal, RL_REFUSAL_NO_NAMES, report, 0));
    expect("no text", !rl_read_pieces(empty, 0, pieces, 2, report, REPORT) && reports(report, 0, 0, 0));
    refusal = rl_read_pieces(text, 1, none, 0, report, REPORT);
    expect("no pieces", refuses(refusal, RL_REFUSAL_PIECES_FULL, report, 0));
    refusal = rl_read_pieces(text + 1, 1, none, 0, report, REPORT);
    expect("no pieces", refuses(refusal, RL_REFUSAL_UNREADABLE, report, 0));
    expect("nothing", !rl_read_pieces(empty, 0, none, 0, report, REPORT) && reports(report, 0, 0, 0));
}

/* No report: 11, whatever else is lent. */
static void check_empty_report(uint8_t *empty, uint32_t *none)
{
    expect("no report", rl_layout(RL_DEFAULT_OPTIONS, empty, 0, empty, 0, empty, 0, empty, 0) == 11);
    expect("no report", rl_layout_source(empty, 0, empty, 0, empty, 0, empty, 0, empty, 0) == 11);
    expect("no report", rl_read_sheet(empty, 0, empty, 0, empty, 0, empty, 0) == 11);
    expect("no report", rl_read_pieces(empty, 0, none, 0, empty, 0) == 11);
    expect("no report", rl_needs_space(0, 0, empty, 0) == 11);
}

static void check_empty(uint8_t *empty, uint32_t *none)
{
    check_empty_layout(empty);
    check_empty_readers(empty, none);
    check_empty_report(empty, none);
}

/* ---- the header's own functions and names */

static void check_helpers(void)
{
    static const uint8_t row[RL_ROW_BYTES] = {1,    0,    0,    0,    0xA2, 0,    0,    0,
                                              0x78, 0x56, 0x34, 0x12, 0xFF, 0xFE, 0xFD, 0xFC};
    static const uint8_t bytes[REPORT] = {0xF8, 7, 6, 5, 4, 3, 2, 0x81, [8] = 9, [15] = 0x80, [16] = 1};
    uint8_t put[RL_ROW_BYTES + 1];
    fill(put, sizeof put);
    rl_put_row(put, RL_WHAT_TOKEN, 0xA2, 0x12345678, 0xFCFDFEFF);
    expect("rl_put_row", memcmp(put, row, RL_ROW_BYTES) == 0 && put[RL_ROW_BYTES] == UNTOUCHED);
    struct rl_report report = rl_get_report(bytes);
    expect("rl_get_report", report.first == 0x81020304050607F8);
    expect("rl_get_report", report.second == 0x8000000000000009 && report.third == 1);
    expect("rl_refusal_name", strcmp(rl_refusal_name(RL_REFUSAL_NONE), "none") == 0);
    expect("rl_refusal_name", strcmp(rl_refusal_name(RL_REFUSAL_BAD_ROW), "bad row") == 0);
    expect("rl_refusal_name", strcmp(rl_refusal_name(RL_REFUSAL_FULL), "full") == 0);
    expect("rl_refusal_name", strcmp(rl_refusal_name(RL_REFUSAL_SHEET_FULL), "sheet full") == 0);
    expect("rl_refusal_name", strcmp(rl_refusal_name(RL_REFUSAL_PIECES_FULL), "pieces full") == 0);
    expect("rl_refusal_name", strcmp(rl_refusal_name(RL_REFUSAL_REPORT), "report") == 0);
    expect("rl_refusal_name", strcmp(rl_refusal_name(RL_REFUSAL_REPORT + 1), "unknown") == 0);
    expect("rl_refusal_name", strcmp(rl_refusal_name(UINT32_MAX), "unknown") == 0);
}

int main(void)
{
    uint8_t bytes[4];
    uint32_t numbers[2];
    check_helpers();
    for (size_t i = 0; i < sizeof LAYOUTS / sizeof *LAYOUTS; i++)
        check_layout(&LAYOUTS[i]);
    for (size_t i = 0; i < sizeof COMMENTS / sizeof *COMMENTS; i++)
        check_layout(&COMMENTS[i]);
    check_rows();
    check_most_rows();
    check_depth(64, RL_REFUSAL_NONE, 256, 1);
    check_depth(65, RL_REFUSAL_DEEP, 128, 0);
    for (size_t i = 0; i < sizeof SHEETS / sizeof *SHEETS; i++)
        check_sheet(&SHEETS[i]);
    check_sheet_sizes("T 0 \n", 800, 0); /* the shortest line: no sheet has more rows */
    check_sheet_sizes("R 3 abcdefghijklmnopqrstuvwxyz\n", 1, 26); /* one row: no sheet has more text */
    check_sheet_sizes("T 22 a\\n\\\\\n", 300, 900);
    for (size_t i = 0; i < sizeof TEXTS / sizeof *TEXTS; i++)
        check_pieces(&TEXTS[i]);
    check_spaces();
    for (size_t n = 0; n <= SPACE; n++)
        if (n != REPORT)
            check_report(n);
    check_empty(NULL, NULL);
    check_empty(bytes + sizeof bytes, numbers + 2);
    check_empty(bytes, numbers);
    printf("%d compared, %d failed\n", compared, failed);
    return failed != 0;
}
