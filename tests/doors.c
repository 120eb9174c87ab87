/* Calls each C door on a few inputs and compares what it returns and every byte that it was lent.
   The expected values are worked out by hand from docs/SPECIFICATION.md. tests/run_doors.sh builds and runs
   it. */
#include "doors.h"
#include <stdio.h>
#include <string.h>

enum { REPORT = 24, SPACE = 64, UNTOUCHED = 7 };

static int compared, failed;

static void expect(const char *name, int holds)
{
    compared++;
    if (!holds) {
        failed++;
        printf("failed: %s\n", name);
    }
}

static void fill(void *bytes, size_t n)
{
    memset(bytes, UNTOUCHED, n);
}

static int all(const uint8_t *bytes, size_t n, uint8_t value)
{
    for (size_t i = 0; i < n; i++)
        if (bytes[i] != value)
            return 0;
    return 1;
}

static int reports(const uint8_t *report, uint64_t first, uint64_t second, uint64_t third)
{
    uint64_t numbers[3] = {first, second, third};
    for (int i = 0; i < REPORT; i++)
        if (report[i] != (uint8_t)(numbers[i / 8] >> (8 * (i % 8))))
            return 0;
    return 1;
}

static void put_row(uint8_t *bytes, const uint32_t numbers[4])
{
    for (int i = 0; i < 16; i++)
        bytes[i] = (uint8_t)(numbers[i / 4] >> (8 * (i % 4)));
}

/* ---- the layout */

enum { TOKENS = 8 };

struct token {
    uint32_t kind;
    const char *lexeme;
};

struct layout_case {
    const char *source; /* of rl_layout_source; else NULL */
    uint32_t options[4];
    struct token tokens[TOKENS];
    size_t out_len;
    uint32_t refusal;
    uint64_t first, second, third; /* length, commas, plain, or the place */
    const char *out;
};

#define DEFAULTS {1, 4, 40, 40}
#define LOG {{22, "log"}, {4, "("}, {22, "a"}, {8, ","}, {22, "b"}, {5, ")"}}
#define LIST {{22, "x"}, {6, "["}, {22, "a"}, {8, ","}, {22, "b"}, {7, "]"}}
#define FN {{20, "F"}, {22, "f"}, {4, "("}, {5, ")"}}
#define BLOCK {{22, "a"}, {2, "{"}, {1, ""}, {22, "b"}, {3, "}"}}
#define BAD_ROW {{22, "x"}, {35, "["}}

static const struct layout_case LAYOUTS[] = {
    {NULL, DEFAULTS, LOG, 40, 0, 9, 0, 1, "log(a, b)"},
    {NULL, DEFAULTS, LOG, 9, 0, 9, 0, 1, "log(a, b)"},
    {NULL, {1, 4, 40, 8}, LOG, 40, 0, 9, 0, 1, "log(a, b)"},
    {NULL, {1, 4, 40, 7}, LOG, 40, 0, 19, 0, 1, "log(\n    a,\n    b\n)"},
    {NULL, {1, 4, 40, 7}, LIST, 40, 0, 18, 1, 1, "x[\n    a,\n    b,\n]"},
    {NULL, {1, 4, 2, 40}, FN, 40, 0, 5, 0, 1, "F f()"},
    {NULL, {1, 4, 1, 40}, FN, 40, 0, 15, 0, 1, "F f(\n    \n    )"},
    {NULL, {1, 2, 1, 40}, FN, 40, 0, 11, 0, 1, "F f(\n  \n  )"},
    {NULL, DEFAULTS, BLOCK, 40, 0, 11, 0, 1, "a\n{\n    b\n}"},
    {NULL, {0, 2, 40, 40}, BLOCK, 40, 0, 9, 0, 1, "a {\n  b\n}"},
    {NULL, DEFAULTS, {{0, NULL}}, 0, 0, 0, 0, 1, ""},
    {NULL, {2, 4, 40, 40}, LOG, 40, 1, 0, 0, 0, ""},
    {NULL, {1, 17, 40, 40}, LOG, 40, 1, 1, 0, 0, ""},
    {NULL, {1, 4, 65536, 40}, LOG, 40, 1, 2, 0, 0, ""},
    {NULL, {1, 4, 40, 65536}, LOG, 40, 1, 3, 0, 0, ""},
    {NULL, DEFAULTS, BAD_ROW, 40, 3, 1, 0, 0, ""},
    {NULL, DEFAULTS, LOG, 8, 5, 5, 0, 0, ""},
    {NULL, DEFAULTS, LOG, 3, 5, 1, 0, 0, ""},
    {NULL, DEFAULTS, LOG, 0, 5, 0, 0, 0, ""},
    {"log(a, b)", DEFAULTS, LOG, 40, 0, 9, 0, 1, "log(a, b)"},
    {"#![x]\nlog(a, b)", DEFAULTS, LOG, 40, 0, 9, 0, 1, "log(a, b)"},
    {"#!/bin/rl\nlog(a, b)", DEFAULTS, LOG, 40, 0, 19, 0, 0, "#!/bin/rl\nlog(a, b)"},
    {"#!", DEFAULTS, LIST, 40, 0, 10, 0, 0, "#!\nx[a, b]"},
    {"#!/bin/rl\n", DEFAULTS, BAD_ROW, 9, 3, 1, 0, 0, ""},
    {"#!/bin/rl\n", DEFAULTS, LOG, 9, 5, 0, 0, 0, ""},
    {"#!/bin/rl\n", DEFAULTS, LOG, 18, 5, 5, 0, 0, ""},
};

/* Writes the tokens' rows and their lexemes, and returns how many tokens there are. */
static size_t put_tokens(const struct token *tokens, uint8_t *rows, char *text)
{
    size_t n = 0;
    *text = 0;
    for (; n < TOKENS && tokens[n].lexeme; n++) {
        uint32_t start = strlen(text), end = start + strlen(tokens[n].lexeme);
        uint32_t numbers[4] = {1, tokens[n].kind, start, end};
        strcpy(text + start, tokens[n].lexeme);
        put_row(rows + 16 * n, numbers);
    }
    return n;
}

static uint32_t call_layout(const struct layout_case *c, uint8_t *out, uint8_t *report)
{
    uint8_t rows[16 * TOKENS];
    char text[SPACE];
    size_t rows_len = 16 * put_tokens(c->tokens, rows, text);
    const uint8_t *bytes = (const uint8_t *)text, *source = (const uint8_t *)c->source;
    const uint32_t *o = c->options;
    if (!source)
        return rl_layout(o[0], o[1], o[2], o[3], rows, rows_len, bytes, strlen(text), out, c->out_len, report, REPORT);
    return rl_layout_source(source, strlen(c->source), rows, rows_len, bytes, strlen(text), out, c->out_len, report,
                            REPORT);
}

static void check_layout(const struct layout_case *c)
{
    uint8_t out[SPACE], report[REPORT];
    fill(out, SPACE), fill(report, REPORT);
    uint32_t refusal = call_layout(c, out, report);
    size_t length = refusal == 0 ? c->first : 0;
    uint8_t left = refusal == 5 ? 0 : UNTOUCHED;
    expect("layout", refusal == c->refusal);
    expect("layout", reports(report, c->first, c->second, c->third));
    expect(c->out, memcmp(out, c->out, length) == 0);
    expect(c->out, all(out + length, c->out_len - length, left));
    expect(c->out, all(out + c->out_len, SPACE - c->out_len, UNTOUCHED));
}

/* ---- rows that no token list has, for the text `ab`; refusals 2 and 3 come before the shebang line's own 5 */

static const struct {
    size_t rows_len;
    uint32_t rows[3][4], refusal, place;
} ROWS[] = {
    {15, {{1, 22, 0, 1}}, 2, 0},
    {47, {{3, 0, 0, 0}, {1, 22, 0, 1}, {1, 22, 0, 1}}, 2, 0},
    {48, {{1, 22, 0, 1}, {3, 0, 0, 0}, {4, 0, 0, 0}}, 3, 1},
    {32, {{1, 22, 0, 1}, {2, 4, 0, 0}}, 3, 1},
    {16, {{1, 22, 2, 1}}, 3, 0},
    {32, {{1, 22, 1, 2}, {1, 22, 1, 3}}, 3, 1},
    {32, {{2, 3, 0, 0}, {1, 22, 0, 1}}, 3, 0},
    {48, {{1, 22, 0, 1}, {0, 3, 0, 0}, {2, 3, 0, 0}}, 3, 2},
    {48, {{1, 22, 0, 1}, {0, 3, 0, 0}, {0, 3, 0, 0}}, 3, 2},
};

static void check_rows(void)
{
    static const uint8_t text[] = "ab", shebang[] = "#!";
    for (size_t i = 0; i < sizeof ROWS / sizeof *ROWS; i++) {
        uint8_t rows[48], out[SPACE], report[REPORT];
        size_t rows_len = ROWS[i].rows_len;
        uint32_t refusal = ROWS[i].refusal;
        for (int j = 0; j < 3; j++)
            put_row(rows + 16 * j, ROWS[i].rows[j]);
        fill(out, SPACE), fill(report, REPORT);
        expect("rows", rl_layout(1, 4, 40, 40, rows, rows_len, text, 2, out, SPACE, report, REPORT) == refusal);
        expect("rows", reports(report, ROWS[i].place, 0, 0));
        expect("rows", rl_layout_source(shebang, 2, rows, rows_len, text, 2, out, 1, report, REPORT) == refusal);
        expect("rows", reports(report, ROWS[i].place, 0, 0));
        expect("rows", rl_layout(1, 17, 40, 40, rows, rows_len, text, 2, out, SPACE, report, REPORT) == 1);
        expect("rows", reports(report, 1, 0, 0) && all(out, SPACE, UNTOUCHED));
    }
}

/* `(,` again and again, with list width 0: each opens a group that breaks. */
static void check_depth(size_t groups, uint32_t refusal, uint64_t first, uint64_t third)
{
    enum { MOST = 65 };
    static const uint32_t opener[4] = {1, 4, 0, 1}, comma[4] = {1, 8, 1, 2};
    static const uint8_t text[] = "(,";
    uint8_t rows[32 * MOST], out[4 * MOST], report[REPORT];
    for (size_t i = 0; i < groups; i++)
        put_row(rows + 32 * i, opener), put_row(rows + 32 * i + 16, comma);
    fill(out, sizeof out), fill(report, REPORT);
    expect("depth", rl_layout(1, 0, 40, 0, rows, 32 * groups, text, 2, out, sizeof out, report, REPORT) == refusal);
    expect("depth", reports(report, first, 0, third));
    for (size_t i = 0; i < sizeof out; i++)
        expect("depth", out[i] == (refusal ? 0 : i < first ? "(\n,\n"[i % 4] : UNTOUCHED));
}

/* ---- the sheet reader */

#define NAMES "what kind text\n"

struct sheet_case {
    const char *sheet;
    size_t rows_len, text_len;
    uint32_t refusal;
    uint64_t first, second; /* rows and text bytes, or the place */
    const char *text;
    uint32_t numbers[8];    /* of the rows */
};

static const struct sheet_case SHEETS[] = {
    {NAMES "T 22 log\nL 3 \n", 40, 10, 0, 2, 3, "log", {1, 22, 0, 3, 0, 3, 3, 3}},
    {NAMES "R 0 a\\nb\\\\\n", 16, 4, 0, 1, 4, "a\nb\\", {2, 0, 0, 4}},
    {NAMES, 16, 4, 0, 0, 0, "", {0}},
    {"", 16, 4, 6, 0, 0, "", {0}},
    {"what kind text", 16, 4, 6, 0, 0, "", {0}},
    {NAMES "T 22 a\nT 35 b\n", 64, 8, 7, 2, 0, "", {0}},
    {NAMES "T 22 a", 64, 8, 7, 1, 0, "", {0}},
    {NAMES "T 22 a\nT 22 b\n", 31, 8, 8, 2, 0, "", {0}},
    {NAMES "T 22 abcd\n", 64, 3, 8, 1, 0, "", {0}},
    {NAMES "T 22 abcd\\x\n", 64, 3, 7, 1, 0, "", {0}},
};

static void check_sheet(const struct sheet_case *c)
{
    uint8_t rows[SPACE], text[SPACE], report[REPORT];
    fill(rows, SPACE), fill(text, SPACE), fill(report, REPORT);
    uint32_t refusal = rl_read_sheet((const uint8_t *)c->sheet, strlen(c->sheet), rows, c->rows_len, text, c->text_len,
                                     report, REPORT);
    int read = refusal == 0;
    size_t row_bytes = read ? 16 * c->first : 0, text_bytes = read ? c->second : 0;
    uint8_t left = read || refusal == 6 ? UNTOUCHED : 0;
    expect(c->sheet, refusal == c->refusal);
    expect(c->sheet, reports(report, c->first, c->second, 0));
    for (size_t i = 0; i < row_bytes; i++)
        expect(c->sheet, rows[i] == (uint8_t)(c->numbers[i / 4] >> (8 * (i % 4))));
    expect(c->sheet, memcmp(text, c->text, text_bytes) == 0);
    expect(c->sheet, all(rows + row_bytes, c->rows_len - row_bytes, left));
    expect(c->sheet, all(text + text_bytes, c->text_len - text_bytes, left));
    expect(c->sheet, all(rows + c->rows_len, SPACE - c->rows_len, UNTOUCHED));
    expect(c->sheet, all(text + c->text_len, SPACE - c->text_len, UNTOUCHED));
}

/* ---- reading back */

struct pieces_case {
    const char *text;
    size_t pieces_len;
    uint32_t refusal;
    uint64_t first; /* the pieces or the place */
    uint32_t numbers[8];
};

static const struct pieces_case TEXTS[] = {
    {"log(a)", 9, 0, 4, {0, 3, 3, 4, 4, 5, 5, 6}},
    {"1.5 ::x", 8, 0, 3, {0, 3, 4, 6, 6, 7}},
    {"'a\\'b' \"\n\"", 4, 0, 2, {0, 6, 7, 10}},
    {" \n", 0, 0, 0, {0}},
    {"", 2, 0, 0, {0}},
    {"ab \t", 8, 9, 3, {0}},
    {"ab 'c", 8, 9, 3, {0}},
    {"a b c", 5, 10, 4, {0}},
    {"a \t b", 2, 9, 2, {0}},
};

static void check_pieces(const struct pieces_case *c)
{
    uint32_t pieces[SPACE];
    uint8_t report[REPORT];
    fill(pieces, sizeof pieces), fill(report, REPORT);
    uint32_t refusal = rl_read_pieces((const uint8_t *)c->text, strlen(c->text), pieces, c->pieces_len, report, REPORT);
    size_t stored = refusal == 0 ? 2 * c->first : 0;
    uint8_t left = refusal == 0 ? UNTOUCHED : 0;
    expect(c->text, refusal == c->refusal);
    expect(c->text, reports(report, c->first, 0, 0));
    expect(c->text, memcmp(pieces, c->numbers, 4 * stored) == 0);
    expect(c->text, all((uint8_t *)(pieces + stored), 4 * (c->pieces_len - stored), left));
    expect(c->text, all((uint8_t *)(pieces + c->pieces_len), 4 * (SPACE - c->pieces_len), UNTOUCHED));
}

/* ---- spaces */

static const struct {
    uint32_t first, second, refusal, reported;
} SPACES[] = {
    {22, 22, 0, 1}, /* a b */
    {22, 4, 0, 0},  /* a( */
    {8, 22, 0, 1},  /* , a */
    {22, 8, 0, 0},  /* a, */
    {2, 3, 0, 0},   /* {} */
    {12, 22, 0, 0}, /* .a */
    {34, 34, 0, 1},
    {35, 0, 3, 0},
    {0, 35, 3, 1},
    {UINT32_MAX, UINT32_MAX, 3, 0},
};

static void check_spaces(void)
{
    for (size_t i = 0; i < sizeof SPACES / sizeof *SPACES; i++) {
        uint8_t report[REPORT];
        fill(report, REPORT);
        expect("space", rl_needs_space(SPACES[i].first, SPACES[i].second, report, REPORT) == SPACES[i].refusal);
        expect("space", reports(report, SPACES[i].reported, 0, 0));
    }
}

/* ---- refusal 11 */

static void check_report(size_t report_len)
{
    static const uint8_t sheet[] = NAMES "T 35 a\n", shebang[] = "#!";
    static const uint8_t row[16] = {[0] = 1, [4] = 22, [12] = 1};
    uint8_t rows[SPACE], text[SPACE], report[SPACE];
    uint32_t pieces[SPACE];
    fill(rows, SPACE), fill(text, SPACE), fill(report, SPACE), fill(pieces, sizeof pieces);
    expect("report", rl_layout(1, 4, 40, 40, row, 16, sheet, 1, text, SPACE, report, report_len) == 11);
    expect("report", rl_layout_source(shebang, 2, row, 16, sheet, 1, text, SPACE, report, report_len) == 11);
    expect("report", rl_read_sheet(sheet, sizeof sheet - 1, rows, SPACE, text, SPACE, report, report_len) == 11);
    expect("report", rl_read_pieces(sheet, sizeof sheet - 1, pieces, SPACE, report, report_len) == 11);
    expect("report", rl_needs_space(35, 35, report, report_len) == 11);
    expect("report", all(rows, SPACE, UNTOUCHED) && all(text, SPACE, UNTOUCHED) && all(report, SPACE, UNTOUCHED));
    expect("report", all((uint8_t *)pieces, sizeof pieces, UNTOUCHED));
}

int main(void)
{
    for (size_t i = 0; i < sizeof LAYOUTS / sizeof *LAYOUTS; i++)
        check_layout(&LAYOUTS[i]);
    check_rows();
    check_depth(64, 0, 256, 1);
    check_depth(65, 4, 128, 0);
    for (size_t i = 0; i < sizeof SHEETS / sizeof *SHEETS; i++)
        check_sheet(&SHEETS[i]);
    for (size_t i = 0; i < sizeof TEXTS / sizeof *TEXTS; i++)
        check_pieces(&TEXTS[i]);
    check_spaces();
    for (size_t n = 0; n <= SPACE; n++)
        if (n != REPORT)
            check_report(n);
    printf("%d compared, %d failed\n", compared, failed);
    return failed != 0;
}
