/* Lays out a record as a lexer sends it, and goes on with the text only where it is plain: it reads the text
   back and prints the pieces, as a loader would collect them. Then the same record with a comment after a
   field, made a trailing row: the field after it is lost in the comment, and plain 0 is all that tells.

       cc -Iinclude examples/layout_table.c target/staticlib/libdoors.a -o layout_table */
#include "furzewrench.h"
#include <inttypes.h>
#include <stdio.h>
#include <stdlib.h>
#include <string.h>

struct token {
    uint32_t what, kind;
    const char *bytes;
};

#define TOKEN(kind, bytes) {RL_WHAT_TOKEN, RL_KIND_##kind, bytes}
#define HEAD TOKEN(RECORD, "record"), TOKEN(IDENTIFIER, "Log"), TOKEN(LEFT_BRACE, "{"), TOKEN(NEWLINE, "")
#define FIELD(name, value) TOKEN(IDENTIFIER, name), TOKEN(COLON, ":"), TOKEN(NUMBER_LITERAL, value)
#define COMMA TOKEN(COMMA, ",")
#define NEXT_LINE TOKEN(NEWLINE, "")

static const struct token PLAIN[] = {
    HEAD, FIELD("beacon", "15"), COMMA, NEXT_LINE, FIELD("power", "45"), NEXT_LINE, TOKEN(RIGHT_BRACE, "}"),
};

static const struct token TRAP[] = {
    HEAD, FIELD("beacon", "15"), COMMA, {RL_WHAT_TRAILING, RL_TRIVIA_LINE_COMMENT, "in orbits"},
    NEXT_LINE, FIELD("power", "45"), NEXT_LINE, TOKEN(RIGHT_BRACE, "}"),
};

enum { MOST_TOKENS = 32, TEXT_BYTES = 256 };

/* What a lexer hands over: rows, and the text that they name bytes of. */
struct list {
    uint8_t rows[MOST_TOKENS * RL_ROW_BYTES], text[TEXT_BYTES];
    size_t rows_len, text_len;
};

static void put_list(struct list *list, const struct token *tokens, size_t count)
{
    list->rows_len = list->text_len = 0;
    for (size_t i = 0; i < count; i++) {
        size_t n = strlen(tokens[i].bytes), start = list->text_len;
        if (i == MOST_TOKENS || n > TEXT_BYTES - start)
            exit(2);
        memcpy(list->text + start, tokens[i].bytes, n);
        rl_put_row(list->rows + list->rows_len, tokens[i].what, tokens[i].kind, (uint32_t)start,
                   (uint32_t)(start + n));
        list->rows_len += RL_ROW_BYTES;
        list->text_len += n;
    }
}

/* Ends the program where a call refused. */
static void must_be_taken(const char *call, uint32_t refusal, struct rl_report report)
{
    if (refusal == RL_REFUSAL_NONE)
        return;
    printf("%s: refusal %" PRIu32 " (%s) at %" PRIu64 "\n", call, refusal, rl_refusal_name(refusal),
           report.first);
    exit(1);
}

static void *must_be_had(void *memory)
{
    if (!memory)
        exit(2);
    return memory;
}

/* Lays out the list into memory that grows until the text fits; the caller frees it. */
static uint8_t *lay_out(const struct list *list, struct rl_report *laid)
{
    uint8_t report[RL_REPORT_BYTES], *out = NULL;
    for (size_t size = 16;; size *= 2) {
        out = must_be_had(realloc(out, size));
        uint32_t refusal = rl_layout(RL_DEFAULT_OPTIONS, list->rows, list->rows_len, list->text,
                                     list->text_len, out, size, report, sizeof report);
        *laid = rl_get_report(report);
        if (refusal != RL_REFUSAL_FULL) {
            must_be_taken("layout", refusal, *laid);
            return out;
        }
        printf("%zu bytes are too few: refusal %" PRIu32 " (%s) at token %" PRIu64 "\n", size, refusal,
               rl_refusal_name(refusal), laid->first);
    }
}

static void print_pieces(const uint8_t *text, size_t length)
{
    uint8_t report[RL_REPORT_BYTES];
    size_t most = 2 * length; /* two numbers for each byte always suffice */
    uint32_t *pieces = must_be_had(malloc((most + 1) * sizeof *pieces));
    uint32_t refusal = rl_read_pieces(text, length, pieces, most, report, sizeof report);
    struct rl_report read = rl_get_report(report);
    must_be_taken("reading back", refusal, read);
    printf("%" PRIu64 " pieces:", read.first);
    for (uint64_t i = 0; i < read.first; i++)
        printf(" %.*s", (int)(pieces[2 * i + 1] - pieces[2 * i]), (const char *)text + pieces[2 * i]);
    puts("");
    free(pieces);
}

static void load(const struct token *tokens, size_t count)
{
    struct list list;
    struct rl_report laid;
    put_list(&list, tokens, count);
    uint8_t *out = lay_out(&list, &laid);
    printf("length %" PRIu64 ", commas %" PRIu64 ", plain %" PRIu64 "\n", laid.first, laid.second,
           laid.third);
    fwrite(out, 1, laid.first, stdout);
    puts("");
    if (laid.third == 1)
        print_pieces(out, laid.first);
    else
        puts("not plain: not loaded");
    free(out);
}

int main(void)
{
    load(PLAIN, sizeof PLAIN / sizeof *PLAIN);
    puts("");
    load(TRAP, sizeof TRAP / sizeof *TRAP);
    return 0;
}
