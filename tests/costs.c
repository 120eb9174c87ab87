/* What a call costs, as include/furzewrench.h says it.

       costs          stack bytes of each door, held to the header's bounds; calls from several threads
       costs worst    seconds of the worst layouts that were found, of 16,384 to 65,535 rows (half a minute)

   tests/run_doors.sh builds it and runs the first form. */
#define _POSIX_C_SOURCE 200112L
#include "furzewrench.h"
#include <pthread.h>
#include <stdio.h>
#include <stdlib.h>
#include <string.h>
#include <time.h>

enum { STACK = 65536, PAINT = 0xA5, LISTS = 2000, LIST_ROWS = 100, OUT = 1 << 18 };

static const uint8_t TEXT[] = "()[]{},:;?...::#!-else fn record abc 'x' \"y\" 12.5 ((((((((((((((((((((((";
static uint8_t rows[RL_ROW_BYTES * RL_MAX_ROWS], out[OUT], sheet[OUT];
static uint32_t pieces[2 * sizeof TEXT];
static size_t rows_len, sheet_len, out_len;
static uint32_t options[4];

static uint32_t by_chance(uint32_t below)
{
    static uint32_t seed = 1;
    seed ^= seed << 13, seed ^= seed >> 17, seed ^= seed << 5;
    return seed % below;
}

/* ---- the stack: each door runs in a thread whose stack was painted, and counts what has lost its paint */

static void run_layout(uint8_t *report)
{
    rl_layout(options[0], options[1], options[2], options[3], rows, rows_len, TEXT, sizeof TEXT - 1, out,
              out_len, report, RL_REPORT_BYTES);
}

static void run_layout_source(uint8_t *report)
{
    static const uint8_t source[] = "#!x\n";
    rl_layout_source(source, 4, rows, rows_len, TEXT, sizeof TEXT - 1, out, out_len, report, RL_REPORT_BYTES);
}

static void run_read_sheet(uint8_t *report)
{
    rl_read_sheet(sheet, sheet_len, rows, sizeof rows, out, out_len, report, RL_REPORT_BYTES);
}

static void run_read_pieces(uint8_t *report)
{
    rl_read_pieces(TEXT, 1 + rows_len % (sizeof TEXT - 1), pieces, 2 * options[2] % (2 * sizeof TEXT), report,
                   RL_REPORT_BYTES);
}

static void run_needs_space(uint8_t *report)
{
    rl_needs_space(options[2] % 36, options[3] % 36, report, RL_REPORT_BYTES);
}

static struct door {
    const char *name;
    void (*run)(uint8_t *report);
    size_t bound, used; /* bytes of stack */
} DOORS[] = {
    {"rl_layout", run_layout, 1200, 0},       {"rl_layout_source", run_layout_source, 1200, 0},
    {"rl_read_sheet", run_read_sheet, 150, 0}, {"rl_read_pieces", run_read_pieces, 300, 0},
    {"rl_needs_space", run_needs_space, 150, 0},
};
enum { DOOR_COUNT = sizeof DOORS / sizeof *DOORS };

static uint8_t *stack;

static void *on_paint(void *argument)
{
    struct door *door = argument;
    static uint8_t report[RL_REPORT_BYTES];
    uint8_t here;
    volatile uint8_t *low = stack;
    door->run(report);
    while (*low == PAINT)
        low++;
    size_t used = (uintptr_t)&here - (uintptr_t)low;
    if (used > door->used)
        door->used = used;
    return NULL;
}

static void use_stack(struct door *door)
{
    pthread_attr_t attributes;
    pthread_t thread;
    memset(stack, PAINT, STACK);
    pthread_attr_init(&attributes);
    if (pthread_attr_setstack(&attributes, stack, STACK))
        abort();
    if (pthread_create(&thread, &attributes, on_paint, door))
        abort();
    pthread_join(thread, NULL);
    pthread_attr_destroy(&attributes);
}

/* Rows of all kinds, half of the lists with trivia rows, and a sheet with some lines that are wrong. */
static void make_lists(void)
{
    uint32_t trivia = by_chance(2), last = RL_WHAT_TOKEN, n = by_chance(LIST_ROWS);
    sheet_len = sprintf((char *)sheet, "what kind text\n");
    for (uint32_t i = 0; i < n; i++) {
        uint32_t what = trivia && i + 1 < n ? by_chance(3) : RL_WHAT_TOKEN;
        uint32_t start = by_chance(sizeof TEXT - 20);
        if (what == RL_WHAT_TRAILING && (i == 0 || last == RL_WHAT_LEADING))
            what = RL_WHAT_TOKEN;
        uint32_t kind = by_chance(3) ? by_chance(RL_MAX_KIND + 1) : RL_KIND_LEFT_BRACE + by_chance(7);
        if (what != RL_WHAT_TOKEN)
            kind %= 4;
        rl_put_row(rows + RL_ROW_BYTES * i, what, kind, start, start + by_chance(20));
        sheet_len += sprintf((char *)sheet + sheet_len, "T %u a\\%s\n", kind, by_chance(200) ? "n" : "x");
        last = what;
    }
    rows_len = RL_ROW_BYTES * n;
    out_len = by_chance(8) ? OUT : by_chance(300);
    options[0] = by_chance(2), options[1] = by_chance(17);
    options[2] = by_chance(64), options[3] = by_chance(64);
}

static int check_stack(void)
{
    int failed = 0;
    if (posix_memalign((void **)&stack, 4096, STACK))
        abort();
    for (int i = 0; i < LISTS; i++)
        for (int d = 0; d < DOOR_COUNT; d++) {
            make_lists();
            use_stack(&DOORS[d]);
        }
    printf("stack bytes:");
    for (int d = 0; d < DOOR_COUNT; d++) {
        printf(" %s %zu", DOORS[d].name, DOORS[d].used);
        failed |= DOORS[d].used > DOORS[d].bound;
    }
    puts(failed ? ", MORE than the header says" : "");
    free(stack);
    return failed;
}

/* ---- threads: they share rows and text, and each has its own output, pieces and report */

enum { THREADS = 4, ROUNDS = 2000, SHARED_OUT = 1 << 14 };

struct own {
    uint8_t out[SHARED_OUT], report[RL_REPORT_BYTES];
    uint32_t pieces[2 * SHARED_OUT];
    struct rl_report laid, read;
};

static void lay_out_and_read(struct own *own)
{
    uint32_t laid = rl_layout(RL_DEFAULT_OPTIONS, rows, rows_len, TEXT, sizeof TEXT - 1, own->out, SHARED_OUT,
                              own->report, RL_REPORT_BYTES);
    own->laid = rl_get_report(own->report);
    uint32_t read = rl_read_pieces(own->out, own->laid.first, own->pieces, 2 * SHARED_OUT, own->report,
                                   RL_REPORT_BYTES);
    own->read = rl_get_report(own->report);
    if (laid != RL_REFUSAL_NONE || read != RL_REFUSAL_NONE)
        abort();
}

static void *many_rounds(void *argument)
{
    const struct own *first = argument;
    struct own *own = calloc(1, sizeof *own);
    uintptr_t differ = 0;
    for (int i = 0; i < ROUNDS; i++) {
        memset(own, 0, sizeof *own);
        lay_out_and_read(own);
        differ += memcmp(own, first, sizeof *own) != 0;
    }
    free(own);
    return (void *)differ;
}

static const uint32_t SEVEN[7] = {RL_KIND_LEFT_PAREN, RL_KIND_RIGHT_PAREN, RL_KIND_LEFT_BRACKET,
                                  RL_KIND_RIGHT_BRACKET, RL_KIND_LEFT_BRACE, RL_KIND_RIGHT_BRACE,
                                  RL_KIND_COMMA};

static int check_threads(void)
{
    static struct own first;
    pthread_t threads[THREADS];
    uintptr_t differ = 0;
    for (uint32_t i = 0; i < 1000; i++) /* the first seven bytes of the text, `()[]{},`, again and again */
        rl_put_row(rows + RL_ROW_BYTES * i, RL_WHAT_TOKEN, SEVEN[i % 7], i % 7, i % 7 + 1);
    rows_len = RL_ROW_BYTES * 1000;
    lay_out_and_read(&first);
    for (int i = 0; i < THREADS; i++)
        if (pthread_create(&threads[i], NULL, many_rounds, &first))
            abort();
    for (int i = 0; i < THREADS; i++) {
        void *result;
        pthread_join(threads[i], &result);
        differ += (uintptr_t)result;
    }
    printf("%d threads: %d layouts and readings, %d differ\n", THREADS, THREADS * ROUNDS, (int)differ);
    return differ != 0;
}

/* ---- the worst layouts: `(` and `[` by chance, so that each opener looks over all rows after it */

static double lay_out_seconds(size_t n, uint32_t width)
{
    uint8_t report[RL_REPORT_BYTES];
    struct timespec began, ended;
    clock_gettime(CLOCK_PROCESS_CPUTIME_ID, &began);
    uint32_t refusal = rl_layout(RL_STYLE_ALLMAN, 4, width, width, rows, RL_ROW_BYTES * n, TEXT,
                                 sizeof TEXT - 1, out, OUT, report, RL_REPORT_BYTES);
    clock_gettime(CLOCK_PROCESS_CPUTIME_ID, &ended);
    if (refusal != RL_REFUSAL_NONE)
        abort();
    return ended.tv_sec - began.tv_sec + 1e-9 * (ended.tv_nsec - began.tv_nsec);
}

static int show_worst(void)
{
    for (size_t n = 16384; n <= 65536; n *= 2) {
        size_t most = n < RL_MAX_ROWS ? n : RL_MAX_ROWS;
        for (size_t i = 0; i + 1 < most; i++) {
            uint32_t seventh = by_chance(2) && i + 2 < most ? 2 : 0; /* `[` or `(` */
            rl_put_row(rows + RL_ROW_BYTES * i, RL_WHAT_TOKEN, SEVEN[seventh], seventh, seventh + 1);
        }
        rl_put_row(rows + RL_ROW_BYTES * (most - 1), RL_WHAT_TOKEN, RL_KIND_COMMA, 6, 7);
        printf("%zu rows: %.2f s by the default options", most, lay_out_seconds(most, 40));
        printf(", %.2f s by widths of %zu\n", lay_out_seconds(most, most), most);
        fflush(stdout);
    }
    return 0;
}

int main(int count, char **words)
{
    if (count > 1 && strcmp(words[1], "worst") == 0)
        return show_worst();
    int failed = check_stack();
    return check_threads() || failed;
}
