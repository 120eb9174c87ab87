/* The header in two translation units of one program: tests/run_doors.sh compiles this file twice, once with
   SECOND defined, as C99 and as C++11. Each unit calls a door and the header's own functions. */
#include "furzewrench.h"
#include "furzewrench.h" /* a second time, as it may come by other headers */
#include <stdio.h>
#include <string.h>

#ifdef __cplusplus
extern "C"
#endif
int second_unit(void);

/* Lays out `a b`, and returns 1 where text and report are right. */
static int lays_out(enum rl_style style)
{
    uint8_t rows[2 * RL_ROW_BYTES], out[8], report[RL_REPORT_BYTES];
    const uint8_t text[] = {'a', 'b'};
    rl_put_row(rows, RL_WHAT_TOKEN, RL_KIND_IDENTIFIER, 0, 1);
    rl_put_row(rows + RL_ROW_BYTES, RL_WHAT_TOKEN, RL_KIND_IDENTIFIER, 1, 2);
    uint32_t refusal = rl_layout(style, 4, 40, 40, rows, sizeof rows, text, sizeof text, out, sizeof out,
                                 report, sizeof report);
    struct rl_report laid = rl_get_report(report);
    return refusal == RL_REFUSAL_NONE && laid.first == 3 && laid.second == 0 && laid.third == 1
           && memcmp(out, "a b", 3) == 0 && strcmp(rl_refusal_name(refusal), "none") == 0;
}

#ifdef SECOND
int second_unit(void)
{
    return lays_out(RL_STYLE_SAME_LINE);
}
#else
int main(void)
{
    int right = lays_out(RL_STYLE_ALLMAN) && second_unit();
    puts(right ? "two units: as expected" : "two units: FAILED");
    return !right;
}
#endif
