/* Framed jobs through the exported call, in the frames of `reference --framed`: `BUDGET PAIRS COMPOUNDS GOALS BUFFER SCRATCH NEED LENGTH`, LF,
   the text, LF. Prints number, line, length and offset of each and then its report. The scratch that is lent is as much longer or shorter than the call's own
   need as SCRATCH is than NEED. Around scratch and buffer stand guard bytes; one that has changed, or a buffer touched on a refusal, ends the program
   with status 1, and a bad frame with status 2. */
#include <stdio.h>
#include <stdlib.h>
#include <string.h>

#include "need.h"

enum { GUARD = 64, MARK = 0xa5, FULL_STOP = '.' };

static int fail(int status, const char *why) {
    fprintf(stderr, "framed: %s\n", why);
    return status;
}

/* So many bytes between guards. */
static uint8_t *lent(size_t bytes) {
    uint8_t *whole = malloc(bytes + 2 * GUARD);
    if (whole != NULL)
        memset(whole, MARK, bytes + 2 * GUARD);
    return whole;
}

static int guarded(const uint8_t *whole, size_t bytes) {
    for (size_t i = 0; i < GUARD; i++)
        if (whole[i] != MARK || whole[GUARD + bytes + i] != MARK)
            return 0;
    return 1;
}

/* Whether all of these bytes have the value: the first has it, and each has its neighbour's. */
static int all(const uint8_t *bytes, size_t from, size_t to, uint8_t value) {
    return to <= from || (bytes[from] == value && memcmp(bytes + from, bytes + from + 1, to - from - 1) == 0);
}

int main(void) {
    unsigned long long budget, pairs, compounds, goals, size, given, need, text_length;
    int fields;
    while ((fields = scanf("%llu %llu %llu %llu %llu %llu %llu %llu", &budget, &pairs, &compounds, &goals, &size, &given, &need, &text_length)) == 8) {
        if (getchar() != '\n')
            return fail(2, "a frame without an LF behind its figures");
        uint8_t *text = malloc(text_length + 1);
        if (text == NULL || fread(text, 1, text_length + 1, stdin) != text_length + 1 || text[text_length] != '\n')
            return fail(2, "a frame that is cut off");
        size_t own = need_of(pairs, compounds, goals);
        size_t words = need <= given ? own + (given - need) : own < need - given ? 0 : own - (need - given);
        uint8_t *scratch = lent(8 * words), *buffer = lent(size);
        if (scratch == NULL || buffer == NULL)
            return fail(2, "no memory");
        uint8_t *report = buffer + GUARD;
        memset(report, FULL_STOP, size);
        size_t line = 0, length = 0, offset = 0;
        uint32_t number = troscunel_call(text, text_length, budget, pairs, compounds, goals, (uint64_t *)(scratch + GUARD), words, report, size, &line, &length,
                                         &offset);
        if (!guarded(scratch, 8 * words) || !guarded(buffer, size))
            return fail(1, "a guard byte has changed");
        if (!all(report, number == TROSCUNEL_RAN ? length : 0, size, FULL_STOP))
            return fail(1, "a byte of the buffer has changed that is no byte of a report");
        size_t cleared = number == TROSCUNEL_RAN || TROSCUNEL_NO_ITEMS <= number ? 8 * own : 0;
        if (!all(scratch + GUARD, 0, cleared, 0) || !all(scratch + GUARD, cleared, 8 * words, MARK))
            return fail(1, "the scratch is not as document 01 has it");
        printf("%u %zu %zu %zu\n", (unsigned)number, line, length, offset);
        if (number == TROSCUNEL_RAN)
            fwrite(report, 1, length, stdout);
        free(text);
        free(scratch);
        free(buffer);
    }
    return fields == EOF ? 0 : fail(2, "a bad frame");
}
