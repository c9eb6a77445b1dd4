/* The call of document 01, proved in crates/job and exported by crates/troscunel_c: it reads a job text, checks it, runs it and writes its report.
   Link target/staticlib/libtroscunel.a, which `hosts/library` writes for x86-64. tests/prototype holds this file to the Rattle source. */
#ifndef TROSCUNEL_H
#define TROSCUNEL_H

#include <stddef.h>
#include <stdint.h>

#ifdef __cplusplus
extern "C" {
#endif

/* What the call answers. On 1 to 11 there is no report. */
enum troscunel_number {
    TROSCUNEL_RAN = 0,               /* the job ran, and its report stands in the buffer */
    TROSCUNEL_OUT_OF_RANGE = 1,      /* the budget is over 1,000,000, or a room figure is not 1 to 65,535 */
    TROSCUNEL_SCRATCH_SHORT = 2,     /* the scratch has fewer words than TROSCUNEL_NEED */
    TROSCUNEL_TEXT_LONG = 3,         /* the text is longer than 16,384 bytes */
    TROSCUNEL_NO_ITEMS = 4,          /* no item can be read: at this line and offset a token is bad or cannot stand, or the text ends */
    TROSCUNEL_TWICE = 5,             /* in the item that begins at this line the writer or reader at this offset stands a second time */
    TROSCUNEL_FIGURE_PASSED = 6,     /* the item that begins at this line passes a figure of docs/LIMITS.md; line 0: the text has no query */
    TROSCUNEL_QUERIES_PASS_ROOM = 7, /* the queries alone pass a room figure */
    TROSCUNEL_REPORT_LONG = 8,       /* the report is longer than the buffer or than 16,777,216 bytes */
    TROSCUNEL_WRITER_ALONE = 9,      /* in the clause that begins at this line the writer at this offset has no reader */
    TROSCUNEL_READER_ALONE = 10,     /* in the clause that begins at this line the reader at this offset has no writer */
    TROSCUNEL_GUARD_REFUSED = 11     /* in the clause that begins at this line a guard is not in the table, or has a variable that is no reader of a writer in the head */
};

/* The largest figures that are not refused. */
#define TROSCUNEL_LONGEST_TEXT 16384      /* bytes; one more is 3 */
#define TROSCUNEL_LARGEST_BUDGET 1000000  /* steps; one more is 1 */
#define TROSCUNEL_LARGEST_ROOM 65535      /* pairs, compounds and goals, each at least 1; 0 or one more is 1 */
#define TROSCUNEL_LONGEST_REPORT 16777216 /* bytes; one more is 8 */

/* How many 64-bit words of scratch a call needs for its room figures, each 1 to 65,535. */
#define TROSCUNEL_NEED(pairs, compounds, goals) (42624 + 7 * (size_t)(pairs) + 8 * (size_t)(compounds) + 6 * (size_t)(goals))

/* Bytes of stack that are enough for a call at any room (docs/LIMITS.md). It is measured, not proved, and scratch and buffer are not in it. */
#define TROSCUNEL_STACK 9437184

/* Runs the job text under a budget of steps and a room. Nothing has to be tested first: any text, figures and lengths get an answer.

   text, text_length        the job text, any bytes; it is read only
   budget                   the most steps that the run may take
   pairs, compounds, goals  the room: how many variable pairs and how many compounds queries and reductions may charge, and how many goals there may be,
                            active, waiting and failed together
   scratch, scratch_length  memory for the call, its length in 64-bit words; any content
   buffer, buffer_length    where the report goes; any content
   line                     receives the line of 4, 5, 6, 9, 10 and 11, counted from 1, and 0 otherwise
   length                   receives the report's length on 0; on 8 the length that it would have, at most 16,777,217; and 0 otherwise
   offset                   receives the byte of 4, 5, 9 and 10, counted from 0 over the whole text, and 0 otherwise: for 4 where the token begins, or
                            text_length where the text ends; for 5 where the second occurrence begins; for 9 and 10 the first one. It may lie on another
                            line than that of 5, 9 and 10, which is where the item begins

   The result is one of enum troscunel_number. They are tried in the order 1, 2, 3, the text item by item (4 and 6 at a token, then at the item's full stop
   11, and then of 5, 9 and 10 the one with the smallest offset), 7, 8.

   On 0 the report stands at the front of the buffer, without a zero byte behind it, and the other bytes of the buffer are as they were. On 1 to 11 all are.
   On 1, 2 and 3 the scratch is as it was; otherwise its first TROSCUNEL_NEED words are zero and the others as they were.

   No pointer is null, also where its length is 0, and no two of the six overlap. The call keeps nothing: equal arguments get equal answers, and calls with
   memory of their own may run side by side. */
uint32_t troscunel_call(const uint8_t *text, size_t text_length,
                        size_t budget, size_t pairs, size_t compounds, size_t goals,
                        uint64_t *scratch, size_t scratch_length,
                        uint8_t *buffer, size_t buffer_length,
                        size_t *line, size_t *length, size_t *offset);

#ifdef __cplusplus
}
#endif

#endif
