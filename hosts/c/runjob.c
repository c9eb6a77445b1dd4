/* Runs one job and prints its report, or the sections of it that are asked for: help.h has the options and exit statuses, runjob.1 more on them. No figure
   is tested here: the call answers any. A refusal is shown as hosts/refusals/README.md has it. */
#include <errno.h>
#include <pthread.h>
#include <stdio.h>
#include <stdlib.h>
#include <string.h>

#include "folder.h"
#include "help.h"
#include "need.h"
#include "sections.h"
#include "shown.h"

enum { USAGE = 64, NO_SECTION = 65, NO_FILE = 66, NO_SYSTEM = 71, NO_FOLDER = 73, NO_IO = 74 };

enum { FIRST_BUFFER = 65536 };

/* The figures that options set, in the order of their names. */
enum { BUDGET, PAIRS, COMPOUNDS, GOALS, BUFFER, SCRATCH, FIGURES };

static const char *const names[FIGURES] = {"--budget", "--pairs", "--compounds", "--goals", "--buffer", "--scratch"};

/* The figures of the program glp. */
static const size_t usual[FIGURES] = {[BUDGET] = 10000, [PAIRS] = 1024, [COMPOUNDS] = 1024, [GOALS] = 128, [BUFFER] = TROSCUNEL_LONGEST_REPORT};

/* The figures of --check. A budget of 0 runs nothing. The room holds eight queries of 16 pairs, 32 compounds and 8 goals, which are the most that a text can
   have, so 7 cannot come. And no report fits into a buffer of no bytes: a text without a fault is answered by 8, and by 8 alone. */
static const size_t checking[FIGURES] = {[BUDGET] = 0, [PAIRS] = 8 * 16, [COMPOUNDS] = 8 * 32, [GOALS] = 8 * 8, [BUFFER] = 0};

/* What the command line asks for: the section, if one is, and the folder for all of them, or NULL. */
struct options {
    size_t figures[FIGURES];
    const char *file, *folder;
    size_t section;
    int one_section, check;
};

/* The arguments of a call and its answer. */
struct call {
    const uint8_t *text;
    size_t text_length;
    const size_t *figures;
    uint64_t *scratch;
    uint8_t *buffer;
    size_t buffer_length;
    uint32_t number;
    size_t line, length, offset;
};

static _Noreturn void end(int status, const char *what, const char *why) {
    fprintf(stderr, "runjob: %s: %s\n", what, why);
    if (status == USAGE)
        fputs(usage, stderr);
    exit(status);
}

static void flush(void) {
    if (fflush(stdout) != 0 || ferror(stdout))
        end(NO_IO, "standard output", strerror(errno));
}

/* Decimal digits alone, as a size. */
static size_t decimal(const char *name, const char *digits) {
    size_t number = 0;
    if (digits == NULL || *digits == '\0')
        end(USAGE, name, "a number is needed");
    for (; *digits != '\0'; digits++) {
        if (*digits < '0' || '9' < *digits)
            end(USAGE, name, "a number has digits only");
        size_t digit = (size_t)(*digits - '0');
        if ((SIZE_MAX - digit) / 10 < number)
            end(USAGE, name, "the number has more than 64 bits");
        number = 10 * number + digit;
    }
    return number;
}

static size_t need(const size_t *figures) { return need_of(figures[PAIRS], figures[COMPOUNDS], figures[GOALS]); }

/* The figure that an option sets, or FIGURES. */
static int figure_named(const char *word) {
    int f = 0;
    while (f < FIGURES && strcmp(word, names[f]) != 0)
        f++;
    return f;
}

/* Options that do not go together. */
static void judge(const struct options *o, int figures_given) {
    if (o->one_section && o->folder != NULL)
        end(USAGE, "--section and --sections", "one of them at a time");
    if (o->check && (o->one_section || o->folder != NULL))
        end(USAGE, "--check", "the text is not run, so there is no section");
    if (o->check && figures_given)
        end(USAGE, "--check", "the text alone is judged, no figure");
}

static _Noreturn void print_help(void) {
    fputs(usage, stdout);
    fputs(help, stdout);
    flush();
    exit(0);
}

static struct options options(int count, char **words) {
    struct options o = {.file = NULL};
    int given[FIGURES] = {0}, any = 0;
    memcpy(o.figures, usual, sizeof usual);
    for (int i = 1; i < count; i++) {
        int f = figure_named(words[i]);
        if (f < FIGURES) {
            given[f] = any = 1;
            o.figures[f] = decimal(names[f], words[i + 1]);
            i++;
        } else if (strcmp(words[i], "--section") == 0) {
            o.one_section = 1;
            o.section = decimal("--section", words[++i]);
        } else if (strcmp(words[i], "--sections") == 0) {
            o.folder = words[++i];
            if (o.folder == NULL)
                end(USAGE, "--sections", "a folder is needed");
        } else if (strcmp(words[i], "--check") == 0)
            o.check = 1;
        else if (strcmp(words[i], "--help") == 0)
            print_help();
        else if (words[i][0] == '-' && words[i][1] != '\0')
            end(USAGE, words[i], "no such option");
        else if (o.file != NULL)
            end(USAGE, words[i], "one file at a time");
        else
            o.file = words[i];
    }
    judge(&o, any);
    if (o.check)
        memcpy(o.figures, checking, sizeof checking);
    if (!given[SCRATCH])
        o.figures[SCRATCH] = need(o.figures);
    return o;
}

static int from_standard_input(const struct options *o) { return o->file == NULL || strcmp(o->file, "-") == 0; }

/* Some bytes more than are asked for, so that no pointer is null. */
static void *lent(size_t size) {
    void *memory = size < SIZE_MAX - 8 ? malloc(size + 8) : NULL;
    if (memory == NULL)
        end(NO_SYSTEM, "memory", "there is not enough");
    return memory;
}

/* The text of a file, up to one byte past the longest text, so that a longer one is refused with 3. */
static size_t text_of(const struct options *o, uint8_t *text) {
    FILE *input = from_standard_input(o) ? stdin : fopen(o->file, "rb");
    if (input == NULL)
        end(NO_FILE, o->file, strerror(errno));
    size_t length = fread(text, 1, TROSCUNEL_LONGEST_TEXT + 1, input);
    if (ferror(input))
        end(NO_IO, from_standard_input(o) ? "standard input" : o->file, strerror(errno));
    if (input != stdin)
        fclose(input);
    return length;
}

static void *called(void *argument) {
    struct call *c = argument;
    const size_t *f = c->figures;
    c->number = troscunel_call(c->text, c->text_length, f[BUDGET], f[PAIRS], f[COMPOUNDS], f[GOALS], c->scratch, f[SCRATCH], c->buffer, c->buffer_length,
                               &c->line, &c->length, &c->offset);
    return NULL;
}

/* The call, in a thread of its own: its stack is then as large as the call may want, whatever `ulimit -s` has left for this program, and where there is no room for it
   that is said before the call and not by a crash inside. Half a MiB is for the thread's own needs. */
static void call(struct call *c) {
    pthread_t thread;
    pthread_attr_t attributes;
    if (pthread_attr_init(&attributes) != 0 || pthread_attr_setstacksize(&attributes, TROSCUNEL_STACK + (1 << 19)) != 0 ||
        pthread_create(&thread, &attributes, called, c) != 0 || pthread_join(thread, NULL) != 0)
        end(NO_SYSTEM, "thread", "none can be had with the stack that the call needs");
    pthread_attr_destroy(&attributes);
}

static void call_with_buffer(struct call *c, size_t length) {
    free(c->buffer);
    c->buffer = lent(length);
    c->buffer_length = length;
    call(c);
}

/* A refusal of the text at an offset: row, column, the sentence, the line and a caret. */
static void refuse_at(const struct call *c, const char *name) {
    struct stretch text = {c->text, 0, c->text_length};
    struct stretch line = line_at(text, c->offset), variable = variable_at(text, c->offset);
    fprintf(stderr, "%s:%zu:%zu: ", name, row_of(line), c->offset - line.from + 1);
    if (c->number == TROSCUNEL_NO_ITEMS)
        fputs(c->offset == c->text_length ? "the text ends here, inside an item" : "this cannot stand here", stderr);
    else {
        fputs(is_reader(variable) ? "the reader " : "the writer ", stderr);
        put_bytes(stderr, variable);
        fputs(c->number == TROSCUNEL_TWICE ? " occurs a second time" : c->number == TROSCUNEL_WRITER_ALONE ? " has no reader" : " has no writer", stderr);
    }
    fputc('\n', stderr);
    put_line_and_caret(stderr, line, c->offset);
}

/* Any other refusal: one sentence, for a figure of the text or a guard with the line. */
static void refuse_whole(const struct call *c, const char *name) {
    fputs(name, stderr);
    switch (c->number) {
    case TROSCUNEL_OUT_OF_RANGE:
        fputs(": the budget is over 1,000,000, or a room figure is not 1 to 65,535\n", stderr);
        break;
    case TROSCUNEL_SCRATCH_SHORT:
        fputs(": the scratch is shorter than the room needs\n", stderr);
        break;
    case TROSCUNEL_TEXT_LONG:
        fputs(": the text is longer than 16,384 bytes\n", stderr);
        break;
    case TROSCUNEL_FIGURE_PASSED:
        if (c->line == 0)
            fputs(": the text has no query\n", stderr);
        else
            fprintf(stderr, ":%zu: the item that begins here passes a figure (docs/LIMITS.md has them)\n", c->line);
        break;
    case TROSCUNEL_GUARD_REFUSED:
        fprintf(stderr, ":%zu: in the clause that begins here a guard is not in the table, or has a variable that is no reader of a writer in the head\n", c->line);
        break;
    case TROSCUNEL_QUERIES_PASS_ROOM:
        fputs(": the queries alone pass a room figure\n", stderr);
        break;
    case TROSCUNEL_REPORT_LONG:
        if (c->length <= TROSCUNEL_LONGEST_REPORT)
            fprintf(stderr, ": the report has %zu bytes, more than were asked for\n", c->length);
        else
            fputs(": the report is longer than 16,777,216 bytes\n", stderr);
        break;
    }
}

static void refuse(const struct call *c, const char *name) {
    switch (c->number) {
    case TROSCUNEL_NO_ITEMS:
    case TROSCUNEL_TWICE:
    case TROSCUNEL_WRITER_ALONE:
    case TROSCUNEL_READER_ALONE:
        refuse_at(c, name);
        break;
    default:
        refuse_whole(c, name);
    }
}

static void print(struct stretch bytes) {
    fwrite(bytes.text + bytes.from, 1, bytes.to - bytes.from, stdout);
    flush();
}

static void print_section(struct stretch report, size_t wanted) {
    size_t last = 0;
    struct stretch section = run_line(report);
    do
        section = section_behind(report, section);
    while (!is_empty(section) && ++last != wanted);
    if (is_empty(section)) {
        fprintf(stderr, "runjob: --section %zu: no such section; the last one is %zu\n", wanted, last);
        exit(NO_SECTION);
    }
    print(section);
}

static void put_sections(struct stretch report, const char *folder) {
    static const char work[] = "/.sections-XXXXXX";
    size_t size = strlen(folder) + sizeof work;
    char *work_path = lent(size);
    snprintf(work_path, size, "%s%s", folder, work);
    struct failure failure = write_sections(folder, work_path, report);
    free(work_path);
    if (failure.error != 0) {
        fprintf(stderr, "runjob: %s", folder);
        if (failure.section != 0)
            fprintf(stderr, "/%zu", failure.section);
        fprintf(stderr, ": %s; no section is written\n", strerror(failure.error));
        exit(NO_FOLDER);
    }
    print(run_line(report));
}

static void put_report(struct stretch report, const struct options *o) {
    if (o->one_section)
        print_section(report, o->section);
    else if (o->folder != NULL)
        put_sections(report, o->folder);
    else
        print(report);
}

int main(int count, char **words) {
    static uint8_t text[TROSCUNEL_LONGEST_TEXT + 1];
    struct options o = options(count, words);
    const size_t *figures = o.figures;
    struct call c = {.text = text, .text_length = text_of(&o, text), .figures = figures};
    c.scratch = lent(figures[SCRATCH] < SIZE_MAX / 8 ? 8 * figures[SCRATCH] : SIZE_MAX);
    call_with_buffer(&c, figures[BUFFER] < FIRST_BUFFER ? figures[BUFFER] : FIRST_BUFFER);
    /* The call gives the length of a report that does not fit, and gives the same report again. */
    if (c.number == TROSCUNEL_REPORT_LONG && c.length <= figures[BUFFER] && c.length <= TROSCUNEL_LONGEST_REPORT)
        call_with_buffer(&c, c.length);
    int good = o.check && c.number == TROSCUNEL_REPORT_LONG;
    if (c.number == TROSCUNEL_RAN)
        put_report((struct stretch){c.buffer, 0, c.length}, &o);
    else if (!good)
        refuse(&c, from_standard_input(&o) ? "<stdin>" : o.file);
    free(c.buffer);
    free(c.scratch);
    return good ? 0 : (int)c.number;
}
