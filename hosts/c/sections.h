/* A report cut into its parts: the run line, then a section for each query, from its line `query K ..` up to the next one. The report's other lines are
   `NAME = value`, whose name begins with an uppercase letter, and `active`, `waiting` or `failed` with a goal: a line that begins with `q` begins a section. */
#ifndef SECTIONS_H
#define SECTIONS_H

#include <string.h>

#include "stretch.h"

static size_t behind_line(struct stretch report, size_t from) {
    const uint8_t *end = memchr(report.text + from, '\n', report.to - from);
    return end == NULL ? report.to : (size_t)(end - report.text) + 1;
}

/* The part that begins at an offset; it is empty at the report's end. */
static struct stretch part_at(struct stretch report, size_t from) {
    size_t to = behind_line(report, from);
    while (to < report.to && report.text[to] != 'q')
        to = behind_line(report, to);
    return part(report, from, to);
}

static struct stretch run_line(struct stretch report) { return part_at(report, report.from); }

/* The section behind a part; it is empty behind the last one. */
static struct stretch section_behind(struct stretch report, struct stretch before) { return part_at(report, before.to); }

static int is_empty(struct stretch bytes) { return bytes.from == bytes.to; }

#endif
