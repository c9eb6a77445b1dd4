/* The part of a text that a refusal points at, as hosts/refusals/README.md has it: row, column, the line and a caret. */
#include <stdio.h>

#include "stretch.h"

/* The line that holds an offset, without its end. The text's end belongs to the line of the last byte. */
static struct stretch line_at(struct stretch text, size_t offset) {
    size_t from = offset < text.to || offset == 0 ? offset : offset - 1, to = from;
    while (0 < from && text.text[from - 1] != '\n')
        from--;
    while (to < text.to && text.text[to] != '\n')
        to++;
    if (from < to && text.text[to - 1] == '\r')
        to--;
    return part(text, from, to);
}

/* The number of a line, from 1. */
static size_t row_of(struct stretch line) {
    size_t row = 1;
    for (size_t i = 0; i < line.from; i++)
        row += line.text[i] == '\n';
    return row;
}

static int in_name(uint8_t byte) {
    return ('0' <= byte && byte <= '9') || ('A' <= byte && byte <= 'Z') || byte == '_' || ('a' <= byte && byte <= 'z');
}

/* The variable that begins at an offset, a reader with its `?`. */
static struct stretch variable_at(struct stretch text, size_t offset) {
    size_t to = offset;
    while (to < text.to && in_name(text.text[to]))
        to++;
    return part(text, offset, to < text.to && text.text[to] == '?' ? to + 1 : to);
}

static int is_reader(struct stretch variable) { return variable.from < variable.to && variable.text[variable.to - 1] == '?'; }

static int is_printed(uint8_t byte) { return byte == '\t' || (' ' <= byte && byte <= '~'); }

static void put_bytes(FILE *to, struct stretch bytes) {
    for (size_t i = bytes.from; i < bytes.to; i++)
        fprintf(to, is_printed(bytes.text[i]) ? "%c" : "\\x%02x", bytes.text[i]);
}

/* As wide as the bytes: a tab stays a tab. */
static void put_blanks(FILE *to, struct stretch bytes) {
    for (size_t i = bytes.from; i < bytes.to; i++)
        fputs(bytes.text[i] == '\t' ? "\t" : is_printed(bytes.text[i]) ? " " : "    ", to);
}

/* How many bytes are shown on each side at most. */
enum { SHOWN = 36 };

/* The line, cut around an offset of it, and a caret under that. */
static void put_line_and_caret(FILE *to, struct stretch line, size_t offset) {
    size_t at = offset < line.to ? offset : line.to;
    struct stretch before = part(line, at - line.from > SHOWN ? at - SHOWN : line.from, at);
    struct stretch behind = part(line, at, line.to - at > SHOWN ? at + SHOWN : line.to);
    int cut = line.from < before.from;
    fputs(cut ? ".." : "", to);
    put_bytes(to, before);
    put_bytes(to, behind);
    fputs(behind.to < line.to ? "..\n" : "\n", to);
    fputs(cut ? "  " : "", to);
    put_blanks(to, before);
    fputs("^\n", to);
}
