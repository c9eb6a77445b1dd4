/* The bytes of a text or of a report from one offset up to another. */
#ifndef STRETCH_H
#define STRETCH_H

#include <stddef.h>
#include <stdint.h>

struct stretch {
    const uint8_t *text;
    size_t from, to;
};

static struct stretch part(struct stretch whole, size_t from, size_t to) { return (struct stretch){whole.text, from, to}; }

#endif
