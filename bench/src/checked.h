/* The corners of an element and its type, in C by hand: see checked.c. */
#ifndef CHECKED_H
#define CHECKED_H

#include "gongaurora.h"

/* Answers as the library's export does: the rule, and the count, 0 in a refusal. */
uint64_t checked_read_element(const uint8_t *image, size_t length, const gongaurora_section *section, uint64_t element,
                              int64_t *out, size_t room, uint64_t *count);
uint64_t checked_element_type(const uint8_t *image, size_t length, const gongaurora_section *section, uint64_t element,
                              uint64_t *type);

/* Nodes per element of a fixed type; 0 of other types. */
enum { FIXED_TYPES = 22 };
extern const uint8_t nodes_per_element[FIXED_TYPES];

#endif
