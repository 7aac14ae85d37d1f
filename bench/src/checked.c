/* All corners of an element, and its type, as one would write it in C by hand, with the checks that the library makes and no
 * proof: what the library's calls are held against. */
#include <stddef.h>
#include <stdint.h>
#include <string.h>

#include "checked.h"

enum { MIXED = 20, NGON_N = 22, NFACE_N = 23 };

const uint8_t nodes_per_element[FIXED_TYPES] = {0, 0, 1, 2, 3, 3, 6, 4, 8, 9, 4, 10, 5, 14, 6, 15, 18, 8, 20, 27, 0, 13};

static uint64_t nodes_of(uint64_t type)
{
    return type < FIXED_TYPES ? nodes_per_element[type] : 0;
}

static int inside(size_t length, uint64_t at, uint64_t width, uint64_t count)
{
    if (at > length) return 0;
    if (width == 4) return count <= (length - at) / 4;
    if (width == 8) return count <= (length - at) / 8;
    return 0;
}

static int64_t number_at(const uint8_t *image, uint64_t at, uint64_t width, uint64_t k)
{
    int64_t wide;
    int32_t narrow;
    if (width == 4) {
        memcpy(&narrow, image + at + 4 * k, 4);
        return narrow;
    }
    memcpy(&wide, image + at + 8 * k, 8);
    return wide;
}

/* An element: where its corners begin and end in the connectivity, and its type. */
typedef struct {
    uint64_t start, end, type;
} element_t;

/* Finds an element, or answers the rule that the library refuses it with. Compiled into both calls, which is faster. */
__attribute__((always_inline)) static inline uint64_t find_element(const uint8_t *image, size_t length,
                                                                   const gongaurora_section *section, uint64_t element,
                                                                   element_t *found)
{
    uint64_t at = section->connectivity_at, width = section->connectivity_width, numbers = section->connectivity_length;
    uint64_t k = element - section->first;
    found->type = section->type;
    if (element < section->first || element > section->last) return 41;
    if (!inside(length, at, width, numbers)) return 43;
    if (section->type == NGON_N || section->type == NFACE_N || section->type == MIXED) {
        int64_t low, high;
        if (k >> 62 != 0 || !inside(length, section->offsets_at, section->offsets_width, k + 2)) return 43;
        low = number_at(image, section->offsets_at, section->offsets_width, k);
        high = number_at(image, section->offsets_at, section->offsets_width, k + 1);
        if (low < 0 || high <= low || (uint64_t)high > numbers) return 43;
        found->start = (uint64_t)low;
        found->end = (uint64_t)high;
        if (section->type == MIXED) {
            found->type = (uint64_t)number_at(image, at, width, found->start++);
            if (nodes_of(found->type) == 0 || nodes_of(found->type) != found->end - found->start) return 43;
        }
    } else {
        uint64_t nodes = nodes_of(section->type);
        if (nodes == 0 || numbers / 32 < k / 32 * nodes) return 43;
        found->start = k * nodes;
        found->end = found->start + nodes;
        if (found->end > numbers) return 43;
    }
    return 0;
}

uint64_t checked_read_element(const uint8_t *image, size_t length, const gongaurora_section *section, uint64_t element,
                              int64_t *out, size_t room, uint64_t *count)
{
    uint64_t at = section->connectivity_at;
    element_t found;
    uint64_t rule = find_element(image, length, section, element, &found);
    *count = 0;
    if (rule != 0) return rule;
    if (found.end - found.start > room) return 46;
    if (section->connectivity_width == 4)
        for (uint64_t c = found.start; c < found.end; c++) out[c - found.start] = number_at(image, at, 4, c);
    else
        for (uint64_t c = found.start; c < found.end; c++) out[c - found.start] = number_at(image, at, 8, c);
    *count = found.end - found.start;
    return 0;
}

uint64_t checked_element_type(const uint8_t *image, size_t length, const gongaurora_section *section, uint64_t element,
                              uint64_t *type)
{
    element_t found;
    uint64_t rule = find_element(image, length, section, element, &found);
    *type = rule == 0 ? found.type : 0;
    return rule;
}
