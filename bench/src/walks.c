/* What the library is measured by and against: its calls as a C program makes them, the same walk with no check at all, and
 * one pass over the image's bytes. */
#include "checked.h"
#include "gongaurora.h"

#include <string.h>

enum { HEXA_8 = 17, MIXED = 20, NGON_N = 22, NFACE_N = 23 };

/* What a walk has read; sum is of all node numbers and of the types of MIXED elements, so that two walks can be held against
 * each other. */
typedef struct {
    uint64_t corners;
    uint64_t sum;
} walked_t;

/* The bytes as 32-bit words, summed. */
uint32_t bench_sum(const uint8_t *bytes, size_t length)
{
    uint32_t sum = 0, word;
    for (size_t at = 0; at + 4 <= length; at += 4) {
        memcpy(&word, bytes + at, 4);
        sum += word;
    }
    return sum;
}

gongaurora_validation bench_validate(const uint8_t *image, size_t length)
{
    return gongaurora_validate(image, length);
}

gongaurora_count bench_sections(const uint8_t *image, size_t length, uint64_t zone, gongaurora_section *out, size_t room)
{
    return gongaurora_sections(image, length, zone, out, room);
}

gongaurora_usage bench_face_usage(const uint8_t *image, size_t length, uint64_t zone, uint8_t *out, size_t room)
{
    return gongaurora_face_usage(image, length, zone, out, room);
}

gongaurora_parent_pair bench_parents(const uint8_t *image, size_t length, uint64_t zone, uint64_t face)
{
    return gongaurora_parents(image, length, zone, face);
}

gongaurora_agreement bench_parents_agree(const uint8_t *image, size_t length, uint64_t zone, uint8_t *out, size_t room)
{
    return gongaurora_parents_agree(image, length, zone, out, room);
}

/* Rules 1 to 18 alone, by the call that asks nothing else: the root's path is one byte. */
gongaurora_count bench_table(const uint8_t *image, size_t length)
{
    uint8_t path[1];
    return gongaurora_path(image, length, 0, path, sizeof path);
}

gongaurora_count bench_name_bytes(const uint8_t *image, size_t length)
{
    return gongaurora_name_bytes(image, length);
}

/* The face section that holds a face number. */
static const gongaurora_section *section_of_face(const gongaurora_section *sections, size_t count, uint64_t number)
{
    for (size_t k = 0; k < count; k++)
        if (sections[k].type == NGON_N && sections[k].first <= number && number <= sections[k].last) return &sections[k];
    return sections;
}

/* Cell to face to node, element by element; cells that are not made of faces straight to their nodes, those of MIXED sections
 * after their type. `read` reads all corners of an element and answers how many they are, `type_of` its type. */
#define ELEMENT_WALK(name, read, type_of)                                                                                    \
    walked_t name(const uint8_t *image, size_t length, const gongaurora_section *sections, size_t count)                     \
    {                                                                                                                        \
        enum { ROOM = 32 };                                                                                                  \
        int64_t of_cell[ROOM], of_face[ROOM];                                                                                \
        walked_t walked = {0, 0};                                                                                            \
        for (size_t k = 0; k < count; k++) {                                                                                 \
            const gongaurora_section *cells = &sections[k];                                                                  \
            if (cells->type != HEXA_8 && cells->type != MIXED && cells->type != NFACE_N) continue;                           \
            for (uint64_t cell = cells->first; cell <= cells->last; cell++) {                                                \
                if (cells->type == MIXED) walked.sum += type_of(image, length, cells, cell);                                 \
                uint64_t size = read(image, length, cells, cell, of_cell, ROOM);                                             \
                walked.corners += size;                                                                                      \
                for (uint64_t c = 0; c < size; c++) {                                                                        \
                    if (cells->type != NFACE_N) {                                                                            \
                        walked.sum += (uint64_t)of_cell[c];                                                                  \
                        continue;                                                                                            \
                    }                                                                                                        \
                    uint64_t number = of_cell[c] < 0 ? 0 - (uint64_t)of_cell[c] : (uint64_t)of_cell[c];                      \
                    const gongaurora_section *faces = section_of_face(sections, count, number);                              \
                    uint64_t nodes = read(image, length, faces, number, of_face, ROOM);                                      \
                    walked.corners += nodes;                                                                                 \
                    for (uint64_t n = 0; n < nodes; n++) walked.sum += (uint64_t)of_face[n];                                 \
                }                                                                                                            \
            }                                                                                                                \
        }                                                                                                                    \
        return walked;                                                                                                       \
    }

/* By the library, and by hand-written C with the same checks; 0 for a refusal. */
static uint64_t by_library(const uint8_t *image, size_t length, const gongaurora_section *section, uint64_t element,
                           int64_t *out, size_t room)
{
    return gongaurora_read_element(image, length, section, element, out, room).count;
}

static uint64_t type_by_library(const uint8_t *image, size_t length, const gongaurora_section *section, uint64_t element)
{
    return gongaurora_element_type(image, length, section, element).type;
}

static uint64_t by_hand(const uint8_t *image, size_t length, const gongaurora_section *section, uint64_t element,
                        int64_t *out, size_t room)
{
    uint64_t count;
    checked_read_element(image, length, section, element, out, room, &count);
    return count;
}

static uint64_t type_by_hand(const uint8_t *image, size_t length, const gongaurora_section *section, uint64_t element)
{
    uint64_t type;
    checked_element_type(image, length, section, element, &type);
    return type;
}

ELEMENT_WALK(bench_walk_elements, by_library, type_by_library)
ELEMENT_WALK(bench_walk_checked, by_hand, type_by_hand)

/* The same corner by corner; a MIXED element's type tells how many there are. */
walked_t bench_walk_corners(const uint8_t *image, size_t length, const gongaurora_section *sections, size_t count)
{
    walked_t walked = {0, 0};
    for (size_t k = 0; k < count; k++) {
        const gongaurora_section *cells = &sections[k];
        if (cells->type == HEXA_8) {
            for (uint64_t cell = cells->first; cell <= cells->last; cell++)
                for (uint64_t c = 1; c <= 8; c++) {
                    walked.sum += (uint64_t)gongaurora_read_corner(image, length, cells, cell, c).number;
                    walked.corners++;
                }
        }
        if (cells->type == MIXED) {
            for (uint64_t cell = cells->first; cell <= cells->last; cell++) {
                uint64_t type = gongaurora_element_type(image, length, cells, cell).type, nodes = nodes_per_element[type];
                walked.sum += type;
                for (uint64_t c = 1; c <= nodes; c++)
                    walked.sum += (uint64_t)gongaurora_read_corner(image, length, cells, cell, c).number;
                walked.corners += nodes;
            }
        }
        if (cells->type != NFACE_N) continue;
        for (uint64_t cell = cells->first; cell <= cells->last; cell++)
            for (uint64_t c = 1;; c++) {
                gongaurora_corner face = gongaurora_read_corner(image, length, cells, cell, c);
                if (face.rule != 0) break;
                uint64_t number = face.number < 0 ? 0 - (uint64_t)face.number : (uint64_t)face.number;
                const gongaurora_section *faces = section_of_face(sections, count, number);
                walked.corners++;
                for (uint64_t n = 1;; n++) {
                    gongaurora_corner node = gongaurora_read_corner(image, length, faces, number, n);
                    if (node.rule != 0) break;
                    walked.sum += (uint64_t)node.number;
                    walked.corners++;
                }
            }
    }
    return walked;
}

/* The types of all elements of MIXED sections, summed. `type_of` answers the type of an element. */
#define TYPE_WALK(name, type_of)                                                                                             \
    uint64_t name(const uint8_t *image, size_t length, const gongaurora_section *sections, size_t count)                     \
    {                                                                                                                        \
        uint64_t sum = 0;                                                                                                    \
        for (size_t k = 0; k < count; k++)                                                                                   \
            if (sections[k].type == MIXED)                                                                                   \
                for (uint64_t element = sections[k].first; element <= sections[k].last; element++)                           \
                    sum += type_of(image, length, &sections[k], element);                                                    \
        return sum;                                                                                                          \
    }

TYPE_WALK(bench_types, type_by_library)
TYPE_WALK(bench_types_checked, type_by_hand)

/* The same walk over numbers of one width with no check. */
#define PLAIN_WALK(name, integer)                                                                                            \
    static integer name##_at(const uint8_t *image, uint64_t at, uint64_t index)                                             \
    {                                                                                                                        \
        integer number;                                                                                                      \
        memcpy(&number, image + at + index * sizeof number, sizeof number);                                                  \
        return number;                                                                                                       \
    }                                                                                                                        \
    static walked_t name(const uint8_t *image, const gongaurora_section *sections, size_t count)                            \
    {                                                                                                                        \
        walked_t walked = {0, 0};                                                                                            \
        for (size_t k = 0; k < count; k++) {                                                                                 \
            const gongaurora_section *cells = &sections[k];                                                                  \
            uint64_t elements = cells->last - cells->first + 1;                                                              \
            if (cells->type == HEXA_8) {                                                                                     \
                for (uint64_t cell = 0; cell < elements; cell++)                                                             \
                    for (uint64_t c = 0; c < 8; c++) {                                                                       \
                        walked.sum += (uint64_t)name##_at(image, cells->connectivity_at, 8 * cell + c);                      \
                        walked.corners++;                                                                                    \
                    }                                                                                                        \
            }                                                                                                                \
            if (cells->type == MIXED) {                                                                                      \
                for (uint64_t cell = 0; cell < elements; cell++) {                                                           \
                    uint64_t start = (uint64_t)name##_at(image, cells->offsets_at, cell);                                    \
                    uint64_t end = (uint64_t)name##_at(image, cells->offsets_at, cell + 1);                                  \
                    for (uint64_t c = start; c < end; c++)                                                                   \
                        walked.sum += (uint64_t)name##_at(image, cells->connectivity_at, c);                                 \
                    walked.corners += end - start - 1;                                                                       \
                }                                                                                                            \
            }                                                                                                                \
            if (cells->type != NFACE_N) continue;                                                                            \
            for (uint64_t cell = 0; cell < elements; cell++) {                                                               \
                uint64_t end = (uint64_t)name##_at(image, cells->offsets_at, cell + 1);                                      \
                for (uint64_t c = (uint64_t)name##_at(image, cells->offsets_at, cell); c < end; c++) {                       \
                    int64_t face = name##_at(image, cells->connectivity_at, c);                                              \
                    uint64_t number = face < 0 ? 0 - (uint64_t)face : (uint64_t)face;                                        \
                    const gongaurora_section *faces = section_of_face(sections, count, number);                              \
                    uint64_t place = number - faces->first;                                                                  \
                    uint64_t last = (uint64_t)name##_at(image, faces->offsets_at, place + 1);                                \
                    walked.corners++;                                                                                        \
                    for (uint64_t n = (uint64_t)name##_at(image, faces->offsets_at, place); n < last; n++) {                 \
                        walked.sum += (uint64_t)name##_at(image, faces->connectivity_at, n);                                 \
                        walked.corners++;                                                                                    \
                    }                                                                                                        \
                }                                                                                                            \
            }                                                                                                                \
        }                                                                                                                    \
        return walked;                                                                                                       \
    }

PLAIN_WALK(plain_walk_4, int32_t)
PLAIN_WALK(plain_walk_8, int64_t)

walked_t bench_walk_plain(const uint8_t *image, size_t length, const gongaurora_section *sections, size_t count)
{
    (void)length;
    return sections->connectivity_width == 4 ? plain_walk_4(image, sections, count) : plain_walk_8(image, sections, count);
}

/* The types of all elements of MIXED sections, summed, with no check. */
uint64_t bench_types_plain(const uint8_t *image, size_t length, const gongaurora_section *sections, size_t count)
{
    uint64_t sum = 0;
    (void)length;
    for (size_t k = 0; k < count; k++) {
        uint64_t elements = sections[k].last - sections[k].first + 1;
        uint64_t offsets = sections[k].offsets_at, connectivity = sections[k].connectivity_at;
        if (sections[k].type != MIXED) continue;
        if (sections[k].connectivity_width == 4)
            for (uint64_t e = 0; e < elements; e++)
                sum += (uint64_t)plain_walk_4_at(image, connectivity, (uint64_t)plain_walk_4_at(image, offsets, e));
        else
            for (uint64_t e = 0; e < elements; e++)
                sum += (uint64_t)plain_walk_8_at(image, connectivity, (uint64_t)plain_walk_8_at(image, offsets, e));
    }
    return sum;
}

/* The parents of all faces of sections that store them, both of each face, in place; the sum of first + 3 second. */
uint64_t bench_parents_in_place(const uint8_t *image, size_t length, const gongaurora_section *sections, size_t count)
{
    uint64_t sum = 0;
    (void)length;
    for (size_t k = 0; k < count; k++) {
        uint64_t faces = sections[k].last - sections[k].first + 1, at = sections[k].parents_at;
        if (sections[k].parents_width == 4)
            for (uint64_t f = 0; f < faces; f++)
                sum += (uint64_t)plain_walk_4_at(image, at, f) + 3 * (uint64_t)plain_walk_4_at(image, at, faces + f);
        if (sections[k].parents_width == 8)
            for (uint64_t f = 0; f < faces; f++)
                sum += (uint64_t)plain_walk_8_at(image, at, f) + 3 * (uint64_t)plain_walk_8_at(image, at, faces + f);
    }
    return sum;
}
