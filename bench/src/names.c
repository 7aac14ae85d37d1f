/* The bytes of names that are compared, in plain C: what the library's call is held against. */
#include <stddef.h>
#include <stdint.h>
#include <string.h>

enum { HEADER = 32, RECORD = 84, PARENT = 72, MAX_NODES = 4096, COUNT = 8 };

static uint32_t word_at(const uint8_t *bytes)
{
    uint32_t word;
    memcpy(&word, bytes, sizeof word);
    return word;
}

/* The place of the first byte that differs, from 1; two siblings' names differ. */
static uint64_t place(const uint8_t *a, const uint8_t *b)
{
    uint64_t k = 0;
    while (a[k] == b[k]) k++;
    return k + 1;
}

/* Each node with all siblings before it, from the nearest on, over the records of an image that meets rules 1 to 18; nothing is
 * checked. The root is nobody's sibling: 0 ends a row. */
uint64_t bench_plain_name_bytes(const uint8_t *image)
{
    uint32_t count = word_at(image + COUNT);
    const uint8_t *records = image + HEADER;
    uint32_t last[MAX_NODES], before[MAX_NODES];
    uint64_t sum = 0;
    memset(last, 0, sizeof last);
    for (uint32_t node = 1; node < count; node++) {
        const uint8_t *record = records + (size_t)RECORD * node;
        uint32_t parent = word_at(record + PARENT);
        before[node] = last[parent];
        last[parent] = node;
        for (uint32_t other = before[node]; other != 0; other = before[other])
            sum += place(record, records + (size_t)RECORD * other);
    }
    return sum;
}
