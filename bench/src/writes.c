/* Images written again node by node through the header's calls, and the same bytes made zero and copied. */
#include "gongaurora.h"

#include <string.h>

enum { HEADER = 32, RECORD = 84, NODES = 8, WORDS_AT = 16, WORDS = 20, DATA_AT = 24, BYTES = 28 };
enum { TEXT = 32, LABEL = 32, TYPE = 64, RANK = 66, FIRST_WORD = 68, PARENT = 72, DATA = 76, SIZE = 80, MAX_RANK = 12 };

static uint32_t word_at(const uint8_t *bytes)
{
    uint32_t word;
    memcpy(&word, bytes, sizeof word);
    return word;
}

/* A node of an image that meets rules 1 to 18; its dimensions go to the list. */
static gongaurora_addition addition_of(const uint8_t *image, size_t node, uint64_t *dimensions)
{
    const uint8_t *record = image + HEADER + RECORD * node;
    gongaurora_addition addition;
    addition.name = (const char *)record;
    addition.name_length = TEXT;
    addition.label = (const char *)record + LABEL;
    addition.label_length = TEXT;
    addition.type = (const char *)record + TYPE;
    addition.type_length = 2;
    addition.dimensions = dimensions;
    addition.rank = record[RANK];
    addition.parent = word_at(record + PARENT);
    addition.data = image + word_at(image + DATA_AT) + word_at(record + DATA);
    addition.size = word_at(record + SIZE);
    memcpy(dimensions, image + word_at(image + WORDS_AT) + 8 * (size_t)word_at(record + FIRST_WORD), 8 * addition.rank);
    return addition;
}

/* Starts the image that is to be written again. */
gongaurora_writing bench_writer_start(const uint8_t *image, gongaurora_writer *writer, uint8_t *room, size_t length)
{
    return gongaurora_writer_start(writer, word_at(image + NODES), word_at(image + WORDS), word_at(image + BYTES), room, length);
}

/* Adds its nodes, up to the first that is refused. */
gongaurora_writing bench_writer_add(const uint8_t *image, gongaurora_writer *writer, uint8_t *room, size_t length)
{
    gongaurora_writing answer = {0, 0, 0};
    uint64_t dimensions[MAX_RANK];
    while (answer.rule == 0 && writer->node < writer->nodes) {
        gongaurora_addition addition = addition_of(image, writer->node, dimensions);
        answer = gongaurora_writer_add(writer, &addition, room, length);
    }
    return answer;
}

gongaurora_count bench_writer_finish(const gongaurora_writer *writer, const uint8_t *room, size_t length)
{
    return gongaurora_writer_finish(writer, room, length);
}

void bench_zero(uint8_t *room, size_t length) { memset(room, 0, length); }

void bench_copy(uint8_t *room, const uint8_t *image, size_t length) { memcpy(room, image, length); }
