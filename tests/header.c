/* header FOLDER: every call of gongaurora.h on the sample images, each field against its known value. C99 and C++. */
#include "gongaurora.h"
#include "gongaurora.h"

#include <stdio.h>
#include <string.h>

static uint8_t bytes[20001];
static uint8_t *const image = bytes + 1; /* an odd address */
static size_t length;
static int failures;

#define CHECK(fact) ((fact) ? (void)0 : fail(__LINE__, #fact))

static void fail(int line, const char *fact)
{
    printf("line %d: not so: %s\n", line, fact);
    failures++;
}

static void load(const char *folder, const char *name)
{
    char path[1000];
    FILE *file;
    sprintf(path, "%.900s/%.80s", folder, name);
    file = fopen(path, "rb");
    length = 0;
    CHECK(file != NULL);
    if (file == NULL) return;
    length = fread(image, 1, sizeof bytes - 1, file);
    fclose(file);
}

enum { HEADER = 32, RECORD = 84, NAME = 32, LABEL = 32, TYPE = 64, RANK = 66, FIRST = 68, PARENT = 72, DATA = 76, SIZE = 80 };

static uint32_t word_at(size_t at)
{
    return image[at] | (uint32_t)image[at + 1] << 8 | (uint32_t)image[at + 2] << 16 | (uint32_t)image[at + 3] << 24;
}

static void set_word(size_t at, uint32_t word)
{
    int k;
    for (k = 0; k < 4; k++) image[at + k] = (uint8_t)(word >> 8 * k);
}

/* A number of 4 or 8 bytes in the image. */
static uint64_t number_at(uint64_t at, uint64_t width)
{
    return word_at((size_t)at) | (width == 8 ? (uint64_t)word_at((size_t)at + 4) << 32 : 0);
}

static void check_validation(const char *folder)
{
    gongaurora_validation verdict;
    load(folder, "tetrahedron.img");
    verdict = gongaurora_validate(image, length);
    CHECK(verdict.rule == 0 && verdict.node == 0);
    CHECK(verdict.validated == 17 && verdict.skipped == 0 && verdict.zones == 1 && verdict.sections == 2);
    verdict = gongaurora_validate(image, 31);
    CHECK(verdict.rule == GONGAURORA_RULE_IMAGE_LENGTH && verdict.node == 0);
    verdict = gongaurora_validate(NULL, 0);
    CHECK(verdict.rule == GONGAURORA_RULE_IMAGE_LENGTH && verdict.node == 0);
}

/* The samples in the calls that validate: each gives validation's refusal with node and entry. */
static void check_refusals(const char *folder)
{
    static const struct {
        const char *name;
        uint64_t rule, node, entry;
    } known[] = {{"tetrahedron.img", 0, 0, 0},
                 {"polyhedra.img", 0, 0, 0},
                 {"hexahedra.img", 0, 0, 0},
                 {"mixed.img", 0, 0, 0},
                 {"structured_rind.img", 0, 0, 0},
                 {"wall.img", 0, 0, 0},
                 {"near_29.img", GONGAURORA_RULE_ELEMENT_LENGTHS, 9, 0},
                 {"near_30.img", GONGAURORA_RULE_FIRST_OFFSET, 9, 0},
                 {"near_31.img", GONGAURORA_RULE_OFFSET_ORDER, 9, 0},
                 {"near_32.img", GONGAURORA_RULE_LAST_OFFSET, 9, 0},
                 {"near_33.img", GONGAURORA_RULE_ELEMENT_SIZE, 9, 0},
                 {"near_34.img", GONGAURORA_RULE_NODE_REFERENCE, 9, 12},
                 {"near_35.img", GONGAURORA_RULE_ZERO_FACE, 13, 4},
                 {"near_36.img", GONGAURORA_RULE_NO_ELEMENT, 13, 4},
                 {"near_37.img", GONGAURORA_RULE_NO_FACE, 13, 4},
                 {"near_38.img", GONGAURORA_RULE_MIXED_TYPE, 9, 0},
                 {"near_39.img", GONGAURORA_RULE_PARENT_ELEMENTS, 9, 0}};
    size_t k;
    for (k = 0; k < sizeof known / sizeof *known; k++) {
        uint64_t rule = known[k].rule, node = known[k].node, entry = known[k].entry;
        gongaurora_section sections[3];
        uint8_t use[36];
        gongaurora_validation verdict;
        gongaurora_count found;
        gongaurora_usage usage;
        gongaurora_sizes sizes;
        gongaurora_parent_pair parents;
        gongaurora_agreement agreement;
        load(folder, known[k].name);
        verdict = gongaurora_validate(image, length);
        CHECK(verdict.rule == rule && verdict.node == node && verdict.entry == entry);
        found = gongaurora_sections(image, length, 3, sections, 3);
        CHECK(found.rule == rule && found.node == node && found.entry == entry);
        usage = gongaurora_face_usage(image, length, 3, use, sizeof use);
        CHECK(usage.rule == rule && usage.node == node && usage.entry == entry && usage.element == 0);
        sizes = gongaurora_data_size(image, length, 0);
        CHECK(rule == 0 ? sizes.rule == GONGAURORA_RULE_NO_SUCH_NODE : sizes.rule == rule);
        CHECK(sizes.node == node && sizes.entry == entry);
        if (rule == 0) continue;
        CHECK(verdict.validated == 0 && verdict.skipped == 0 && verdict.zones == 0 && verdict.sections == 0);
        CHECK(found.count == 0 && usage.count == 0);
        parents = gongaurora_parents(image, length, 3, 1);
        CHECK(parents.rule == rule && parents.node == node && parents.entry == entry && parents.first == 0 && parents.second == 0);
        memset(use, 9, sizeof use);
        agreement = gongaurora_parents_agree(image, length, 3, use, sizeof use);
        CHECK(agreement.rule == rule && agreement.node == node && agreement.entry == entry);
        CHECK(agreement.element == 0 && agreement.agrees == 0 && use[0] == 9 && use[35] == 9);
        CHECK(sizes.directions == 0 && sizes.size[0] == 0 && sizes.size[1] == 0 && sizes.size[2] == 0);
    }
}

static void check_refusal(uint64_t rule, uint64_t node, uint64_t entry)
{
    gongaurora_validation verdict = gongaurora_validate(image, length);
    CHECK(verdict.rule == rule && verdict.node == node && verdict.entry == entry);
}

/* The tetrahedron with other faces of its cell, element 5: the first that is wrong decides. */
static void check_face_entries(const char *folder)
{
    static const struct {
        uint32_t faces[4];
        uint64_t rule, entry;
    } known[] = {{{1, 2, 3, 4}, 0, 0},
                 {{4, 0xffffffff, 0xfffffffd, 2}, 0, 0},
                 {{0, 5, 6, 4}, GONGAURORA_RULE_ZERO_FACE, 1},
                 {{5, 0, 6, 4}, GONGAURORA_RULE_NO_FACE, 1},
                 {{6, 5, 0, 4}, GONGAURORA_RULE_NO_ELEMENT, 1},
                 {{1, 0xfffffffb, 0, 6}, GONGAURORA_RULE_NO_FACE, 2},
                 {{1, 2, 0xfffffffa, 0}, GONGAURORA_RULE_NO_ELEMENT, 3},
                 {{1, 2, 3, 0x80000000}, GONGAURORA_RULE_NO_ELEMENT, 4}};
    enum { FACES = 1828 };
    size_t k, place;
    load(folder, "tetrahedron.img");
    for (k = 0; k < sizeof known / sizeof *known; k++) {
        for (place = 0; place < 4; place++) set_word(FACES + 4 * place, known[k].faces[place]);
        check_refusal(known[k].rule, known[k].rule == 0 ? 0 : 13, known[k].entry);
    }
}

/* The sample of a MIXED section, whose element 19 begins at place 127 with its type: the type numbers are counted. */
static void check_mixed_entries(const char *folder)
{
    enum { CONNECTIVITY = 2992, TYPE = 127, NODE = 128, LAST = 333, VERTICES = 64 };
    load(folder, "mixed.img");
    CHECK(word_at(CONNECTIVITY + 4 * (TYPE - 1)) == 17);
    set_word(CONNECTIVITY + 4 * (LAST - 1), VERTICES + 1);
    check_refusal(GONGAURORA_RULE_NODE_REFERENCE, 9, LAST);
    set_word(CONNECTIVITY + 4 * (NODE - 1), 0);
    check_refusal(GONGAURORA_RULE_NODE_REFERENCE, 9, NODE);
    set_word(CONNECTIVITY + 4 * (TYPE - 1), 18);
    check_refusal(GONGAURORA_RULE_MIXED_TYPE, 9, 0);
}

/* The number that a refusal's entry names, and the calls that need rules 1 to 18 alone: they have no entry. */
static void check_entry_values(const char *folder)
{
    static const struct {
        const char *name;
        uint64_t array, entry, number;
    } known[] = {{"near_34.img", 12, 12, 5}, {"near_35.img", 16, 4, 0}, {"near_36.img", 16, 4, 6}, {"near_37.img", 16, 4, 5}};
    size_t k;
    for (k = 0; k < sizeof known / sizeof *known; k++) {
        uint8_t path[GONGAURORA_PATH_ROOM];
        gongaurora_value value;
        gongaurora_count answer;
        load(folder, known[k].name);
        value = gongaurora_array_value(image, length, known[k].array, known[k].entry);
        CHECK(value.rule == 0 && value.node == 0 && value.entry == 0);
        CHECK(value.kind == GONGAURORA_KIND_WHOLE && value.bits == known[k].number);
        value = gongaurora_array_value(image, length, known[k].array, 13);
        CHECK(value.rule == GONGAURORA_RULE_INDEX && value.node == 0 && value.entry == 0);
        answer = gongaurora_path(image, length, known[k].array, path, sizeof path);
        CHECK(answer.rule == 0 && answer.node == 0 && answer.entry == 0 && answer.count > 0);
        answer = gongaurora_name_bytes(image, length);
        CHECK(answer.rule == 0 && answer.node == 0 && answer.entry == 0 && answer.count == 88);
    }
}

/* The words of a refusal as the export writes them, and the places of the fields in the structs. */
static void check_words(const char *folder)
{
    uint8_t words[49], known[49];
    load(folder, "near_34.img");
    memset(words, 9, sizeof words);
    memset(known, 9, sizeof known);
    CHECK(gongaurora_export_validate(image, length, words, 47) == GONGAURORA_RULE_ROOM);
    CHECK(gongaurora_export_validate(image, length, NULL, 0) == GONGAURORA_RULE_ROOM);
    CHECK(memcmp(words, known, sizeof words) == 0);
    memset(known, 0, 48);
    known[0] = 9;
    known[8] = 12;
    CHECK(gongaurora_export_validate(image, length, words, 49) == GONGAURORA_RULE_NODE_REFERENCE);
    CHECK(memcmp(words, known, sizeof words) == 0);
    CHECK(sizeof(gongaurora_validation) == 8 + 48 && offsetof(gongaurora_validation, entry) == 16);
    CHECK(sizeof(gongaurora_count) == 8 + 24 && offsetof(gongaurora_count, entry) == 16);
    CHECK(sizeof(gongaurora_usage) == 8 + 32 && offsetof(gongaurora_usage, entry) == 16);
    CHECK(sizeof(gongaurora_sizes) == 8 + 48 && offsetof(gongaurora_sizes, entry) == 16);
    CHECK(sizeof(gongaurora_value) == 8 + 32 && offsetof(gongaurora_value, entry) == 16);
    CHECK(sizeof(gongaurora_parent_pair) == 8 + 32 && offsetof(gongaurora_parent_pair, entry) == 16);
    CHECK(sizeof(gongaurora_agreement) == 8 + 32 && offsetof(gongaurora_agreement, entry) == 16);
    CHECK(sizeof(gongaurora_corner) == 24 && sizeof(gongaurora_type) == 24);
    CHECK(sizeof(gongaurora_writing) == 8 + 16 && offsetof(gongaurora_writing, entry) == 16);
    CHECK(GONGAURORA_WRITER_NUMBERS == 6 && sizeof(gongaurora_writer) == 24 && offsetof(gongaurora_writer, node) == 12);
    CHECK(GONGAURORA_SECTION_NUMBERS == 11 && sizeof(gongaurora_section) == 88);
    CHECK(offsetof(gongaurora_section, parents_at) == 72 && offsetof(gongaurora_section, parents_width) == 80);
}

static void check_sections(const char *folder)
{
    static const uint64_t known[33] = {9, 22, 1, 4, 1736, 4, 1756, 4, 12, 0, 0, 13, 23, 5, 5, 1820, 4,
                                       1828, 4, 4, 0, 0, 7, 7, 7, 7, 7, 7, 7, 7, 7, 7, 7};
    gongaurora_section sections[3];
    gongaurora_section *faces = &sections[0], *cells = &sections[1];
    gongaurora_count found;
    gongaurora_corner read;
    int64_t corners[4] = {9, 9, 9, 9};
    int k;
    load(folder, "tetrahedron.img");
    for (k = 0; k < 33; k++) ((uint64_t *)(void *)sections)[k] = 7;
    found = gongaurora_sections(image, length, 3, sections, 1);
    CHECK(found.rule == GONGAURORA_RULE_ROOM && found.node == 0 && found.entry == 0 && found.count == 0);
    CHECK(faces->node == 7);
    found = gongaurora_sections(image, length, 3, NULL, 0);
    CHECK(found.rule == GONGAURORA_RULE_ROOM && found.count == 0);
    found = gongaurora_sections(image, length, 2, sections, 3);
    CHECK(found.rule == GONGAURORA_RULE_NO_SUCH_NODE && found.count == 0);
    found = gongaurora_sections(image, length, 3, sections, 3);
    CHECK(found.rule == 0 && found.node == 0 && found.count == 2);
    CHECK(memcmp(sections, known, sizeof known) == 0);
    CHECK(faces->node == 9 && faces->type == 22 && faces->first == 1 && faces->last == 4);
    CHECK(faces->offsets_at == 1736 && faces->offsets_width == 4);
    CHECK(faces->connectivity_at == 1756 && faces->connectivity_width == 4 && faces->connectivity_length == 12);
    CHECK(faces->parents_at == 0 && faces->parents_width == 0 && cells->parents_at == 0 && cells->parents_width == 0);
    read = gongaurora_read_corner(image, length, faces, 4, 3);
    CHECK(read.rule == 0 && read.node == 0 && read.number == 4);
    read = gongaurora_read_corner(image, length, cells, 5, 2);
    CHECK(read.rule == 0 && read.number == 2);
    read = gongaurora_read_corner(image, length, faces, 4, 4);
    CHECK(read.rule == GONGAURORA_RULE_INDEX && read.node == 0 && read.number == 0);
    read = gongaurora_read_corner(image, length, faces, 5, 1);
    CHECK(read.rule == GONGAURORA_RULE_ELEMENT_NUMBER && read.number == 0);
    read = gongaurora_read_corner(image, 1700, faces, 4, 3);
    CHECK(read.rule == GONGAURORA_RULE_UNREADABLE && read.number == 0);
    found = gongaurora_read_element(image, length, faces, 5, corners, 4);
    CHECK(found.rule == GONGAURORA_RULE_ELEMENT_NUMBER && found.node == 0 && found.entry == 0 && found.count == 0);
    CHECK(corners[0] == 9);
    found = gongaurora_read_element(image, 1700, faces, 4, corners, 4);
    CHECK(found.rule == GONGAURORA_RULE_UNREADABLE && found.count == 0 && corners[0] == 9);
    found = gongaurora_read_element(image, length, faces, 4, corners, 2);
    CHECK(found.rule == GONGAURORA_RULE_ROOM && found.count == 0 && corners[0] == 9);
    found = gongaurora_read_element(image, length, faces, 4, corners, 4);
    CHECK(found.rule == 0 && found.node == 0 && found.entry == 0 && found.count == 3);
    CHECK(corners[2] == 4 && corners[3] == 9);
    load(folder, "polyhedra.img");
    found = gongaurora_sections(image, length, 3, sections, 3);
    CHECK(found.rule == 0 && found.count == 3);
    CHECK(faces->parents_at == 3100 && faces->parents_width == 4 && cells->parents_at == 0 && cells->parents_width == 0);
    CHECK(sections[2].parents_at == 3940 && sections[2].parents_width == 4);
    read = gongaurora_read_corner(image, length, cells, cells->first, 1);
    CHECK(read.rule == 0 && read.number == -13);
}

/* The sample of a MIXED section: 45 elements, 19 to 27 hexahedra, those before and behind them prisms. */
static gongaurora_section load_mixed(const char *folder)
{
    gongaurora_section cells;
    gongaurora_count found;
    load(folder, "mixed.img");
    memset(&cells, 0, sizeof cells);
    found = gongaurora_sections(image, length, 3, &cells, 1);
    CHECK(found.rule == 0 && found.count == 1);
    return cells;
}

static void check_mixed(const char *folder)
{
    static const uint64_t known[11] = {9, 20, 1, 45, 2808, 4, 2992, 4, 333, 0, 0};
    static const int64_t hexahedron[9] = {17, 18, 22, 21, 33, 34, 38, 37, 9}, prism[7] = {11, 31, 27, 12, 32, 28, 9};
    gongaurora_section cells = load_mixed(folder);
    gongaurora_count found;
    gongaurora_corner read;
    gongaurora_type type;
    int64_t corners[9] = {9, 9, 9, 9, 9, 9, 9, 9, 9};
    uint64_t element, corner;
    CHECK(memcmp(&cells, known, sizeof known) == 0);
    for (element = 1; element <= 45; element++) {
        type = gongaurora_element_type(image, length, &cells, element);
        CHECK(type.rule == 0 && type.node == 0 && type.type == (19 <= element && element <= 27 ? 17u : 14u));
    }
    found = gongaurora_read_element(image, length, &cells, 18, corners, 5);
    CHECK(found.rule == GONGAURORA_RULE_ROOM && found.count == 0 && corners[0] == 9);
    found = gongaurora_read_element(image, length, &cells, 18, corners, 7);
    CHECK(found.rule == 0 && found.count == 6 && memcmp(corners, prism, sizeof prism) == 0);
    found = gongaurora_read_element(image, length, &cells, 19, corners, 9);
    CHECK(found.rule == 0 && found.count == 8 && memcmp(corners, hexahedron, sizeof hexahedron) == 0);
    for (corner = 1; corner <= 8; corner++) {
        read = gongaurora_read_corner(image, length, &cells, 19, corner);
        CHECK(read.rule == 0 && read.number == hexahedron[corner - 1]);
    }
    read = gongaurora_read_corner(image, length, &cells, 19, 9);
    CHECK(read.rule == GONGAURORA_RULE_INDEX && read.number == 0);
    read = gongaurora_read_corner(image, length, &cells, 18, 7);
    CHECK(read.rule == GONGAURORA_RULE_INDEX && read.number == 0);
    read = gongaurora_read_corner(image, length, &cells, 18, 0);
    CHECK(read.rule == GONGAURORA_RULE_INDEX && read.number == 0);
}

/* The same sample with another number as the type of element 19, a hexahedron. */
static void check_changed_types(const char *folder)
{
    static const struct {
        uint32_t stored;
        int lawful;
    } types[] = {{17, 1}, {8, 1}, {14, 0}, {18, 0}, {0, 0}, {1, 0}, {20, 0}, {22, 0}, {23, 0}, {24, 0}, {0xffffffef, 0}};
    enum { STORED = 2992 + 4 * 126 };
    gongaurora_section cells = load_mixed(folder);
    int64_t corners[8] = {9, 9, 9, 9, 9, 9, 9, 9};
    size_t k;
    CHECK(word_at(STORED) == 17);
    for (k = 0; k < sizeof types / sizeof *types; k++) {
        uint64_t rule = types[k].lawful ? 0 : GONGAURORA_RULE_UNREADABLE;
        gongaurora_validation verdict;
        gongaurora_type type;
        set_word(STORED, types[k].stored);
        verdict = gongaurora_validate(image, length);
        CHECK(types[k].lawful ? verdict.rule == 0 : verdict.rule == GONGAURORA_RULE_MIXED_TYPE && verdict.node == 9);
        type = gongaurora_element_type(image, length, &cells, 19);
        CHECK(type.rule == rule && type.node == 0 && type.type == (types[k].lawful ? types[k].stored : 0));
        CHECK(gongaurora_read_corner(image, length, &cells, 19, 1).rule == rule);
        CHECK(gongaurora_read_element(image, length, &cells, 19, corners, 8).rule == rule);
        type = gongaurora_element_type(image, length, &cells, 20);
        CHECK(type.rule == 0 && type.type == 17);
    }
}

/* In sections that are not MIXED every element has the section's type. */
static void check_section_types(const char *folder)
{
    static const struct {
        const char *name;
        int section;
        uint64_t type, element;
    } known[] = {{"tetrahedron.img", 0, 22, 4}, {"tetrahedron.img", 1, 23, 5}, {"hexahedra.img", 0, 17, 27}};
    size_t k;
    for (k = 0; k < sizeof known / sizeof *known; k++) {
        gongaurora_section sections[2];
        const gongaurora_section *section = &sections[known[k].section];
        gongaurora_type type;
        load(folder, known[k].name);
        CHECK(gongaurora_sections(image, length, 3, sections, 2).rule == 0);
        type = gongaurora_element_type(image, length, section, known[k].element);
        CHECK(type.rule == 0 && type.node == 0 && type.type == known[k].type);
        type = gongaurora_element_type(image, length, section, known[k].element + 1);
        CHECK(type.rule == GONGAURORA_RULE_ELEMENT_NUMBER && type.node == 0 && type.type == 0);
        type = gongaurora_element_type(image, length / 2, section, known[k].element);
        CHECK(type.rule == GONGAURORA_RULE_UNREADABLE && type.node == 0 && type.type == 0);
    }
}

static void check_element_type_refused(const char *folder)
{
    gongaurora_section cells = load_mixed(folder);
    const uint64_t *numbers = (const uint64_t *)(const void *)&cells;
    const size_t all = GONGAURORA_SECTION_NUMBERS;
    uint8_t words[9], known[9];
    gongaurora_type type;
    memset(words, 9, sizeof words);
    memset(known, 9, sizeof known);
    CHECK(gongaurora_export_element_type(image, length, numbers, all - 1, 19, words, 8) == GONGAURORA_RULE_ROOM);
    CHECK(gongaurora_export_element_type(image, length, NULL, 0, 19, words, 8) == GONGAURORA_RULE_ROOM);
    CHECK(gongaurora_export_element_type(image, length, numbers, all, 19, words, 7) == GONGAURORA_RULE_ROOM);
    CHECK(gongaurora_export_element_type(image, length, numbers, all, 0, words, 7) == GONGAURORA_RULE_ROOM);
    CHECK(gongaurora_export_element_type(image, length, numbers, all, 19, NULL, 0) == GONGAURORA_RULE_ROOM);
    CHECK(memcmp(words, known, sizeof words) == 0);
    memset(known, 0, 8);
    known[0] = 17;
    CHECK(gongaurora_export_element_type(image, length, numbers, all, 19, words, 9) == 0);
    CHECK(memcmp(words, known, sizeof words) == 0);
    known[0] = 0;
    CHECK(gongaurora_export_element_type(image, length, numbers, all, 0, words, 9) == GONGAURORA_RULE_ELEMENT_NUMBER);
    CHECK(memcmp(words, known, sizeof words) == 0);
    type = gongaurora_element_type(image, length, &cells, 46);
    CHECK(type.rule == GONGAURORA_RULE_ELEMENT_NUMBER && type.node == 0 && type.type == 0);
    type = gongaurora_element_type(NULL, 0, &cells, 46);
    CHECK(type.rule == GONGAURORA_RULE_ELEMENT_NUMBER && type.type == 0);
    type = gongaurora_element_type(NULL, 0, &cells, 45);
    CHECK(type.rule == GONGAURORA_RULE_UNREADABLE && type.type == 0);
    type = gongaurora_element_type(image, length - 1, &cells, 1);
    CHECK(type.rule == GONGAURORA_RULE_UNREADABLE && type.node == 0 && type.type == 0);
}

static void check_face_usage(const char *folder)
{
    uint8_t use[5] = {9, 9, 9, 9, 9};
    gongaurora_usage answer;
    load(folder, "tetrahedron.img");
    answer = gongaurora_face_usage(image, length, 3, use, 3);
    CHECK(answer.rule == GONGAURORA_RULE_USAGE_ROOM && answer.node == 0 && answer.count == 0 && use[0] == 9);
    answer = gongaurora_face_usage(image, length, 3, NULL, 0);
    CHECK(answer.rule == GONGAURORA_RULE_USAGE_ROOM);
    answer = gongaurora_face_usage(image, length, 3, use, 5);
    CHECK(answer.rule == 0 && answer.node == 0 && answer.element == 0 && answer.count == 4);
    CHECK(use[0] == GONGAURORA_USE_FORWARD && use[1] == 1 && use[2] == 1 && use[3] == 1 && use[4] == 9);
    image[1828 + 12] = 3; /* the cell's faces are 1 2 3 3 now */
    answer = gongaurora_face_usage(image, length, 3, use, 5);
    CHECK(answer.rule == GONGAURORA_RULE_FACE_REPEATED && answer.node == 13 && answer.entry == 0 && answer.element == 5);
    CHECK(answer.count == 0);
    CHECK(use[0] == GONGAURORA_USE_NONE && use[3] == 0 && use[4] == 9);
}

/* The parents of every face of the sample that has them: by the call, and in place by the entry of the face's section. */
static void check_parents(const char *folder)
{
    static const struct {
        uint64_t face, first, second;
    } known[] = {{1, 37, 38}, {4, 43, 44}, {12, 40, 44}, {13, 37, 0}, {23, 41, 0}, {36, 44, 0}};
    static const uint64_t none[] = {0, 37, 44, 45, (uint64_t)1 << 32 | 1, (uint64_t)-1};
    gongaurora_section sections[3];
    gongaurora_parent_pair parents;
    uint64_t face, faces = 0;
    size_t k;
    load(folder, "polyhedra.img");
    CHECK(gongaurora_sections(image, length, 3, sections, 3).count == 3);
    for (k = 0; k < 3; k++) {
        gongaurora_section s = sections[k];
        if (s.type != 22) continue;
        for (face = s.first; face <= s.last; face++, faces++) {
            uint64_t at = s.parents_at + s.parents_width * (face - s.first);
            parents = gongaurora_parents(image, length, 3, face);
            CHECK(parents.rule == 0 && parents.node == 0 && parents.entry == 0);
            CHECK(parents.first == number_at(at, s.parents_width));
            CHECK(parents.second == number_at(at + s.parents_width * (s.last - s.first + 1), s.parents_width));
        }
    }
    CHECK(faces == 36);
    for (k = 0; k < sizeof known / sizeof *known; k++) {
        parents = gongaurora_parents(image, length, 3, known[k].face);
        CHECK(parents.rule == 0 && parents.first == known[k].first && parents.second == known[k].second);
    }
    for (k = 0; k < sizeof none / sizeof *none; k++) {
        parents = gongaurora_parents(image, length, 3, none[k]);
        CHECK(parents.rule == GONGAURORA_RULE_ELEMENT_NUMBER && parents.node == 0 && parents.entry == 0);
        CHECK(parents.first == 0 && parents.second == 0);
    }
    parents = gongaurora_parents(image, length, 2, 1);
    CHECK(parents.rule == GONGAURORA_RULE_NO_SUCH_NODE && parents.node == 0 && parents.first == 0);
}

/* Images with no parents, and answers that have no room. */
static void check_parents_refused(const char *folder)
{
    uint8_t words[33], known[33], use[4] = {9, 9, 9, 9};
    gongaurora_parent_pair parents;
    gongaurora_agreement agreement;
    uint64_t face;
    load(folder, "tetrahedron.img");
    for (face = 0; face <= 5; face++) {
        uint64_t rule = 1 <= face && face <= 4 ? GONGAURORA_RULE_NO_PARENTS : GONGAURORA_RULE_ELEMENT_NUMBER;
        parents = gongaurora_parents(image, length, 3, face);
        CHECK(parents.rule == rule && parents.node == 0 && parents.entry == 0 && parents.first == 0 && parents.second == 0);
    }
    agreement = gongaurora_parents_agree(image, length, 3, use, 4);
    CHECK(agreement.rule == GONGAURORA_RULE_NO_PARENTS && agreement.node == 0 && agreement.entry == 0);
    CHECK(agreement.element == 0 && agreement.agrees == 0 && use[0] == 9 && use[3] == 9);
    agreement = gongaurora_parents_agree(image, length, 3, NULL, 0);
    CHECK(agreement.rule == GONGAURORA_RULE_NO_PARENTS);
    agreement = gongaurora_parents_agree(image, length, 2, use, 4);
    CHECK(agreement.rule == GONGAURORA_RULE_NO_SUCH_NODE && agreement.agrees == 0 && use[0] == 9);
    load(folder, "hexahedra.img");
    CHECK(gongaurora_parents(image, length, 3, 1).rule == GONGAURORA_RULE_ELEMENT_NUMBER);
    CHECK(gongaurora_parents_agree(image, length, 3, use, 4).rule == GONGAURORA_RULE_NO_PARENTS);
    CHECK(gongaurora_parents(NULL, 0, 3, 1).rule == GONGAURORA_RULE_IMAGE_LENGTH);
    CHECK(gongaurora_parents_agree(NULL, 0, 3, use, 4).rule == GONGAURORA_RULE_IMAGE_LENGTH);
    load(folder, "polyhedra.img");
    memset(words, 9, sizeof words);
    memset(known, 9, sizeof known);
    CHECK(gongaurora_export_parents(image, length, 3, 1, words, 31) == GONGAURORA_RULE_ROOM);
    CHECK(gongaurora_export_parents(image, length, 3, 0, words, 31) == GONGAURORA_RULE_ROOM);
    CHECK(gongaurora_export_parents(image, length, 3, 1, NULL, 0) == GONGAURORA_RULE_ROOM);
    CHECK(memcmp(words, known, sizeof words) == 0);
    memset(known, 0, 32);
    known[16] = 37;
    known[24] = 38;
    CHECK(gongaurora_export_parents(image, length, 3, 1, words, 33) == 0);
    CHECK(memcmp(words, known, sizeof words) == 0);
    known[16] = known[24] = 0;
    CHECK(gongaurora_export_parents(image, length, 3, 0, words, 33) == GONGAURORA_RULE_ELEMENT_NUMBER);
    CHECK(memcmp(words, known, sizeof words) == 0);
}

/* Whether the parents of the image at hand agree, and what is left in memory: a byte in front of the room and three behind it
 * stay; the others are those of face usage. */
static void check_agreement(uint64_t agrees)
{
    uint8_t memory[40], use[40];
    gongaurora_agreement answer;
    memset(memory, 9, sizeof memory);
    memset(use, 9, sizeof use);
    CHECK(gongaurora_face_usage(image, length, 3, use + 1, 36).count == 36);
    answer = gongaurora_parents_agree(image, length, 3, memory + 1, 36);
    CHECK(answer.rule == 0 && answer.node == 0 && answer.entry == 0 && answer.element == 0 && answer.agrees == agrees);
    CHECK(memcmp(memory, use, sizeof use) == 0);
    memset(memory, 9, sizeof memory);
    answer = gongaurora_parents_agree(image, length, 3, memory + 1, 38);
    CHECK(answer.rule == 0 && answer.agrees == agrees && memcmp(memory, use, sizeof use) == 0);
}

/* The sample with parents, and with others in their place. Faces 1 to 12 and 13 to 36 have their parents at these places. */
static void check_agreements(const char *folder)
{
    enum { INNER = 3100, INNER_SECOND = INNER + 4 * 12, OUTER = 3940, OUTER_SECOND = OUTER + 4 * 24 };
    load(folder, "polyhedra.img");
    check_agreement(1);
    set_word(INNER, 38); /* the parents of face 1 in the other order */
    set_word(INNER_SECOND, 37);
    check_agreement(1);
    set_word(INNER_SECOND, 38); /* one of its cells twice */
    check_agreement(0);
    set_word(INNER_SECOND, 39); /* one of its cells, and one that does not use it */
    check_agreement(0);
    set_word(INNER_SECOND, 0); /* one of its cells alone */
    check_agreement(0);
    set_word(INNER_SECOND, 37);
    set_word(OUTER_SECOND - 4, 43); /* face 36, used once, with another cell */
    check_agreement(0);
    set_word(OUTER_SECOND - 4, 44);
    set_word(OUTER_SECOND + 4 * 23, 44); /* with its cell twice */
    check_agreement(0);
    set_word(OUTER_SECOND + 4 * 23, 0);
    check_agreement(1);
    set_word(OUTER, 0);
    check_refusal(GONGAURORA_RULE_PARENT_ELEMENTS, 18, 0);
    set_word(OUTER, 36);
    check_refusal(GONGAURORA_RULE_PARENT_ELEMENTS, 18, 0);
    set_word(OUTER, 0xffffffdb); /* -37 */
    check_refusal(GONGAURORA_RULE_PARENT_ELEMENTS, 18, 0);
    set_word(OUTER_SECOND, 45);
    set_word(OUTER, 37);
    check_refusal(GONGAURORA_RULE_PARENT_ELEMENTS, 18, 0);
}

/* Too little room, and a face used twice with one sign. */
static void check_agreement_refused(const char *folder)
{
    enum { CELLS = 3248 };
    uint8_t use[38], same[38], words[33], known[33];
    gongaurora_agreement answer;
    size_t room;
    load(folder, "polyhedra.img");
    memset(use, 9, sizeof use);
    memset(same, 9, sizeof same);
    for (room = 0; room < 36; room++) {
        answer = gongaurora_parents_agree(image, length, 3, use + 1, room);
        CHECK(answer.rule == GONGAURORA_RULE_USAGE_ROOM && answer.node == 0 && answer.element == 0 && answer.agrees == 0);
    }
    CHECK(gongaurora_parents_agree(image, length, 3, NULL, 0).rule == GONGAURORA_RULE_USAGE_ROOM);
    CHECK(memcmp(use, same, sizeof use) == 0);
    memset(words, 9, sizeof words);
    memset(known, 9, sizeof known);
    CHECK(gongaurora_export_parents_agree(image, length, 3, use + 1, 36, words, 31) == GONGAURORA_RULE_ROOM);
    CHECK(gongaurora_export_parents_agree(image, length, 3, use + 1, 36, NULL, 0) == GONGAURORA_RULE_ROOM);
    CHECK(gongaurora_export_parents_agree(image, length, 2, use + 1, 0, words, 31) == GONGAURORA_RULE_ROOM);
    CHECK(memcmp(use, same, sizeof use) == 0 && memcmp(words, known, sizeof words) == 0);
    memset(known, 0, 32);
    known[24] = 1;
    CHECK(gongaurora_export_parents_agree(image, length, 3, use + 1, 36, words, 33) == 0);
    CHECK(memcmp(words, known, sizeof words) == 0);
    set_word(CELLS + 4, word_at(CELLS)); /* cell 37 uses its first face twice */
    answer = gongaurora_parents_agree(image, length, 3, use + 1, 36);
    CHECK(answer.rule == GONGAURORA_RULE_FACE_REPEATED && answer.node == 14 && answer.entry == 0 && answer.element == 37);
    CHECK(answer.agrees == 0);
    memset(same + 1, 0, 36);
    CHECK(memcmp(use, same, sizeof use) == 0);
    known[0] = 14;
    known[16] = 37;
    known[24] = 0;
    CHECK(gongaurora_export_parents_agree(image, length, 3, use + 1, 36, words, 33) == GONGAURORA_RULE_FACE_REPEATED);
    CHECK(memcmp(words, known, sizeof words) == 0);
}

static void check_path(const char *folder)
{
    uint8_t path[GONGAURORA_PATH_ROOM];
    gongaurora_count answer;
    load(folder, "near_34.img");
    memset(path, '*', sizeof path);
    answer = gongaurora_path(image, length, 10, path, 29);
    CHECK(answer.rule == GONGAURORA_RULE_ROOM && answer.node == 0 && path[0] == '*');
    answer = gongaurora_path(image, length, 10, NULL, 0);
    CHECK(answer.rule == GONGAURORA_RULE_ROOM);
    answer = gongaurora_path(image, length, 10, path, sizeof path);
    CHECK(answer.rule == 0 && answer.node == 0 && answer.count == 30);
    CHECK(memcmp(path, "/Base/Zone1/Faces/ElementRange*", 31) == 0);
    answer = gongaurora_path(image, length, 17, path, sizeof path);
    CHECK(answer.rule == GONGAURORA_RULE_NO_SUCH_NODE && answer.node == 0 && answer.count == 0);
}

static uint8_t *name_of(size_t node)
{
    return image + HEADER + RECORD * node;
}

/* What gongaurora_name_bytes answers, by two loops over the records. */
static uint64_t name_bytes(void)
{
    size_t count = word_at(8), a, b, place;
    uint64_t sum = 0;
    for (a = 0; a < count; a++)
        for (b = a + 1; b < count; b++) {
            if (word_at(HEADER + RECORD * a + PARENT) != word_at(HEADER + RECORD * b + PARENT)) continue;
            for (place = 1; place < NAME && name_of(a)[place - 1] == name_of(b)[place - 1]; place++) {}
            sum += place;
        }
    return sum;
}

/* Leaves the root of the image alone. */
static void cut_to_root(void)
{
    length = HEADER + RECORD;
    set_word(4, HEADER + RECORD);
    set_word(8, 1);
    set_word(16, HEADER + RECORD);
    set_word(20, 0);
    set_word(24, HEADER + RECORD);
    set_word(28, 0);
}

static void check_name_bytes(const char *folder)
{
    static const struct {
        const char *name;
        uint64_t count;
    } known[] = {{"tetrahedron.img", 88}, {"polyhedra.img", 122}, {"hexahedra.img", 45}, {"structured_rind.img", 41},
                 {"wall.img", 43},        {"near_29.img", 88},    {"near_30.img", 88},   {"near_31.img", 88},
                 {"near_32.img", 88},     {"near_33.img", 88},    {"near_34.img", 88},   {"near_35.img", 88},
                 {"near_36.img", 88},     {"near_37.img", 88},    {"near_38.img", 61},   {"near_39.img", 91},
                 {"mixed.img", 61}};
    gongaurora_count answer;
    size_t k;
    for (k = 0; k < sizeof known / sizeof *known; k++) {
        load(folder, known[k].name);
        answer = gongaurora_name_bytes(image, length);
        CHECK(answer.rule == 0 && answer.node == 0 && answer.count == known[k].count && name_bytes() == known[k].count);
    }
    load(folder, "tetrahedron.img");
    cut_to_root();
    answer = gongaurora_name_bytes(image, length);
    CHECK(answer.rule == 0 && answer.node == 0 && answer.count == 0 && name_bytes() == 0);
}

/* The tetrahedron with other names of nodes 6 and 7, two of three siblings. */
static void check_changed_names(const char *folder)
{
    gongaurora_count answer;
    load(folder, "tetrahedron.img");
    memset(name_of(6), 'x', NAME);
    memset(name_of(7), 'x', NAME - 1);
    name_of(7)[NAME - 1] = 'y'; /* the last byte alone differs */
    answer = gongaurora_name_bytes(image, length);
    CHECK(answer.rule == 0 && answer.node == 0 && answer.count == 88 - 3 * 11 + 32 + 1 + 1 && answer.count == name_bytes());
    name_of(7)[NAME - 1] = 'x';
    answer = gongaurora_name_bytes(image, length);
    CHECK(answer.rule == GONGAURORA_RULE_SIBLING_NAME && answer.node == 7 && answer.count == 0);
    memcpy(name_of(4), name_of(6), NAME); /* nodes 4 and 6 are no siblings */
    name_of(7)[0] = 'y';
    answer = gongaurora_name_bytes(image, length);
    CHECK(answer.rule == 0 && answer.count == 88 - 3 * 11 + 1 + 1 + 1 && answer.count == name_bytes());
}

static void check_name_bytes_refused(const char *folder)
{
    uint8_t words[25], known[25];
    gongaurora_count answer;
    load(folder, "tetrahedron.img");
    memset(words, 9, sizeof words);
    memset(known, 9, sizeof known);
    CHECK(gongaurora_export_name_bytes(image, length, words, 23) == GONGAURORA_RULE_ROOM);
    CHECK(gongaurora_export_name_bytes(image, length, NULL, 0) == GONGAURORA_RULE_ROOM);
    CHECK(gongaurora_export_name_bytes(image, 31, words, 23) == GONGAURORA_RULE_ROOM);
    CHECK(memcmp(words, known, sizeof words) == 0);
    memset(known, 0, 24);
    known[16] = 88;
    CHECK(gongaurora_export_name_bytes(image, length, words, 25) == 0);
    CHECK(memcmp(words, known, sizeof words) == 0);
    answer = gongaurora_name_bytes(image, 31);
    CHECK(answer.rule == GONGAURORA_RULE_IMAGE_LENGTH && answer.node == 0 && answer.count == 0);
    answer = gongaurora_name_bytes(NULL, 0);
    CHECK(answer.rule == GONGAURORA_RULE_IMAGE_LENGTH && answer.node == 0 && answer.count == 0);
    answer = gongaurora_name_bytes(image, length - 1);
    CHECK(answer.rule == GONGAURORA_RULE_TOTAL_LENGTH && answer.node == 0 && answer.count == 0);
    set_word(HEADER + RECORD * 5 + PARENT, 9);
    answer = gongaurora_name_bytes(image, length);
    CHECK(answer.rule == GONGAURORA_RULE_PARENT && answer.node == 5 && answer.count == 0);
}

static void check_arrays(const char *folder)
{
    gongaurora_sizes sizes;
    gongaurora_value value;
    load(folder, "structured_rind.img");
    sizes = gongaurora_data_size(image, length, 9);
    CHECK(sizes.rule == 0 && sizes.node == 0 && sizes.directions == 3);
    CHECK(sizes.size[0] == 5 && sizes.size[1] == 5 && sizes.size[2] == 7);
    sizes = gongaurora_data_size(image, length, 5);
    CHECK(sizes.rule == GONGAURORA_RULE_NO_SUCH_NODE && sizes.directions == 0 && sizes.size[0] == 0);
    load(folder, "wall.img");
    sizes = gongaurora_data_size(image, length, 11);
    CHECK(sizes.rule == 0 && sizes.directions == 1 && sizes.size[0] == 12 && sizes.size[1] == 0 && sizes.size[2] == 0);
    sizes = gongaurora_data_size(image, length, 14);
    CHECK(sizes.rule == 0 && sizes.directions == 1 && sizes.size[0] == 5 && sizes.size[1] == 0 && sizes.size[2] == 0);
    load(folder, "structured_rind.img");
    value = gongaurora_array_value(image, length, 2, 1);
    CHECK(value.rule == 0 && value.node == 0 && value.kind == GONGAURORA_KIND_WHOLE && value.bits == 3);
    value = gongaurora_array_value(image, length, 12, 1);
    CHECK(value.rule == 0 && value.kind == GONGAURORA_KIND_SINGLE && value.bits == 0x3f800000);
    value = gongaurora_array_value(image, length, 9, 1);
    CHECK(value.rule == 0 && value.kind == GONGAURORA_KIND_DOUBLE && value.bits == (uint64_t)0xbfd00000 << 32);
    value = gongaurora_array_value(image, length, 9, 176);
    CHECK(value.rule == GONGAURORA_RULE_INDEX && value.kind == 0 && value.bits == 0);
    value = gongaurora_array_value(image, length, 4, 1);
    CHECK(value.rule == GONGAURORA_RULE_VALUE_TYPE && value.kind == 0);
}

/* ---- The writer ---- */

/* The writer's room lies between bytes that no call may change. `same` is what all of it has to be. */
static uint8_t memory[sizeof bytes + 8], same[sizeof bytes + 8];
static uint8_t *const lent = memory + 3; /* an odd address */
static gongaurora_writer writer;

static void set_lent_word(size_t at, uint32_t word)
{
    int k;
    for (k = 0; k < 4; k++) lent[at + k] = (uint8_t)(word >> 8 * k);
}

static int is_state(uint32_t nodes, uint32_t words, uint32_t size, uint32_t node, uint32_t word, uint32_t byte)
{
    return writer.nodes == nodes && writer.words == words && writer.bytes == size && writer.node == node &&
           writer.word == word && writer.byte == byte;
}

/* The length of a text in a field of 32 bytes, the blanks behind it left out. */
static size_t text_length(const uint8_t *field)
{
    size_t size = NAME;
    while (size > 0 && field[size - 1] == ' ') size--;
    return size;
}

/* A node of the image as an addition. */
static gongaurora_addition addition_of(size_t node, uint64_t *dimensions)
{
    size_t record = HEADER + RECORD * node, k;
    gongaurora_addition addition;
    addition.name = (const char *)image + record;
    addition.name_length = text_length(image + record);
    addition.label = (const char *)image + record + LABEL;
    addition.label_length = text_length(image + record + LABEL);
    addition.type = (const char *)image + record + TYPE;
    addition.type_length = 2;
    addition.dimensions = dimensions;
    addition.rank = image[record + RANK];
    addition.parent = word_at(record + PARENT);
    addition.data = image + word_at(24) + word_at(record + DATA);
    addition.size = word_at(record + SIZE);
    for (k = 0; k < addition.rank; k++) dimensions[k] = number_at(word_at(16) + 8 * (word_at(record + FIRST) + k), 8);
    return addition;
}

/* A node without data. */
static gongaurora_addition empty_node(const char *name, uint64_t parent)
{
    gongaurora_addition addition;
    memset(&addition, 0, sizeof addition);
    addition.name = name;
    addition.name_length = strlen(name);
    addition.label = "Unknown_t";
    addition.label_length = 9;
    addition.type = "MT";
    addition.type_length = 2;
    addition.parent = parent;
    return addition;
}

/* Starts the image at hand and adds its first nodes; all other memory is 9. */
static void begin_writing(size_t count)
{
    uint64_t dimensions[12];
    size_t node;
    memset(memory, 9, sizeof memory);
    CHECK(gongaurora_writer_start(&writer, word_at(8), word_at(20), word_at(28), lent, length).rule == 0);
    for (node = 0; node < count; node++) {
        gongaurora_addition addition = addition_of(node, dimensions);
        CHECK(gongaurora_writer_add(&writer, &addition, lent, length).rule == 0);
    }
    memcpy(same, memory, sizeof memory);
}

/* An addition that is refused: room and state stay. */
static void check_not_added(const gongaurora_addition *addition, size_t size, uint64_t rule, uint64_t node)
{
    gongaurora_writer before = writer;
    gongaurora_writing answer = gongaurora_writer_add(&writer, addition, size == 0 ? NULL : lent, size);
    CHECK(answer.rule == rule && answer.node == node && answer.entry == 0);
    CHECK(memcmp(memory, same, sizeof memory) == 0 && memcmp(&writer, &before, sizeof writer) == 0);
}

static void check_finish(size_t size, uint64_t rule, uint64_t node, uint64_t count)
{
    gongaurora_writer before = writer;
    gongaurora_count answer = gongaurora_writer_finish(&writer, size == 0 ? NULL : lent, size);
    CHECK(answer.rule == rule && answer.node == node && answer.entry == 0 && answer.count == count);
    CHECK(memcmp(memory, same, sizeof memory) == 0 && memcmp(&writer, &before, sizeof writer) == 0);
}

/* Each sample, read node by node and written again: the room after each call, and the state. */
static void check_rewritten(const char *folder)
{
    static const char *const names[] = {"tetrahedron.img", "polyhedra.img", "hexahedra.img", "mixed.img", "structured_rind.img",
                                        "wall.img",        "near_31.img",   "near_39.img"};
    uint64_t dimensions[12];
    size_t k, node;
    for (k = 0; k < sizeof names / sizeof *names; k++) {
        uint32_t nodes, words, size, word = 0, byte = 0;
        load(folder, names[k]);
        nodes = word_at(8);
        words = word_at(20);
        size = word_at(28);
        CHECK(gongaurora_writer_room(nodes, words, size) == length);
        begin_writing(0);
        memset(same, 9, sizeof same);
        memset(same + 3, 0, length);
        memcpy(same + 3, image, HEADER);
        CHECK(is_state(nodes, words, size, 0, 0, 0) && memcmp(memory, same, sizeof memory) == 0);
        for (node = 0; node < nodes; node++) {
            gongaurora_addition addition = addition_of(node, dimensions);
            size_t record = HEADER + RECORD * node, at = word_at(16) + 8 * word, data = word_at(24) + byte;
            gongaurora_writing answer;
            check_finish(length, GONGAURORA_RULE_NOT_ALL_ADDED, 0, 0);
            answer = gongaurora_writer_add(&writer, &addition, lent, length);
            CHECK(answer.rule == 0 && answer.node == 0 && answer.entry == 0);
            memcpy(same + 3 + record, image + record, RECORD);
            memcpy(same + 3 + at, image + at, 8 * addition.rank);
            memcpy(same + 3 + data, image + data, addition.size);
            word += (uint32_t)addition.rank;
            byte += (uint32_t)addition.size;
            CHECK(is_state(nodes, words, size, (uint32_t)node + 1, word, byte) && memcmp(memory, same, sizeof memory) == 0);
        }
        CHECK(memcmp(lent, image, length) == 0);
        check_finish(length, 0, 0, length);
        check_finish(length + 5, 0, 0, length); /* what lies past the image is not judged */
        check_finish(length - 1, GONGAURORA_RULE_ROOM, 0, 0);
    }
}

static void check_start_refused(void)
{
    static const uint64_t wide = (uint64_t)1 << 32;
    static const struct {
        uint64_t nodes, words, size;
        size_t room;
        uint64_t rule;
    } known[] = {{0, 0, 0, 32, GONGAURORA_RULE_NODE_COUNT},
                 {4097, 0, 0, 9999, GONGAURORA_RULE_NODE_COUNT},
                 {((uint64_t)1 << 32) + 1, 0, 0, 9999, GONGAURORA_RULE_NODE_COUNT},
                 {(uint64_t)-1, (uint64_t)-1, (uint64_t)-1, 9999, GONGAURORA_RULE_NODE_COUNT},
                 {1, 49153, 0, 9999, GONGAURORA_RULE_DIMENSION_WORDS},
                 {1, (uint64_t)1 << 32, (uint64_t)-1, 9999, GONGAURORA_RULE_DIMENSION_WORDS},
                 {1, 0, 16777216 - 115, 9999, GONGAURORA_RULE_IMAGE_LENGTH},
                 {1, 0, (uint64_t)1 << 32, 9999, GONGAURORA_RULE_IMAGE_LENGTH},
                 {1, 0, (uint64_t)-116, 0, GONGAURORA_RULE_IMAGE_LENGTH},
                 {1, 0, (uint64_t)-1, 9999, GONGAURORA_RULE_IMAGE_LENGTH},
                 {4096, 49152, 16777216 - 32 - 84 * 4096 - 8 * 49152 + 1, 9999, GONGAURORA_RULE_IMAGE_LENGTH},
                 {4096, 49152, 16777216 - 32 - 84 * 4096 - 8 * 49152, 9999, GONGAURORA_RULE_ROOM},
                 {1, 0, 16777216 - 116, 9999, GONGAURORA_RULE_ROOM},
                 {1, 0, 0, 115, GONGAURORA_RULE_ROOM},
                 {1, 0, 0, 0, GONGAURORA_RULE_ROOM},
                 {2, 3, 5, 228, GONGAURORA_RULE_ROOM}};
    gongaurora_writer before;
    gongaurora_writing answer;
    size_t k;
    memset(memory, 9, sizeof memory);
    memset(same, 9, sizeof same);
    memset(&writer, 7, sizeof writer);
    before = writer;
    for (k = 0; k < sizeof known / sizeof *known; k++) {
        size_t room = known[k].room;
        answer = gongaurora_writer_start(&writer, known[k].nodes, known[k].words, known[k].size, room == 0 ? NULL : lent, room);
        CHECK(answer.rule == known[k].rule && answer.node == 0 && answer.entry == 0);
        CHECK(memcmp(memory, same, sizeof memory) == 0 && memcmp(&writer, &before, sizeof writer) == 0);
    }
    answer = gongaurora_writer_start(&writer, 2, 3, 5, lent, 229);
    memset(same + 3, 0, 229);
    CHECK(answer.rule == 0 && answer.node == 0 && answer.entry == 0 && is_state(2, 3, 5, 0, 0, 0));
    CHECK(memcmp(memory + 3 + HEADER, same + 3 + HEADER, sizeof memory - 3 - HEADER) == 0 && memory[2] == 9);
    CHECK(gongaurora_writer_room(1, 0, 0) == 116 && gongaurora_writer_room(2, 3, 5) == 229);
    CHECK(gongaurora_writer_room(wide - 1, wide - 1, wide - 1) == 32 + 93 * (wide - 1));
}

/* Node 9 of the tetrahedron, whose parent is 3, with one thing or two changed. 8 words and 132 bytes are added before it, and
 * 16 and 256 are stated. */
static void check_additions(const char *folder)
{
    static const char text[] = "123456789012345678901234567890123", blanks[] = "Faces                            ";
    static const struct {
        const char *name;
        size_t name_length;
        const char *label;
        size_t label_length;
        const char *type;
        size_t type_length;
        uint64_t dimensions[2];
        size_t rank;
        uint64_t parent;
        size_t size;
        uint64_t rule;
    } known[] = {
        {"Faces", 5, "Elements_t", 10, "I4", 2, {2, 1}, 1, 9, 8, GONGAURORA_RULE_PARENT},
        {"Faces", 5, "Elements_t", 10, "I4", 2, {2, 1}, 1, 10, 8, GONGAURORA_RULE_PARENT},
        {"Faces", 5, "Elements_t", 10, "I4", 2, {2, 1}, 1, GONGAURORA_NO_PARENT, 8, GONGAURORA_RULE_PARENT},
        {"Faces", 5, "Elements_t", 10, "I4", 2, {2, 1}, 1, (uint64_t)1 << 32 | 3, 8, GONGAURORA_RULE_PARENT},
        {"", 0, "", 0, "LK", 2, {0, 0}, 12, (uint64_t)-1, 0, GONGAURORA_RULE_PARENT},
        {NULL, 0, "Elements_t", 10, "I4", 2, {2, 1}, 1, 3, 8, GONGAURORA_RULE_NAME},
        {text, 33, "Elements_t", 10, "I4", 2, {2, 1}, 1, 3, 8, GONGAURORA_RULE_NAME},
        {blanks, 33, "Elements_t", 10, "I4", 2, {2, 1}, 1, 3, 8, GONGAURORA_RULE_NAME},
        {" Faces", 6, "Elements_t", 10, "I4", 2, {2, 1}, 1, 3, 8, GONGAURORA_RULE_NAME},
        {"Faces/1", 7, "Elements_t", 10, "I4", 2, {2, 1}, 1, 3, 8, GONGAURORA_RULE_NAME},
        {"Faces", 6, "Elements_t", 10, "I4", 2, {2, 1}, 1, 3, 8, GONGAURORA_RULE_NAME}, /* the zero byte too */
        {"Fa\177ces", 6, "", 0, "I4", 2, {2, 1}, 1, 3, 8, GONGAURORA_RULE_NAME},
        {"Fa\200ces", 6, "Elements_t", 10, "I4", 2, {2, 1}, 1, 3, 8, GONGAURORA_RULE_NAME},
        {"ZoneType", 8, NULL, 0, "I4", 2, {2, 1}, 1, 3, 8, GONGAURORA_RULE_LABEL},
        {"Faces", 5, text, 33, "I4", 2, {2, 1}, 1, 3, 8, GONGAURORA_RULE_LABEL},
        {"Faces", 5, " Elements_t", 11, "I4", 2, {2, 1}, 1, 3, 8, GONGAURORA_RULE_LABEL},
        {"Faces", 5, "Elements_t", 11, "I4", 2, {2, 1}, 1, 3, 8, GONGAURORA_RULE_LABEL},
        {"ZoneType", 8, "Elements_t", 10, "LK", 2, {2, 1}, 1, 3, 8, GONGAURORA_RULE_SIBLING_NAME},
        {"GridCoordinates  ", 17, "Elements_t", 10, "I4", 2, {2, 1}, 1, 3, 8, GONGAURORA_RULE_SIBLING_NAME},
        {"Faces", 5, "Elements_t", 10, "LK", 2, {2, 1}, 0, 3, 8, GONGAURORA_RULE_LINK},
        {"Faces", 5, "Elements_t", 10, "LK ", 3, {2, 1}, 0, 3, 8, GONGAURORA_RULE_DATA_TYPE},
        {"Faces", 5, "Elements_t", 10, "I4", 1, {2, 1}, 1, 3, 8, GONGAURORA_RULE_DATA_TYPE},
        {"Faces", 5, "Elements_t", 10, "I4", 3, {2, 1}, 1, 3, 8, GONGAURORA_RULE_DATA_TYPE},
        {"Faces", 5, "Elements_t", 10, "i4", 2, {2, 1}, 1, 3, 8, GONGAURORA_RULE_DATA_TYPE},
        {"Faces", 5, "Elements_t", 10, NULL, 0, {2, 1}, 1, 3, 8, GONGAURORA_RULE_DATA_TYPE},
        {"Faces", 5, "Elements_t", 10, "MT", 2, {1, 1}, 1, 3, 0, GONGAURORA_RULE_DIMENSION_COUNT},
        {"Faces", 5, "Elements_t", 10, "I4", 2, {2, 1}, 0, 3, 8, GONGAURORA_RULE_DIMENSION_COUNT},
        {"Faces", 5, "Elements_t", 10, "I4", 2, {2, 1}, 13, 3, 8, GONGAURORA_RULE_DIMENSION_COUNT},
        {"Faces", 5, "Elements_t", 10, "I4", 2, {2, 1}, 9, 3, 8, GONGAURORA_RULE_FIRST_DIMENSION},
        {"Faces", 5, "Elements_t", 10, "I4", 2, {0, 1}, 9, 3, 8, GONGAURORA_RULE_FIRST_DIMENSION},
        {"Faces", 5, "Elements_t", 10, "I4", 2, {2, 1}, 1, 3, 7, GONGAURORA_RULE_DATA_LENGTH},
        {"Faces", 5, "Elements_t", 10, "I4", 2, {2, 1}, 1, 3, 0, GONGAURORA_RULE_DATA_LENGTH},
        {"Faces", 5, "Elements_t", 10, "I4", 2, {2, 2}, 2, 3, 8, GONGAURORA_RULE_DATA_LENGTH},
        {"Faces", 5, "Elements_t", 10, "I4", 2, {0, 1}, 1, 3, 0, GONGAURORA_RULE_DATA_LENGTH},
        {"Faces", 5, "Elements_t", 10, "I4", 2, {(uint64_t)1 << 62 | 2, 1}, 1, 3, 8, GONGAURORA_RULE_DATA_LENGTH},
        {"Faces", 5, "Elements_t", 10, "C1", 2, {(uint64_t)1 << 32, (uint64_t)1 << 32}, 2, 3, 0, GONGAURORA_RULE_DATA_LENGTH},
        {"Faces", 5, "Elements_t", 10, "MT", 2, {2, 1}, 0, 3, 1, GONGAURORA_RULE_DATA_LENGTH},
        {"Faces", 5, "Elements_t", 10, "C1", 2, {0, 1}, 1, 3, 125, GONGAURORA_RULE_DATA_LENGTH},
        {"Faces", 5, "Elements_t", 10, "C1", 2, {125, 1}, 1, 3, 125, GONGAURORA_RULE_DATA_OFFSET},
        /* and what is lawful */
        {"Faces", 5, "Elements_t", 10, "I4", 2, {2, 1}, 1, 3, 8, 0},
        {text, 32, text, 32, "MT", 2, {2, 1}, 0, 8, 0, 0},
        {"Faces   ", 8, "a/b  c", 6, "I4", 2, {2, 1}, 8, 3, 8, 0},
        {"ZoneType", 8, "Elements_t", 10, "C1", 2, {124, 1}, 2, 2, 124, 0},
        {"Zone1", 5, "Elements_t", 10, "X8", 2, {1, 1}, 2, 3, 16, 0}};
    static uint8_t data[125];
    uint64_t dimensions[13];
    gongaurora_writer before;
    size_t k, d;
    load(folder, "tetrahedron.img");
    begin_writing(9);
    before = writer;
    CHECK(is_state(17, 16, 256, 9, 8, 132));
    for (k = 0; k < sizeof known / sizeof *known; k++) {
        gongaurora_addition addition;
        addition.name = known[k].name;
        addition.name_length = known[k].name_length;
        addition.label = known[k].label;
        addition.label_length = known[k].label_length;
        addition.type = known[k].type;
        addition.type_length = known[k].type_length;
        addition.dimensions = known[k].rank == 0 ? NULL : dimensions;
        addition.rank = known[k].rank;
        addition.parent = known[k].parent;
        addition.data = known[k].size == 0 ? NULL : data;
        addition.size = known[k].size;
        for (d = 0; d < 13; d++) dimensions[d] = d < 2 ? known[k].dimensions[d] : 1;
        if (known[k].rule != 0) {
            check_not_added(&addition, length, known[k].rule, 9);
            check_not_added(&addition, length - 1, GONGAURORA_RULE_ROOM, 0);
            continue;
        }
        CHECK(gongaurora_writer_add(&writer, &addition, lent, length).rule == 0);
        CHECK(is_state(17, 16, 256, 10, 8 + (uint32_t)addition.rank, 132 + (uint32_t)addition.size));
        CHECK(memcmp(memory, same, sizeof memory) != 0);
        memcpy(memory, same, sizeof memory);
        writer = before;
    }
}

/* The names and labels that are stored, and a record of every field. */
static void check_record(void)
{
    static const char record[RECORD + 1] = "Name                            "
                                           "a/b                             "
                                           "I8\2\0\0\0\0\0\0\0\0\0\0\0\0\0\60\0\0";
    static const uint64_t dimensions[] = {2, 3};
    static const char data[] = "123456789012345678901234567890123456789012345678";
    gongaurora_addition addition = empty_node("Root", GONGAURORA_NO_PARENT);
    memset(memory, 9, sizeof memory);
    CHECK(gongaurora_writer_start(&writer, 2, 2, 48, lent, 500).rule == 0);
    CHECK(gongaurora_writer_add(&writer, &addition, lent, 500).rule == 0);
    addition = empty_node("Name", 0);
    addition.label = "a/b";
    addition.label_length = 3;
    addition.type = "I8";
    addition.dimensions = dimensions;
    addition.rank = 2;
    addition.data = data;
    addition.size = 48;
    CHECK(gongaurora_writer_add(&writer, &addition, lent, 500).rule == 0);
    CHECK(memcmp(lent + HEADER + RECORD, record, RECORD) == 0);
    CHECK(memcmp(lent + HEADER + 2 * RECORD, "\2\0\0\0\0\0\0\0\3\0\0\0\0\0\0\0", 16) == 0);
    CHECK(memcmp(lent + HEADER + 2 * RECORD + 16, data, 48) == 0 && lent[HEADER + 2 * RECORD + 64] == 9);
    CHECK(gongaurora_writer_finish(&writer, lent, 500).count == 264);
}

/* A chain of nodes: 32 levels are lawful. Records that break rule 7 are met before rule 8, and the header is not asked. */
static void check_depth(void)
{
    enum { NODES = 35, SHORT = 32 + 84 * 35 };
    gongaurora_addition addition = empty_node("n", GONGAURORA_NO_PARENT);
    uint64_t node;
    memset(memory, 9, sizeof memory);
    CHECK(gongaurora_writer_start(&writer, NODES, 0, 0, lent, SHORT).rule == 0);
    for (node = 0; node <= 32; node++) {
        addition.parent = node == 0 ? GONGAURORA_NO_PARENT : node - 1;
        CHECK(gongaurora_writer_add(&writer, &addition, lent, SHORT).rule == 0);
    }
    memcpy(same, memory, sizeof memory);
    addition = empty_node("m", 32);
    check_not_added(&addition, SHORT, GONGAURORA_RULE_DEPTH, 33);
    set_lent_word(HEADER + RECORD * 5 + PARENT, 5);
    memcpy(same, memory, sizeof memory);
    check_not_added(&addition, SHORT, GONGAURORA_RULE_PARENT, 33);
    set_lent_word(HEADER + RECORD * 5 + PARENT, 4);
    set_lent_word(HEADER + PARENT, 0);
    memcpy(same, memory, sizeof memory);
    check_not_added(&addition, SHORT, GONGAURORA_RULE_PARENT, 33);
    set_lent_word(HEADER + RECORD * 33 + PARENT, 32); /* a record that no addition wrote, deeper than 32 */
    memcpy(same, memory, sizeof memory);
    writer.node = 34;
    addition.parent = 33;
    check_not_added(&addition, SHORT, GONGAURORA_RULE_PARENT, 34);
    set_lent_word(HEADER + PARENT, GONGAURORA_NO_PARENT);
    memcpy(same, memory, sizeof memory);
    check_not_added(&addition, SHORT, GONGAURORA_RULE_DEPTH, 34);
    writer.node = 33;
    memset(lent, 9, HEADER); /* the header */
    addition.parent = 31;
    CHECK(gongaurora_writer_add(&writer, &addition, lent, SHORT).rule == 0 && is_state(NODES, 0, 0, 34, 0, 0));
    addition.parent = 0;
    CHECK(gongaurora_writer_add(&writer, &addition, lent, SHORT).rule == 0 && is_state(NODES, 0, 0, 35, 0, 0));
    memcpy(same, memory, sizeof memory);
    check_not_added(&addition, SHORT, GONGAURORA_RULE_ALL_ADDED, 0);
    check_not_added(&addition, SHORT - 1, GONGAURORA_RULE_ROOM, 0);
    check_not_added(&addition, 0, GONGAURORA_RULE_ROOM, 0);
    check_finish(SHORT, GONGAURORA_RULE_FORM, 0, 0);
    check_finish(SHORT - 1, GONGAURORA_RULE_ROOM, 0, 0);
    check_finish(0, GONGAURORA_RULE_ROOM, 0, 0);
}

/* What finishing says where words or bytes are left over, and where the room was changed. */
static void check_unfinished(const char *folder)
{
    gongaurora_addition addition = empty_node("Root", GONGAURORA_NO_PARENT);
    memset(memory, 9, sizeof memory);
    CHECK(gongaurora_writer_start(&writer, 1, 1, 0, lent, 125).rule == 0);
    memcpy(same, memory, sizeof memory);
    check_finish(125, GONGAURORA_RULE_NOT_ALL_ADDED, 0, 0);
    check_finish(123, GONGAURORA_RULE_ROOM, 0, 0);
    CHECK(gongaurora_writer_add(&writer, &addition, lent, 124).rule == 0);
    memcpy(same, memory, sizeof memory);
    check_finish(124, GONGAURORA_RULE_TRAILING, 1, 0);
    load(folder, "tetrahedron.img");
    begin_writing(17);
    check_not_added(&addition, length, GONGAURORA_RULE_ALL_ADDED, 0);
    lent[HEADER + RECORD * 7] = 0;
    memcpy(same, memory, sizeof memory);
    check_finish(length, GONGAURORA_RULE_NAME, 7, 0);
}

/* States that no call answered are taken at their word. */
static void check_states(const char *folder)
{
    static const gongaurora_writer none = {0, 0, 0, 0, 0, 0}, least = {1, 0, 0, 0xffffffff, 0, 0},
                                   greatest = {0xffffffff, 0xffffffff, 0xffffffff, 0, 0, 0},
                                   wide = {1, 0x20000000, 0, 1, 0, 0}, words = {2, 0, 0, 1, 1, 0}, data = {2, 0, 0, 1, 0, 1},
                                   both = {2, 0, 0, 1, 0xffffffff, 0xffffffff};
    static uint64_t dimensions[65537];
    gongaurora_addition addition = empty_node("Node", 0);
    load(folder, "tetrahedron.img");
    begin_writing(17);
    writer = none;
    check_not_added(&addition, length, GONGAURORA_RULE_ALL_ADDED, 0);
    check_not_added(&addition, 31, GONGAURORA_RULE_ROOM, 0);
    check_finish(31, GONGAURORA_RULE_ROOM, 0, 0);
    check_finish(32, GONGAURORA_RULE_TOTAL_LENGTH, 0, 0);
    writer = least;
    check_not_added(&addition, length, GONGAURORA_RULE_ALL_ADDED, 0);
    check_finish(length, GONGAURORA_RULE_TOTAL_LENGTH, 0, 0);
    writer = greatest;
    check_not_added(&addition, length, GONGAURORA_RULE_ROOM, 0);
    check_finish(length, GONGAURORA_RULE_ROOM, 0, 0);
    writer = wide; /* it needs 2^32 + 116 bytes */
    check_not_added(&addition, length, GONGAURORA_RULE_ROOM, 0);
    check_finish(length, GONGAURORA_RULE_ROOM, 0, 0);
    writer = words;
    check_not_added(&addition, length, GONGAURORA_RULE_FIRST_DIMENSION, 1);
    writer = data;
    check_not_added(&addition, length, GONGAURORA_RULE_DATA_OFFSET, 1);
    writer = both;
    check_not_added(&addition, length, GONGAURORA_RULE_FIRST_DIMENSION, 1);
    writer.words = writer.word = writer.bytes = writer.byte = 0;
    writer.nodes = 3;
    addition.dimensions = dimensions; /* a count of which 16 bits are 0, and one of which they are 1 */
    addition.rank = 65536;
    check_not_added(&addition, length, GONGAURORA_RULE_DIMENSION_COUNT, 1);
    addition.type = "I4";
    addition.rank = 65537;
    check_not_added(&addition, length, GONGAURORA_RULE_DIMENSION_COUNT, 1);
}

/* The exports with too few numbers of a state or bytes of an answer, and the words that they write. */
static void check_writer_words(const char *folder)
{
    gongaurora_addition a = empty_node("Node", 17);
    const uint8_t *name = (const uint8_t *)a.name, *label = (const uint8_t *)a.label, *type = (const uint8_t *)a.type;
    static const uint32_t kept[7] = {1, 2, 3, 4, 5, 6, 7}, started[7] = {17, 16, 256, 0, 0, 0, 7};
    static const uint32_t nine[7] = {17, 16, 256, 9, 8, 132, 7};
    uint32_t state[7] = {1, 2, 3, 4, 5, 6, 7};
    uint8_t words[25], known[25];
    load(folder, "tetrahedron.img");
    begin_writing(9);
    memset(words, 9, sizeof words);
    memset(known, 9, sizeof known);
    CHECK(gongaurora_export_writer_start(17, 16, 256, lent, length, state, 5, words, 16) == GONGAURORA_RULE_ROOM);
    CHECK(gongaurora_export_writer_start(17, 16, 256, lent, length, NULL, 0, words, 16) == GONGAURORA_RULE_ROOM);
    CHECK(gongaurora_export_writer_start(17, 16, 256, lent, length, state, 6, words, 15) == GONGAURORA_RULE_ROOM);
    CHECK(gongaurora_export_writer_start(0, 16, 256, lent, length, state, 6, NULL, 0) == GONGAURORA_RULE_ROOM);
    CHECK(gongaurora_export_writer_add(name, 4, label, 9, type, 2, NULL, 0, 0, NULL, 0, lent, length, state, 5, words, 16) ==
          GONGAURORA_RULE_ROOM);
    CHECK(gongaurora_export_writer_add(name, 4, label, 9, type, 2, NULL, 0, 0, NULL, 0, lent, length, state, 6, words, 15) ==
          GONGAURORA_RULE_ROOM);
    CHECK(gongaurora_export_writer_finish(lent, length, state, 5, words, 24) == GONGAURORA_RULE_ROOM);
    CHECK(gongaurora_export_writer_finish(lent, length, state, 6, words, 23) == GONGAURORA_RULE_ROOM);
    CHECK(memcmp(words, known, sizeof words) == 0 && memcmp(state, kept, sizeof state) == 0);
    CHECK(memcmp(memory, same, sizeof memory) == 0);
    memcpy(state, nine, sizeof nine);
    CHECK(gongaurora_export_writer_add(name, 4, label, 9, type, 2, NULL, 0, 17, NULL, 0, lent, length, state, 7, words, 17) ==
          GONGAURORA_RULE_PARENT);
    memset(known, 0, 16);
    known[0] = 9;
    CHECK(memcmp(words, known, sizeof words) == 0 && memcmp(state, nine, sizeof state) == 0);
    CHECK(gongaurora_export_writer_finish(lent, length, state, 7, words, 25) == GONGAURORA_RULE_NOT_ALL_ADDED);
    memset(known, 0, 24);
    CHECK(memcmp(words, known, sizeof words) == 0 && memcmp(memory, same, sizeof memory) == 0);
    begin_writing(17);
    CHECK(gongaurora_export_writer_finish(lent, length, (const uint32_t *)(const void *)&writer, 6, words, 25) == 0);
    known[16] = (uint8_t)length;
    known[17] = (uint8_t)(length >> 8);
    CHECK(memcmp(words, known, sizeof words) == 0);
    CHECK(gongaurora_export_writer_start(17, 16, 256, lent, length, state, 7, words, 16) == 0);
    memset(known, 0, 16);
    CHECK(memcmp(words, known, sizeof words) == 0 && memcmp(state, started, sizeof state) == 0);
}

/* A refused addition, mended, and all is as if it had not been made; the image is then accepted. */
static void check_mended(const char *folder)
{
    uint64_t dimensions[12];
    gongaurora_addition addition, wrong;
    size_t node;
    load(folder, "polyhedra.img");
    begin_writing(0);
    for (node = 0; node < word_at(8); node++) {
        wrong = addition = addition_of(node, dimensions);
        wrong.size = addition.size + 1;
        check_not_added(&wrong, length, GONGAURORA_RULE_DATA_LENGTH, node);
        wrong = addition;
        wrong.name_length = 0;
        check_not_added(&wrong, length, GONGAURORA_RULE_NAME, node);
        CHECK(gongaurora_writer_add(&writer, &addition, lent, length).rule == 0);
        memcpy(same, memory, sizeof memory);
    }
    check_finish(length, 0, 0, length);
    CHECK(memcmp(lent, image, length) == 0 && gongaurora_validate(lent, length).rule == 0);
}

static void check_rule_texts(void)
{
    const char *none = gongaurora_rule_text(48);
    uint64_t rule, other;
    for (rule = 0; rule <= 55; rule++) {
        int known = rule <= 47 ? rule != 19 && rule != 22 : rule == 50 || rule == 51 || rule == 54;
        CHECK((strcmp(gongaurora_rule_text(rule), none) != 0) == known);
        for (other = 0; known && other < rule; other++)
            CHECK(strcmp(gongaurora_rule_text(rule), gongaurora_rule_text(other)) != 0);
    }
    CHECK(strstr(gongaurora_rule_text(GONGAURORA_RULE_ZERO_FACE), "face 0") != NULL);
    CHECK(strstr(gongaurora_rule_text(GONGAURORA_RULE_NO_ELEMENT), "ElementRange of no section of the zone") != NULL);
    CHECK(strstr(gongaurora_rule_text(GONGAURORA_RULE_NO_ELEMENT), "count from 0") != NULL);
    CHECK(strstr(gongaurora_rule_text(GONGAURORA_RULE_NO_FACE), "not of type 22") != NULL);
    CHECK(strstr(gongaurora_rule_text(GONGAURORA_RULE_PARENT_ELEMENTS), "column by column") != NULL);
    CHECK(strstr(gongaurora_rule_text(GONGAURORA_RULE_NO_PARENTS), "has no ParentElements") != NULL);
    CHECK(strstr(gongaurora_rule_text(GONGAURORA_RULE_ALL_ADDED), "are added already") != NULL);
    CHECK(strstr(gongaurora_rule_text(GONGAURORA_RULE_NOT_ALL_ADDED), "are added yet") != NULL);
    CHECK(strcmp(gongaurora_rule_text((uint64_t)1 << 32), none) == 0);
    CHECK(GONGAURORA_RULE_NONE == 0 && GONGAURORA_RULE_TRAILING == 18 && GONGAURORA_RULE_CONTAINMENT == 20);
}

static void check_version(void)
{
    char text[40];
    sprintf(text, "%d.%d.%d", GONGAURORA_VERSION_MAJOR, GONGAURORA_VERSION_MINOR, GONGAURORA_VERSION_PATCH);
    CHECK(strcmp(text, GONGAURORA_VERSION) == 0);
}

int main(int argc, char **argv)
{
    if (argc != 2) return 2;
    check_validation(argv[1]);
    check_refusals(argv[1]);
    check_face_entries(argv[1]);
    check_mixed_entries(argv[1]);
    check_entry_values(argv[1]);
    check_words(argv[1]);
    check_sections(argv[1]);
    check_mixed(argv[1]);
    check_changed_types(argv[1]);
    check_section_types(argv[1]);
    check_element_type_refused(argv[1]);
    check_face_usage(argv[1]);
    check_parents(argv[1]);
    check_parents_refused(argv[1]);
    check_agreements(argv[1]);
    check_agreement_refused(argv[1]);
    check_path(argv[1]);
    check_name_bytes(argv[1]);
    check_changed_names(argv[1]);
    check_name_bytes_refused(argv[1]);
    check_arrays(argv[1]);
    check_rewritten(argv[1]);
    check_start_refused();
    check_additions(argv[1]);
    check_record();
    check_depth();
    check_unfinished(argv[1]);
    check_states(argv[1]);
    check_writer_words(argv[1]);
    check_mended(argv[1]);
    check_rule_texts();
    check_version();
    return failures > 0;
}
