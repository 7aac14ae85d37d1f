/* walk IMAGE: validates an image, then walks every cell to its faces to its nodes and prints what it found, with the parents of
 * some faces where they are stored; or says in words what is wrong, and where. Exit status 0 for an accepted image, 1 otherwise.
 *
 *     cc -I dist examples/walk.c dist/libgongaurora.a -o walk
 */
#include "gongaurora.h"

#include <inttypes.h>
#include <stdio.h>
#include <stdlib.h>
#include <string.h>

enum { TYPES = 24, MIXED = 20, NGON_N = 22, NFACE_N = 23 };

typedef struct {
    const uint8_t *bytes;
    size_t length;
} image_t;

/* What a walk over one zone has found. */
typedef struct {
    uint64_t elements[TYPES]; /* by element type */
    uint64_t in_mixed[TYPES]; /* the same of MIXED sections, whose elements have types of their own */
    uint64_t corners;         /* numbers read */
    uint64_t largest_face, largest_cell;
    int64_t least_node, greatest_node;
} findings_t;

/* ---- Files and records ---- */

/* The bytes of a file; of a longer one, one byte more than an image may have, which is rule 1. NULL where it cannot be read. */
static uint8_t *load(const char *name, size_t *length)
{
    FILE *file = fopen(name, "rb");
    uint8_t *bytes = (uint8_t *)malloc(GONGAURORA_MAX_IMAGE + 1);
    int failed = file == NULL || bytes == NULL;
    if (!failed) {
        *length = fread(bytes, 1, GONGAURORA_MAX_IMAGE + 1, file);
        failed = ferror(file);
    }
    if (file != NULL) fclose(file);
    if (failed) {
        free(bytes);
        return NULL;
    }
    return bytes;
}

/* Whether a node of an accepted image has this label. Records are 84 bytes from byte 32 on; the label is at byte 32 of each,
 * padded to 32 with blanks. */
static int is_labelled(image_t image, uint64_t node, const char *label)
{
    const uint8_t *field = image.bytes + 32 + 84 * node + 32;
    size_t length = strlen(label);
    return memcmp(field, label, length) == 0 && field[length] == ' ';
}

static void print_path(image_t image, uint64_t node)
{
    uint8_t path[GONGAURORA_PATH_ROOM];
    gongaurora_count answer = gongaurora_path(image.bytes, image.length, node, path, sizeof path);
    if (answer.rule == 0) printf("%.*s", (int)answer.count, (const char *)path);
    else printf("node %" PRIu64, node);
}

/* ---- The walk ---- */

/* The face section that holds a face number of either sign. In an accepted image there is exactly one. */
static const gongaurora_section *section_of_face(const gongaurora_section *sections, uint64_t count, int64_t face)
{
    uint64_t number = face < 0 ? 0 - (uint64_t)face : (uint64_t)face;
    for (uint64_t k = 0; k < count; k++)
        if (sections[k].type == NGON_N && sections[k].first <= number && number <= sections[k].last) return &sections[k];
    return NULL;
}

/* A zone's sections, and memory for the corners of any of their elements: of a cell's faces, of a face's or an element's nodes. */
typedef struct {
    const gongaurora_section *sections;
    uint64_t count;
    int64_t *faces, *nodes;
    uint64_t room;
} zone_t;

/* Reads the nodes of an element and answers how many there are. */
static uint64_t walk_nodes(image_t image, const zone_t *zone, const gongaurora_section *section, uint64_t element,
                           findings_t *found)
{
    gongaurora_count size = gongaurora_read_element(image.bytes, image.length, section, element, zone->nodes, zone->room);
    for (uint64_t k = 0; k < size.count; k++) {
        int64_t node = zone->nodes[k];
        if (found->least_node == 0 || node < found->least_node) found->least_node = node;
        if (node > found->greatest_node) found->greatest_node = node;
    }
    found->corners += size.count;
    return size.count;
}

/* Reads the faces of a cell, and of each face its nodes. */
static void walk_cell(image_t image, const zone_t *zone, const gongaurora_section *cells, uint64_t cell, findings_t *found)
{
    gongaurora_count size = gongaurora_read_element(image.bytes, image.length, cells, cell, zone->faces, zone->room);
    for (uint64_t k = 0; k < size.count; k++) {
        int64_t face = zone->faces[k];
        uint64_t number = face < 0 ? 0 - (uint64_t)face : (uint64_t)face;
        uint64_t nodes = walk_nodes(image, zone, section_of_face(zone->sections, zone->count, face), number, found);
        if (nodes > found->largest_face) found->largest_face = nodes;
    }
    found->corners += size.count;
    if (size.count > found->largest_cell) found->largest_cell = size.count;
}

static void walk_section(image_t image, const zone_t *zone, const gongaurora_section *section, findings_t *found)
{
    uint64_t *elements = section->type == MIXED ? found->in_mixed : found->elements;
    for (uint64_t element = section->first; element <= section->last; element++) {
        if (section->type == NFACE_N) walk_cell(image, zone, section, element, found);
        else walk_nodes(image, zone, section, element, found);
        elements[gongaurora_element_type(image.bytes, image.length, section, element).type]++;
    }
}

/* Walks all sections. No element is longer than its section's connectivity, so rule 46 never comes. */
static void walk_zone(image_t image, const gongaurora_section *sections, uint64_t count, findings_t *found)
{
    zone_t zone = {sections, count, NULL, NULL, 1};
    for (uint64_t k = 0; k < count; k++)
        if (sections[k].connectivity_length > zone.room) zone.room = sections[k].connectivity_length;
    zone.faces = (int64_t *)malloc(zone.room * sizeof *zone.faces);
    zone.nodes = (int64_t *)malloc(zone.room * sizeof *zone.nodes);
    if (zone.faces != NULL && zone.nodes != NULL)
        for (uint64_t k = 0; k < count; k++) walk_section(image, &zone, &sections[k], found);
    free(zone.faces);
    free(zone.nodes);
}

/* ---- What is printed of a zone ---- */

static void print_findings(const findings_t *found)
{
    for (int type = 0; type < TYPES; type++)
        if (found->elements[type] > 0) printf("  elements of type %d: %" PRIu64 "\n", type, found->elements[type]);
    for (int type = 0; type < TYPES; type++)
        if (found->in_mixed[type] > 0)
            printf("  elements of type %d in MIXED sections: %" PRIu64 "\n", type, found->in_mixed[type]);
    if (found->corners > 0) printf("  corners read: %" PRIu64 "\n", found->corners);
    if (found->largest_cell > 0)
        printf("  largest face: %" PRIu64 " nodes, largest cell: %" PRIu64 " faces\n", found->largest_face, found->largest_cell);
    if (found->greatest_node > 0) printf("  nodes used: %" PRId64 " to %" PRId64 "\n", found->least_node, found->greatest_node);
}

static uint64_t faces_of(const gongaurora_section *sections, uint64_t count)
{
    uint64_t faces = 0;
    for (uint64_t k = 0; k < count; k++)
        if (sections[k].type == NGON_N) faces += sections[k].last - sections[k].first + 1;
    return faces;
}

/* How the zone's cells use its faces: inner faces are used from both sides. */
static void print_usage(image_t image, uint64_t zone, const gongaurora_section *sections, uint64_t count)
{
    static const char *const uses[] = {"unused", "used forward", "used reversed", "used from both sides"};
    uint64_t faces = faces_of(sections, count), seen[4] = {0};
    if (faces == 0) return;
    uint8_t *usage = (uint8_t *)malloc(faces);
    if (usage == NULL) return;
    gongaurora_usage answer = gongaurora_face_usage(image.bytes, image.length, zone, usage, faces);
    if (answer.rule != 0) {
        printf("  faces: %s (", gongaurora_rule_text(answer.rule));
        print_path(image, answer.node);
        printf(", element %" PRIu64 ")\n", answer.element);
    } else {
        for (uint64_t k = 0; k < answer.count; k++) seen[usage[k]]++;
        for (int use = 0; use < 4; use++)
            if (seen[use] > 0) printf("  faces %s: %" PRIu64 "\n", uses[use], seen[use]);
    }
    free(usage);
}

/* A number of 4 or 8 bytes that is not negative; in an accepted image no parent is. */
static uint64_t number_at(image_t image, uint64_t at, uint64_t width)
{
    uint64_t number = 0;
    for (uint64_t k = width; k > 0; k--) number = number << 8 | image.bytes[at + k - 1];
    return number;
}

/* The parents of a face, read in place: the first parents of all faces of the section stand there, then the second ones. The
 * call tells the same, but validates the image again each time: it is made for comparison alone. */
static void print_parents_of_face(image_t image, uint64_t zone, const gongaurora_section *section, uint64_t face)
{
    uint64_t width = section->parents_width, faces = section->last - section->first + 1;
    uint64_t at = section->parents_at + width * (face - section->first);
    uint64_t first = number_at(image, at, width), second = number_at(image, at + width * faces, width);
    gongaurora_parent_pair told = gongaurora_parents(image.bytes, image.length, zone, face);
    printf("  face %" PRIu64 ": cell %" PRIu64, face, first);
    if (second != 0) printf(" and cell %" PRIu64, second);
    if (told.rule != 0 || told.first != first || told.second != second) printf(", which is not what the call tells");
    printf("\n");
}

/* Whether the parents of the zone's faces are the cells that use them, and those of the first and the last face of each
 * section that stores them. */
static void print_parents(image_t image, uint64_t zone, const gongaurora_section *sections, uint64_t count)
{
    uint64_t faces = faces_of(sections, count), stored = 0;
    for (uint64_t k = 0; k < count; k++)
        if (sections[k].parents_width != 0) stored++;
    if (stored == 0) return;
    uint8_t *usage = (uint8_t *)malloc(faces);
    if (usage == NULL) return;
    gongaurora_agreement answer = gongaurora_parents_agree(image.bytes, image.length, zone, usage, faces);
    if (answer.rule != 0) printf("  parents: %s\n", gongaurora_rule_text(answer.rule));
    else printf("  parents %s with the cells\n", answer.agrees ? "agree" : "do not agree");
    free(usage);
    for (uint64_t k = 0; k < count; k++) {
        if (sections[k].parents_width == 0) continue;
        print_parents_of_face(image, zone, &sections[k], sections[k].first);
        if (sections[k].first < sections[k].last) print_parents_of_face(image, zone, &sections[k], sections[k].last);
    }
}

static double as_double(gongaurora_value value)
{
    uint32_t lower = (uint32_t)value.bits;
    float single;
    double number;
    if (value.kind == GONGAURORA_KIND_WHOLE) return (double)(int64_t)value.bits;
    if (value.kind == GONGAURORA_KIND_SINGLE) {
        memcpy(&single, &lower, sizeof single);
        return single;
    }
    memcpy(&number, &value.bits, sizeof number);
    return number;
}

/* The sizes of an array, and its least and greatest value. */
static void print_array(image_t image, uint64_t node, gongaurora_sizes sizes)
{
    uint64_t values = 1;
    double least = 0, greatest = 0;
    printf("  ");
    print_path(image, node);
    printf(": ");
    for (uint64_t d = 0; d < sizes.directions; d++) {
        printf("%s%" PRIu64, d > 0 ? " x " : "", sizes.size[d]);
        values *= sizes.size[d];
    }
    for (uint64_t k = 1; k <= values; k++) {
        double value = as_double(gongaurora_array_value(image.bytes, image.length, node, k));
        if (k == 1 || value < least) least = value;
        if (k == 1 || value > greatest) greatest = value;
    }
    printf(", %g to %g\n", least, greatest);
}

static void print_zone(image_t image, uint64_t zone, const gongaurora_section *sections, uint64_t count)
{
    findings_t found;
    memset(&found, 0, sizeof found);
    printf("zone ");
    print_path(image, zone);
    printf(": sections %" PRIu64 "\n", count);
    walk_zone(image, sections, count, &found);
    print_findings(&found);
    print_usage(image, zone, sections, count);
    print_parents(image, zone, sections, count);
}

/* ---- The whole image ---- */

static void print_problem(image_t image, gongaurora_validation verdict)
{
    printf("rule %" PRIu64 " at ", verdict.rule);
    print_path(image, verdict.node);
    if (verdict.entry != 0) printf(", entry %" PRIu64, verdict.entry);
    printf(": %s\n", gongaurora_rule_text(verdict.rule));
}

/* Walks an accepted image. Its labels tell where zones and arrays may be; a zone or array below user-defined data is none,
 * and the library says so with rule 40. */
static int walk(image_t image, gongaurora_validation verdict)
{
    uint64_t nodes = verdict.validated + verdict.skipped;
    gongaurora_section *sections = (gongaurora_section *)malloc((verdict.sections + 1) * sizeof *sections);
    if (sections == NULL) {
        fprintf(stderr, "out of memory\n");
        return 1;
    }
    printf("accepted: nodes validated %" PRIu64 ", skipped %" PRIu64 ", zones %" PRIu64 ", sections %" PRIu64 "\n",
           verdict.validated, verdict.skipped, verdict.zones, verdict.sections);
    for (uint64_t node = 0; node < nodes; node++) {
        if (is_labelled(image, node, "Zone_t")) {
            gongaurora_count answer = gongaurora_sections(image.bytes, image.length, node, sections, verdict.sections);
            if (answer.rule == 0) print_zone(image, node, sections, answer.count);
        } else if (is_labelled(image, node, "DataArray_t")) {
            gongaurora_sizes sizes = gongaurora_data_size(image.bytes, image.length, node);
            if (sizes.rule == 0) print_array(image, node, sizes);
        }
    }
    free(sections);
    return 0;
}

int main(int argc, char **argv)
{
    image_t image = {NULL, 0};
    if (argc != 2) {
        fprintf(stderr, "usage: walk IMAGE\n");
        return 1;
    }
    uint8_t *bytes = load(argv[1], &image.length);
    if (bytes == NULL) {
        fprintf(stderr, "%s: cannot be read\n", argv[1]);
        return 1;
    }
    image.bytes = bytes;
    gongaurora_validation verdict = gongaurora_validate(image.bytes, image.length);
    int status = 1;
    if (verdict.rule != 0) print_problem(image, verdict);
    else status = walk(image, verdict);
    free(bytes);
    return status;
}
