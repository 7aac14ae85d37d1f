/* write TETRAHEDRON OUTPUT: writes two meshes node by node. The first is the tetrahedron of the samples; the image is compared
 * with the file TETRAHEDRON byte for byte. The second, two hexahedra side by side, has a node that is refused, mended and added
 * again; the image is validated and goes to the file OUTPUT. Exit status 0 where all of this succeeds, 1 otherwise.
 *
 *     cc -I dist examples/write.c dist/libgongaurora.a -o write
 */
#include "gongaurora.h"

#include <inttypes.h>
#include <stdio.h>
#include <stdlib.h>
#include <string.h>

/* ---- The nodes of a mesh ---- */

enum { MOST_NODES = 20, TEXT = 32, HEXA_8 = 17, QUAD_4 = 7, NGON_N = 22, NFACE_N = 23 };

/* The nodes in order, and what a start has to be told of them. */
typedef struct {
    const char *title;
    gongaurora_addition nodes[MOST_NODES];
    uint64_t dimensions[MOST_NODES][2];
    size_t count;
    uint64_t words, bytes;
} mesh_t;

/* Puts a node behind the others and answers its number. It has the dimensions [first, second], with second 0 the dimension
 * [first], with both 0 none. The digit of a type such as I4, R8 or C1 is its width. Data are stored as they are in memory,
 * where numbers are little-endian on x86-64. */
static uint64_t put(mesh_t *mesh, uint64_t parent, const char *name, const char *label, const char *type, uint64_t first,
                    uint64_t second, const void *data)
{
    gongaurora_addition *node = &mesh->nodes[mesh->count];
    uint64_t *dimensions = mesh->dimensions[mesh->count];
    size_t values = (size_t)(second == 0 ? first : first * second);
    dimensions[0] = first;
    dimensions[1] = second;
    node->name = name;
    node->name_length = strlen(name);
    node->label = label;
    node->label_length = strlen(label);
    node->type = type;
    node->type_length = strlen(type);
    node->dimensions = dimensions;
    node->rank = first == 0 ? 0 : second == 0 ? 1 : 2;
    node->parent = parent;
    node->data = data;
    node->size = first == 0 ? 0 : values * (size_t)(type[1] - '0');
    mesh->words += node->rank;
    mesh->bytes += node->size;
    return mesh->count++;
}

/* The root, a base and an unstructured zone with vertices, cells and boundary vertices; answers the zone. */
static uint64_t put_zone(mesh_t *mesh, const int32_t *sizes)
{
    static const float version[] = {4.0f};
    static const int32_t cell_and_physical_dimension[] = {3, 3};
    uint64_t root = put(mesh, GONGAURORA_NO_PARENT, "HDF5 MotherNode", "Root Node of HDF5 File", "MT", 0, 0, NULL);
    put(mesh, root, "CGNSLibraryVersion", "CGNSLibraryVersion_t", "R4", 1, 0, version);
    uint64_t base = put(mesh, root, "Base", "CGNSBase_t", "I4", 2, 0, cell_and_physical_dimension);
    uint64_t zone = put(mesh, base, "Zone1", "Zone_t", "I4", 1, 3, sizes);
    put(mesh, zone, "ZoneType", "ZoneType_t", "C1", strlen("Unstructured"), 0, "Unstructured");
    return zone;
}

static void put_coordinates(mesh_t *mesh, uint64_t zone, uint64_t vertices, const double *x, const double *y, const double *z)
{
    uint64_t grid = put(mesh, zone, "GridCoordinates", "GridCoordinates_t", "MT", 0, 0, NULL);
    put(mesh, grid, "CoordinateX", "DataArray_t", "R8", vertices, 0, x);
    put(mesh, grid, "CoordinateY", "DataArray_t", "R8", vertices, 0, y);
    put(mesh, grid, "CoordinateZ", "DataArray_t", "R8", vertices, 0, z);
}

/* A section: its type and boundary count, its range; start offsets where there are any; its connectivity. */
static void put_section(mesh_t *mesh, uint64_t zone, const char *name, const int32_t *type, const int32_t *range,
                        uint64_t offset_count, const int32_t *offsets, uint64_t length, const int32_t *connectivity)
{
    uint64_t section = put(mesh, zone, name, "Elements_t", "I4", 2, 0, type);
    put(mesh, section, "ElementRange", "IndexRange_t", "I4", 2, 0, range);
    if (offset_count > 0) put(mesh, section, "ElementStartOffset", "DataArray_t", "I4", offset_count, 0, offsets);
    put(mesh, section, "ElementConnectivity", "DataArray_t", "I4", length, 0, connectivity);
}

/* One tetrahedron: four faces and a cell made of them. */
static void tetrahedron(mesh_t *mesh)
{
    static const int32_t sizes[] = {4, 1, 0};
    static const double x[] = {0, 1, 0, 0}, y[] = {0, 0, 1, 0}, z[] = {0, 0, 0, 1};
    static const int32_t faces[] = {NGON_N, 0}, face_range[] = {1, 4}, face_offsets[] = {0, 3, 6, 9, 12};
    static const int32_t face_nodes[] = {1, 3, 2, 1, 2, 4, 2, 3, 4, 3, 1, 4};
    static const int32_t cells[] = {NFACE_N, 0}, cell_range[] = {5, 5}, cell_offsets[] = {0, 4}, cell_faces[] = {1, 2, 3, 4};
    mesh->title = "tetrahedron";
    uint64_t zone = put_zone(mesh, sizes);
    put_coordinates(mesh, zone, 4, x, y, z);
    put_section(mesh, zone, "Faces", faces, face_range, 5, face_offsets, 12, face_nodes);
    put_section(mesh, zone, "Cells", cells, cell_range, 2, cell_offsets, 4, cell_faces);
}

/* 2 x 1 x 1 hexahedra, and the faces at either end, by a name that is not lawful. */
static void hexahedra(mesh_t *mesh)
{
    static const int32_t sizes[] = {12, 2, 0};
    static const double x[] = {0, 1, 2, 0, 1, 2, 0, 1, 2, 0, 1, 2};
    static const double y[] = {0, 0, 0, 1, 1, 1, 0, 0, 0, 1, 1, 1};
    static const double z[] = {0, 0, 0, 0, 0, 0, 1, 1, 1, 1, 1, 1};
    static const int32_t cells[] = {HEXA_8, 0}, cell_range[] = {1, 2};
    static const int32_t cell_nodes[] = {1, 2, 5, 4, 7, 8, 11, 10, 2, 3, 6, 5, 8, 9, 12, 11};
    static const int32_t ends[] = {QUAD_4, 0}, end_range[] = {3, 4}, end_nodes[] = {1, 7, 10, 4, 3, 6, 12, 9};
    mesh->title = "hexahedra";
    uint64_t zone = put_zone(mesh, sizes);
    put_coordinates(mesh, zone, 12, x, y, z);
    put_section(mesh, zone, "Cells", cells, cell_range, 0, NULL, 16, cell_nodes);
    put_section(mesh, zone, "Inlet/Outlet", ends, end_range, 0, NULL, 8, end_nodes);
}

/* ---- Writing ---- */

/* Says what was refused; answers 0. */
static int refused(const mesh_t *mesh, const char *what, uint64_t rule, uint64_t node)
{
    printf("%s: %s refused by rule %" PRIu64 " at node %" PRIu64 ": %s\n", mesh->title, what, rule, node,
           gongaurora_rule_text(rule));
    return 0;
}

/* Adds a node; one with slashes in its name again with dashes in their place. Answers whether it is added. */
static int add(const mesh_t *mesh, gongaurora_writer *writer, gongaurora_addition node, uint8_t *room, size_t length)
{
    char name[TEXT];
    gongaurora_writing answer = gongaurora_writer_add(writer, &node, room, length);
    if (answer.rule == 0) return 1;
    refused(mesh, "addition", answer.rule, answer.node);
    if (answer.rule != GONGAURORA_RULE_NAME || node.name_length > TEXT) return 0;
    for (size_t k = 0; k < node.name_length; k++) name[k] = node.name[k] == '/' ? '-' : node.name[k];
    node.name = name;
    answer = gongaurora_writer_add(writer, &node, room, length);
    if (answer.rule != 0) return refused(mesh, "mended addition", answer.rule, answer.node);
    printf("%s: node %" PRIu64 " added as %.*s\n", mesh->title, (uint64_t)writer->node - 1, (int)node.name_length, name);
    return 1;
}

/* Writes the image of a mesh into memory, which the caller frees; NULL where it is not written. */
static uint8_t *write_mesh(const mesh_t *mesh, size_t *length)
{
    gongaurora_writer writer;
    *length = (size_t)gongaurora_writer_room(mesh->count, mesh->words, mesh->bytes);
    uint8_t *room = (uint8_t *)malloc(*length);
    if (room == NULL) return NULL;
    gongaurora_writing start = gongaurora_writer_start(&writer, mesh->count, mesh->words, mesh->bytes, room, *length);
    int written = start.rule == 0 || refused(mesh, "start", start.rule, start.node);
    for (size_t k = 0; written && k < mesh->count; k++) written = add(mesh, &writer, mesh->nodes[k], room, *length);
    if (written) {
        gongaurora_count end = gongaurora_writer_finish(&writer, room, *length);
        written = end.rule == 0 || refused(mesh, "finish", end.rule, end.node);
    }
    if (!written) {
        free(room);
        return NULL;
    }
    printf("%s: written, nodes %" PRIu32 ", dimension words %" PRIu32 ", data bytes %" PRIu32 ", length %lu\n", mesh->title,
           writer.node, writer.word, writer.byte, (unsigned long)*length);
    return room;
}

/* ---- Files ---- */

/* Whether the file holds exactly these bytes. */
static int file_equals(const char *name, const uint8_t *bytes, size_t length)
{
    FILE *file = fopen(name, "rb");
    size_t k = 0;
    if (file == NULL) return 0;
    for (int byte = fgetc(file); byte != EOF; byte = fgetc(file), k++)
        if (k == length || byte != bytes[k]) break;
    int equal = k == length && feof(file);
    fclose(file);
    return equal;
}

static int save(const char *name, const uint8_t *bytes, size_t length)
{
    FILE *file = fopen(name, "wb");
    if (file == NULL) return 0;
    size_t written = fwrite(bytes, 1, length, file);
    return fclose(file) == 0 && written == length;
}

/* ---- The two meshes ---- */

static int write_tetrahedron(const char *sample)
{
    static mesh_t mesh;
    size_t length;
    tetrahedron(&mesh);
    uint8_t *image = write_mesh(&mesh, &length);
    if (image == NULL) return 0;
    int equal = file_equals(sample, image, length);
    printf("%s: %s\n", mesh.title, equal ? "equal to the sample, byte for byte" : "not the sample");
    free(image);
    return equal;
}

static int write_hexahedra(const char *output)
{
    static mesh_t mesh;
    size_t length;
    hexahedra(&mesh);
    uint8_t *image = write_mesh(&mesh, &length);
    if (image == NULL) return 0;
    gongaurora_validation verdict = gongaurora_validate(image, length);
    int saved = 0;
    if (verdict.rule != 0) {
        refused(&mesh, "mesh", verdict.rule, verdict.node);
    } else {
        printf("%s: accepted, nodes validated %" PRIu64 ", skipped %" PRIu64 ", zones %" PRIu64 ", sections %" PRIu64 "\n",
               mesh.title, verdict.validated, verdict.skipped, verdict.zones, verdict.sections);
        saved = save(output, image, length);
        if (!saved) fprintf(stderr, "%s: cannot be written\n", output);
    }
    free(image);
    return saved;
}

int main(int argc, char **argv)
{
    if (argc != 3) {
        fprintf(stderr, "usage: write TETRAHEDRON OUTPUT\n");
        return 1;
    }
    return write_tetrahedron(argv[1]) && write_hexahedra(argv[2]) ? 0 : 1;
}
