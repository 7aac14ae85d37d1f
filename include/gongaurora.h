/* Gongaurora: a proved validator, reader and writer for CGNS node-table images. C99 and C++, on x86-64.
 *
 * Validate an image once; from then on every corner of every element can be read without a further check:
 *
 *     gongaurora_validation verdict = gongaurora_validate(image, length);
 *     if (verdict.rule != 0) { puts(gongaurora_rule_text(verdict.rule)); return; }
 *     gongaurora_count found = gongaurora_sections(image, length, zone, sections, verdict.sections);
 *     gongaurora_count size = gongaurora_read_element(image, length, &sections[0], element, corners, room);
 *     gongaurora_corner first = gongaurora_read_corner(image, length, &sections[0], element, 1);
 *
 * An image is made node by node, each judged as it is added: see Writing, the last section.
 *
 * Every call answers on every input: nothing has to be checked before it. What holds for all calls:
 *
 *   Answers    `rule` is 0 where the call succeeded, else the rule that refused it (GONGAURORA_RULE_..). `node` is the node
 *              that the rule was broken at, 0 where the rule names none. The other fields of a refusal are 0, but for
 *              `entry` of rules 34 to 37 and `element` of rule 45.
 *   Entries    Rules 34 to 37 judge the numbers of a section's ElementConnectivity one by one, and the first that breaks one of
 *              them decides. `entry` is its place in the array, counted from 1; in a MIXED section the type numbers count as
 *              places too. gongaurora_array_value with the array's node and this place tells the number itself. In every
 *              other answer `entry` is 0.
 *   Memory     Lent memory is written by a call that succeeded, and there only as far as its answer says; a refused call
 *              leaves it as it was. The one exception is rule 45 of gongaurora_face_usage and gongaurora_parents_agree. A
 *              refused start or addition of the writer leaves its room and its state as they were. No call writes the image
 *              or a section it is given, keeps a pointer, or allocates.
 *   Aliasing   The memory that a call writes must not overlap what it reads: the image and the section; of an addition its
 *              name, label, type, dimensions and data. The writer's state must not overlap its room.
 *   Pointers   A pointer to `length` bytes, or to `room` items, that can be read or written; with 0 of them any, also NULL.
 *   Alignment  None is needed: the image and a buffer of bytes may start at any address. Sections, a writer's state and lists
 *              of 64-bit numbers have the alignment of their C type.
 *   Stack      Measured, and the same for every image: gongaurora_parents_agree takes under 98,000 bytes, every other call
 *              under 96,000; gongaurora_path, gongaurora_name_bytes, gongaurora_array_value and gongaurora_writer_finish under
 *              40,000; gongaurora_read_corner, gongaurora_read_element, gongaurora_element_type, gongaurora_writer_start and
 *              gongaurora_writer_add under 1,000.
 *   Threads    The archive has no state: any calls may run at the same time, as long as no other thread writes what they read
 *              or uses what they write. A writer's state is the caller's, and belongs to one room.
 *   Cost       Measured, not proved. One validation of a usual mesh costs about one pass over the image's bytes, with MIXED
 *              sections up to 1.6; of an image with 1,000 face sections and references at random among them 17. No image
 *              measured takes as long as 20 passes over 16 MB. Each call says whether it validates; those of the writer do
 *              not.
 *   Linking    The archive needs two symbols from outside, memcpy and memset.
 *   Proof      What is proved is proved of the archive's exports. The calls of this header are C around them: tested, not
 *              proved.
 *
 * Numbers in an image are little-endian. Nodes are numbered from 0 (the root); elements, corners and values from 1.
 */
#ifndef GONGAURORA_H
#define GONGAURORA_H

#include <stddef.h>
#include <stdint.h>

/* The version of this header and of the archive beside it. */
#define GONGAURORA_VERSION_MAJOR 0
#define GONGAURORA_VERSION_MINOR 9
#define GONGAURORA_VERSION_PATCH 0
#define GONGAURORA_VERSION "0.9.0"

#ifdef __cplusplus
extern "C" {
#endif

/* ---- Rules ------------------------------------------------------------------------------------------------------ */

/* Why a call was refused. An image is judged header first (1 to 6), then its records (7 to 17), then what is left over (18),
 * then node by node the meaning (20 to 39), at a node the lowest rule first, but 38 between 33 and 34, and 34 to 37 entry by
 * entry; the first broken rule is the answer. They stand here in this order. 19 and 22 are no rules. */
enum gongaurora_rule {
    GONGAURORA_RULE_NONE = 0,             /* nothing is wrong */

    /* the header, and the start of the writer (4, 5, then 1); node 0 */
    GONGAURORA_RULE_IMAGE_LENGTH = 1,     /* under 32 bytes, or over 16,777,216 */
    GONGAURORA_RULE_FORM = 2,             /* the form is not 1 */
    GONGAURORA_RULE_TOTAL_LENGTH = 3,     /* the total length is not the image's length */
    GONGAURORA_RULE_NODE_COUNT = 4,       /* no node, or over 4,096 */
    GONGAURORA_RULE_DIMENSION_WORDS = 5,  /* over 49,152 dimension words */
    GONGAURORA_RULE_LAYOUT = 6,           /* an offset or the data length not as laid down */

    /* the records, and an addition of the writer; the node itself */
    GONGAURORA_RULE_PARENT = 7,           /* the parent is not a lower node */
    GONGAURORA_RULE_DEPTH = 8,            /* deeper than 32 */
    GONGAURORA_RULE_NAME = 9,             /* an unlawful name */
    GONGAURORA_RULE_LABEL = 10,           /* an unlawful label */
    GONGAURORA_RULE_SIBLING_NAME = 11,    /* the name of an earlier sibling */
    GONGAURORA_RULE_LINK = 12,            /* a link */
    GONGAURORA_RULE_DATA_TYPE = 13,       /* an unknown data type */
    GONGAURORA_RULE_DIMENSION_COUNT = 14, /* MT with dimensions, another type with none or over 12 */
    GONGAURORA_RULE_FIRST_DIMENSION = 15, /* dimensions not behind those of the node before, or past the end */
    GONGAURORA_RULE_DATA_LENGTH = 16,     /* a dimension of 0, or a data length that does not fit the dimensions */
    GONGAURORA_RULE_DATA_OFFSET = 17,     /* data not behind those of the node before, or past the end */
    GONGAURORA_RULE_TRAILING = 18,        /* words or bytes left over; the node is the node count */

    /* the meaning; the node itself, for 23 the parent, from 27 on the section */
    GONGAURORA_RULE_CONTAINMENT = 20,     /* a label that may not stand here */
    GONGAURORA_RULE_FIXED_NAME = 21,      /* not the name that the label asks for */
    /* there is no rule 22, and its number is not used again: where a parent has two validated children of a label allowed
     * once, one of them breaks 11, 20 or 21 */
    GONGAURORA_RULE_REQUIRED_CHILD = 23,  /* a required child is missing */
    GONGAURORA_RULE_LABEL_TYPE = 24,      /* data type or dimensions not the label's */
    GONGAURORA_RULE_VALUE = 25,           /* a stored value that is not permitted; a PointRange and a PointList */
    GONGAURORA_RULE_DATA_SIZE = 26,       /* array dimensions not DataSize */
    GONGAURORA_RULE_ELEMENT_TYPE = 27,    /* an element type that is not supported */
    GONGAURORA_RULE_RANGE_OVERLAP = 28,   /* the range meets that of an earlier section */
    GONGAURORA_RULE_ELEMENT_LENGTHS = 29, /* start offsets or connectivity do not fit the range */
    GONGAURORA_RULE_FIRST_OFFSET = 30,    /* the first start offset is not 0 */
    GONGAURORA_RULE_OFFSET_ORDER = 31,    /* a start offset not above its predecessor */
    GONGAURORA_RULE_LAST_OFFSET = 32,     /* the last start offset is not the connectivity length */
    GONGAURORA_RULE_ELEMENT_SIZE = 33,    /* CellDimension 3, and a face of under 3 nodes or a cell of under 4 faces */
    GONGAURORA_RULE_MIXED_TYPE = 38,      /* MIXED: a stored type not in the list, or one that does not fit its start offsets */
    /* the entries of its connectivity: nodes, in a section of type 23 faces; `entry` tells which */
    GONGAURORA_RULE_NODE_REFERENCE = 34,  /* a node number outside 1 to VertexSize */
    GONGAURORA_RULE_ZERO_FACE = 35,       /* a face number that is 0 */
    GONGAURORA_RULE_NO_ELEMENT = 36,      /* a face number that, without its sign, is no element of the zone */
    GONGAURORA_RULE_NO_FACE = 37,         /* a face number that, without its sign, is an element of the zone but no face */
    /* the parents of its faces, in a section of type 22 */
    GONGAURORA_RULE_PARENT_ELEMENTS = 39, /* ParentElements not n by 2 integers, or a parent that is no cell of the zone */

    /* the calls */
    GONGAURORA_RULE_NO_SUCH_NODE = 40,    /* no such node, or none of the kind asked for */
    GONGAURORA_RULE_ELEMENT_NUMBER = 41,  /* the element is outside the section's range, or no face of the zone */
    GONGAURORA_RULE_INDEX = 42,           /* the corner or value is outside 1 to their number */
    GONGAURORA_RULE_UNREADABLE = 43,      /* the section asks for bytes that cannot be read, or for an element that breaks 38 */
    GONGAURORA_RULE_USAGE_ROOM = 44,      /* fewer bytes lent than the zone has faces */
    GONGAURORA_RULE_FACE_REPEATED = 45,   /* a face used twice with one sign; node and element tell where */
    GONGAURORA_RULE_ROOM = 46,            /* too little memory lent */
    GONGAURORA_RULE_VALUE_TYPE = 47,      /* a data type whose values are not handed out */
    GONGAURORA_RULE_ALL_ADDED = 50,       /* the writer: all nodes that were stated are added already */
    GONGAURORA_RULE_NOT_ALL_ADDED = 51,   /* the writer: not all nodes that were stated are added yet */
    GONGAURORA_RULE_NO_PARENTS = 54       /* the face's section, or every face section of the zone, has no ParentElements */
};

/* The rule in a sentence or two for an error message. Static text; never NULL. */
static inline const char *gongaurora_rule_text(uint64_t rule)
{
    switch (rule) {
    case 0: return "Nothing is wrong.";
    case 1: return "The image has under 32 bytes or over 16,777,216.";
    case 2: return "The header's form is not 1.";
    case 3: return "The header's total length is not the image's length.";
    case 4: return "The image has no node or over 4,096.";
    case 5: return "The image has over 49,152 dimension words.";
    case 6: return "An offset or the data length in the header is not as laid down.";
    case 7: return "The node's parent is not a node with a lower number.";
    case 8: return "The node is deeper than 32 levels below the root.";
    case 9: return "The node's name is not lawful.";
    case 10: return "The node's label is not lawful.";
    case 11: return "An earlier sibling has the node's name.";
    case 12: return "The node is a link.";
    case 13: return "The node's data type is unknown.";
    case 14: return "The node's number of dimensions does not fit its data type.";
    case 15: return "The node's dimensions do not follow those of the nodes before it, or lie past the end.";
    case 16: return "A dimension of the node is 0, or its data length does not fit its dimensions.";
    case 17: return "The node's data do not follow those of the nodes before it, or lie past the end.";
    case 18: return "Dimension words or data bytes are left over that belong to no node.";
    case 20: return "A node with this label may not stand under this parent.";
    case 21: return "The node does not have the name that its label asks for.";
    case 23: return "A required child of the node is missing or not as it has to be.";
    case 24: return "The node's data type or dimensions are not those of its label.";
    case 25: return "A value stored in the node is not permitted, or it has both a PointRange and a PointList.";
    case 26: return "The array's dimensions are not its DataSize.";
    case 27: return "The section's element type is not supported.";
    case 28: return "The section's element range meets that of an earlier section of the zone.";
    case 29: return "The section's start offsets or connectivity do not fit its element range.";
    case 30: return "The section's first start offset is not 0.";
    case 31: return "A start offset of the section is not above its predecessor.";
    case 32: return "The section's last start offset is not its connectivity length.";
    case 33: return "The section has a face of fewer than 3 nodes or a cell of fewer than 4 faces.";
    case 38: return "An element of the MIXED section begins with a type that is not 2 to 19 or 21, or its length in the start "
                    "offsets is not 1 + that type's nodes.";
    case 34: return "The section refers to a node outside 1 to VertexSize.";
    case 35: return "The section refers to face 0; elements are numbered from 1.";
    case 36: return "The section refers to a face number that, without its sign, is in the ElementRange of no section of the "
                    "zone. Look for numbers that count from 0 or are another zone's, and for a face section that is left out "
                    "or whose own data or range do not conform.";
    case 37: return "The section refers to an element of the zone that is no face: its section is not of type 22. Look for "
                    "cells or boundary elements numbered into the faces, and for faces written as a fixed type.";
    case 39: return "The section's ParentElements are not I4 or I8 with dimensions [faces, 2], or a parent is no cell of the "
                    "zone: no element of a section of type 23; 0 may stand in the second column alone. Look for pairs written "
                    "face by face and not column by column, for boundary faces with their cell in the second column, for "
                    "cells counted from 0 or from the first cell and not by element number, and for cells of other types.";
    case 40: return "There is no such node, or it is not of the kind asked for.";
    case 41: return "The element number is outside the section's range, or it is no face of the zone.";
    case 42: return "The corner or value number is out of range.";
    case 43: return "The section asks for bytes that cannot be read, or for a MIXED element whose type does not fit.";
    case 44: return "The lent memory is shorter than the zone's number of faces.";
    case 45: return "A face is used twice with the same sign.";
    case 46: return "The lent memory is too short.";
    case 47: return "Values of the node's data type are not handed out.";
    case 50: return "All nodes that were stated at the writer's start are added already. Look for a count of nodes that leaves "
                    "out the root, and for a node that is added twice.";
    case 51: return "Not all nodes that were stated at the writer's start are added yet. Look for an addition that was refused "
                    "and not made again.";
    case 54: return "No parents are stored: the face's section, or every face section of the zone, has no ParentElements. Look "
                    "for an array of another name or label, and for one in a section that is not of type 22.";
    default: return "There is no rule of this number.";
    }
}

/* ---- What the archive exports ----------------------------------------------------------------------------------- */

/* Use the calls further below; they are thin over these. Each returns the rule. `answer` receives the words named, 8 bytes
 * each and little-endian, in a refusal too; where it has fewer bytes than that, the rule is 46 and nothing at all is written.
 * `section` is a gongaurora_section, as its 88 bytes or as its eleven numbers; fewer are 46. `state` is the six numbers of a
 * gongaurora_writer; fewer are 46 and nothing at all is written. */

/* answer, 48 bytes: node, entry, validated, skipped, zones, sections */
uint64_t gongaurora_export_validate(const uint8_t *image, size_t length, uint8_t *answer, size_t room);
/* out: eleven numbers a section; answer, 24 bytes: node, entry, count */
uint64_t gongaurora_export_sections(const uint8_t *image, size_t length, uint64_t zone, uint64_t *out, size_t numbers,
                                    uint8_t *answer, size_t room);
/* number: 8 bytes, two's complement, written where the rule is 0; fewer are 46 */
uint64_t gongaurora_export_read_corner(const uint8_t *image, size_t length, const uint8_t *section, size_t bytes,
                                       uint64_t element, uint64_t corner, uint8_t *number, size_t room);
/* out: the corners; answer, 8 bytes: count */
uint64_t gongaurora_export_read_element(const uint8_t *image, size_t length, const uint64_t *section, size_t eleven,
                                        uint64_t element, int64_t *out, size_t numbers, uint8_t *answer, size_t room);
/* answer, 8 bytes: type */
uint64_t gongaurora_export_element_type(const uint8_t *image, size_t length, const uint64_t *section, size_t eleven,
                                        uint64_t element, uint8_t *answer, size_t room);
/* out: a byte a face; answer, 32 bytes: node, entry, element, count */
uint64_t gongaurora_export_face_usage(const uint8_t *image, size_t length, uint64_t zone, uint8_t *out, size_t bytes,
                                      uint8_t *answer, size_t room);
/* answer, 32 bytes: node, entry, first, second */
uint64_t gongaurora_export_parents(const uint8_t *image, size_t length, uint64_t zone, uint64_t face, uint8_t *answer,
                                   size_t room);
/* out: a byte a face; answer, 32 bytes: node, entry, element, agrees */
uint64_t gongaurora_export_parents_agree(const uint8_t *image, size_t length, uint64_t zone, uint8_t *out, size_t bytes,
                                         uint8_t *answer, size_t room);
/* out: the path; answer, 24 bytes: node, entry, count */
uint64_t gongaurora_export_path(const uint8_t *image, size_t length, uint64_t node, uint8_t *out, size_t bytes,
                                uint8_t *answer, size_t room);
/* answer, 24 bytes: node, entry, count */
uint64_t gongaurora_export_name_bytes(const uint8_t *image, size_t length, uint8_t *answer, size_t room);
/* answer, 48 bytes: node, entry, directions, i, j, k */
uint64_t gongaurora_export_data_size(const uint8_t *image, size_t length, uint64_t node, uint8_t *answer, size_t room);
/* answer, 32 bytes: node, entry, kind, bits */
uint64_t gongaurora_export_array_value(const uint8_t *image, size_t length, uint64_t node, uint64_t k, uint8_t *answer,
                                       size_t room);
/* out: the room; state: written where the rule is 0; answer, 16 bytes: node, entry */
uint64_t gongaurora_export_writer_start(uint64_t nodes, uint64_t words, uint64_t bytes, uint8_t *out, size_t length,
                                        uint32_t *state, size_t numbers, uint8_t *answer, size_t room);
/* the same */
uint64_t gongaurora_export_writer_add(const uint8_t *name, size_t name_length, const uint8_t *label, size_t label_length,
                                      const uint8_t *type, size_t type_length, const uint64_t *dimensions, size_t rank,
                                      uint64_t parent, const uint8_t *data, size_t size, uint8_t *out, size_t length,
                                      uint32_t *state, size_t numbers, uint8_t *answer, size_t room);
/* out: the room, which is read alone; answer, 24 bytes: node, entry, count */
uint64_t gongaurora_export_writer_finish(const uint8_t *out, size_t length, const uint32_t *state, size_t numbers,
                                         uint8_t *answer, size_t room);

/* ---- Validation ------------------------------------------------------------------------------------------------- */

/* The longest image that is supported, in bytes: one byte more is rule 1. */
#define GONGAURORA_MAX_IMAGE 16777216

typedef struct gongaurora_validation {
    uint64_t rule;      /* 0: accepted */
    uint64_t node;
    uint64_t entry;     /* for 34 to 37 the place in the section's connectivity, else 0 */
    uint64_t validated; /* nodes that the rules speak of */
    uint64_t skipped;   /* all others: below user-defined data, or with unknown labels */
    uint64_t zones;     /* validated zones */
    uint64_t sections;  /* validated sections of all zones */
} gongaurora_validation;

/* Validates the whole image.
 * Refusals: 1 to 39, the first in the order told above.
 * Cost: one validation. */
static inline gongaurora_validation gongaurora_validate(const uint8_t *image, size_t length)
{
    gongaurora_validation result;
    result.rule = gongaurora_export_validate(image, length, (uint8_t *)&result + sizeof result.rule,
                                             sizeof result - sizeof result.rule);
    return result;
}

/* ---- Sections and corners --------------------------------------------------------------------------------------- */

/* How many numbers of 8 bytes a section is. */
#define GONGAURORA_SECTION_NUMBERS 11

/* Where a section's elements stand in the image. Byte offsets count from the image's start; offset and width are 0 where
 * there is no such array. */
typedef struct gongaurora_section {
    uint64_t node;
    uint64_t type;                /* CGNS element type: 20 elements with types of their own (MIXED), 22 faces (NGON_n),
                                     23 cells made of faces (NFACE_n), else fixed */
    uint64_t first;               /* ElementRange */
    uint64_t last;
    uint64_t offsets_at;          /* ElementStartOffset: byte offset, bytes a number (4 or 8) */
    uint64_t offsets_width;
    uint64_t connectivity_at;     /* ElementConnectivity: byte offset, bytes a number (4 or 8), how many numbers */
    uint64_t connectivity_width;
    uint64_t connectivity_length;
    uint64_t parents_at;          /* ParentElements: byte offset, bytes a number (4 or 8); 0 where it is absent, and where the
                                     section is not of type 22. The first parent of face f stands at byte
                                     parents_at + parents_width * (f - first), the second parents_width * (last - first + 1)
                                     bytes after it */
    uint64_t parents_width;
} gongaurora_section;

typedef struct gongaurora_count {
    uint64_t rule;
    uint64_t node;
    uint64_t entry;
    uint64_t count;
} gongaurora_count;

/* Writes the sections of a zone, asked for by its node number, in node order to the front of `out`, and answers how many
 * they are. `sections` of gongaurora_validate is room enough for any zone.
 * Refusals: validation's; 40: no validated zone; 46: more sections than `room`.
 * Cost: one validation: the image is validated again. */
static inline gongaurora_count gongaurora_sections(const uint8_t *image, size_t length, uint64_t zone, gongaurora_section *out,
                                                   size_t room)
{
    gongaurora_count result;
    result.rule = gongaurora_export_sections(image, length, zone, (uint64_t *)(void *)out, room * GONGAURORA_SECTION_NUMBERS,
                                             (uint8_t *)&result + sizeof result.rule, sizeof result - sizeof result.rule);
    return result;
}

typedef struct gongaurora_corner {
    uint64_t rule;
    uint64_t node;  /* always 0 */
    int64_t number; /* 0 where refused */
} gongaurora_corner;

/* Reads one corner of an element: the number stored there. In a section of type 23 it is a face number, negative where the
 * cell sees the face from its other side; in others a node number. In a section of type 20 an element's size is the number of
 * its nodes and corner 1 is the first node: the type number that the element begins with is no corner.
 * Refusals: 41: the element is not in the section's range; 43: the section is of a type that is not supported, or asks for
 * bytes that cannot be read, or is of type 20 and the element's stored type is not in the list (2 to 19 and 21) or does not fit
 * its start offsets; 42: the corner is not in 1 to the element's size.
 * Cost: constant, with no validation. To read an element whole, gongaurora_read_element is several times faster: it checks the
 * section once.
 *
 * Proved of the export, which is called with the section's bytes: with an accepted image and the sections that
 * gongaurora_sections gave for one of its zones, image and sections unchanged since, 43 never comes. 41 comes exactly for
 * elements outside the section's range, 42 exactly for corners of an element inside it that are outside 1 to the element's
 * size. Every other read answers the stored number. A node number so read lies in 1 to VertexSize. The magnitude of a face
 * number lies in the range of exactly one of the sections, one of type 22; that face has at least one corner, and all its
 * corners can be read. */
static inline gongaurora_corner gongaurora_read_corner(const uint8_t *image, size_t length, const gongaurora_section *section,
                                                       uint64_t element, uint64_t corner)
{
    gongaurora_corner result;
    result.node = 0;
    result.number = 0;
    result.rule = gongaurora_export_read_corner(image, length, (const uint8_t *)section, sizeof *section, element, corner,
                                                (uint8_t *)&result.number, sizeof result.number);
    return result;
}

/* Reads all corners of an element: writes them, from corner 1 on, to the front of `out`, and answers how many they are. In a
 * section of type 20 they are the nodes alone, without the type number.
 * Refusals: 41: the element is not in the section's range; 43: as gongaurora_read_corner gives it; 46: the element has more
 * corners than `room`.
 * Cost: that of the corners written, with no validation.
 *
 * Proved of the export, with image and sections as told at gongaurora_read_corner: 43 never comes. 41 comes exactly for
 * elements outside the section's range, 46 exactly for an element inside it whose size is more than `room`. Otherwise the
 * numbers written are exactly those that gongaurora_read_corner answers. */
static inline gongaurora_count gongaurora_read_element(const uint8_t *image, size_t length, const gongaurora_section *section,
                                                       uint64_t element, int64_t *out, size_t room)
{
    gongaurora_count result;
    result.node = 0;
    result.entry = 0;
    result.rule = gongaurora_export_read_element(image, length, (const uint64_t *)(const void *)section,
                                                 GONGAURORA_SECTION_NUMBERS, element, out, room, (uint8_t *)&result.count,
                                                 sizeof result.count);
    return result;
}

typedef struct gongaurora_type {
    uint64_t rule;
    uint64_t node; /* always 0 */
    uint64_t type; /* 0 where refused */
} gongaurora_type;

/* The CGNS type of an element: in a section of type 20 the type number that the element begins with, one of 2 to 19 and 21;
 * in others the section's own type.
 * Refusals: 41: the element is not in the section's range; 43: as gongaurora_read_corner gives it, in sections of any type.
 * Cost: constant, with no validation.
 *
 * Proved of the export, with image and sections as told at gongaurora_read_corner: 43 never comes, 41 comes exactly for
 * elements outside the section's range; every other call answers the type number that the element begins with in a section of
 * type 20, and the section's type in others. */
static inline gongaurora_type gongaurora_element_type(const uint8_t *image, size_t length, const gongaurora_section *section,
                                                      uint64_t element)
{
    gongaurora_type result;
    result.node = 0;
    result.rule = gongaurora_export_element_type(image, length, (const uint64_t *)(const void *)section,
                                                 GONGAURORA_SECTION_NUMBERS, element, (uint8_t *)&result.type,
                                                 sizeof result.type);
    return result;
}

/* ---- Face usage ------------------------------------------------------------------------------------------------- */

enum gongaurora_use {
    GONGAURORA_USE_NONE = 0,
    GONGAURORA_USE_FORWARD = 1,  /* by a positive face number only */
    GONGAURORA_USE_REVERSED = 2, /* by a negative face number only */
    GONGAURORA_USE_BOTH = 3
};

typedef struct gongaurora_usage {
    uint64_t rule;
    uint64_t node;    /* for 45 the section of cells */
    uint64_t entry;
    uint64_t element; /* for 45 the cell that uses a face again, else 0 */
    uint64_t count;   /* the zone's number of faces, F */
} gongaurora_usage;

/* Tells how the cells (type 23) of a zone use its faces (type 22): writes one byte a face (GONGAURORA_USE_..) to the front of
 * `out`, faces ordered by section node, then number; answers F. Bytes past the first F never change.
 * Refusals: validation's; 40: no validated zone; 44: `room` is less than F; 45: a face used twice with one sign: then the
 * first F bytes are 0.
 * Cost: one validation: the image is validated again; then the zone's cells are read once more. */
static inline gongaurora_usage gongaurora_face_usage(const uint8_t *image, size_t length, uint64_t zone, uint8_t *out,
                                                     size_t room)
{
    gongaurora_usage result;
    result.rule = gongaurora_export_face_usage(image, length, zone, out, room, (uint8_t *)&result + sizeof result.rule,
                                               sizeof result - sizeof result.rule);
    return result;
}

/* ---- Parents ---------------------------------------------------------------------------------------------------- */

typedef struct gongaurora_parent_pair {
    uint64_t rule;
    uint64_t node;
    uint64_t entry;
    uint64_t first;  /* the element number of a cell (type 23) of the zone; 0 where refused */
    uint64_t second; /* the same, or 0 where there is none */
} gongaurora_parent_pair;

/* The parents of a face of a zone, asked for by its element number: the two numbers that its section's ParentElements store for
 * it. In an accepted image each is a cell of the zone, the second one or 0 (rule 39); whether they are the cells that use the
 * face tells gongaurora_parents_agree.
 * Refusals: validation's; 40: no validated zone; 41: no face of the zone, that is, no element of a section of type 22; 54: the
 * face's section has no ParentElements.
 * Cost: one validation: the image is validated again. For many faces read the numbers where `parents_at` and `parents_width`
 * of the section say that they stand.
 *
 * Proved: with an accepted image and the sections that gongaurora_sections gave for one of its zones, image and sections
 * unchanged since, all these numbers lie in the image and are the parents that the section stores. */
static inline gongaurora_parent_pair gongaurora_parents(const uint8_t *image, size_t length, uint64_t zone, uint64_t face)
{
    gongaurora_parent_pair result;
    result.rule = gongaurora_export_parents(image, length, zone, face, (uint8_t *)&result + sizeof result.rule,
                                            sizeof result - sizeof result.rule);
    return result;
}

typedef struct gongaurora_agreement {
    uint64_t rule;
    uint64_t node;    /* for 45 the section of cells */
    uint64_t entry;
    uint64_t element; /* for 45 the cell that uses a face again, else 0 */
    uint64_t agrees;  /* 1: all parents agree with the cells; 0: some do not, or the call was refused */
} gongaurora_agreement;

/* Tells whether the parents stored for the faces of a zone are the cells (type 23) that use them, for every face of the
 * sections with ParentElements. They agree where a face used once has its cell as first parent and 0 as second, and a face
 * used twice has both cells, in either order; a cell that uses a face from both sides is both parents. A face that no cell
 * uses never agrees. Writes the bytes of gongaurora_face_usage to the front of `out`, one for each face of the zone, where they
 * agree and where they do not. Bytes past these never change.
 * Refusals: validation's; 40: no validated zone; 54: no face section of the zone has ParentElements: then `out` is as it was;
 * 44: `room` is less than the zone's number of faces; 45: a face used twice with one sign: then the bytes are 0.
 * Cost: that of gongaurora_face_usage; then the zone's cells and the parents are read once more.
 *
 * Proved: where it answers 1, the parents that gongaurora_parents answers for a face are exactly the cells that use it, as
 * often as they use it, and the second is 0 where there is one use. */
static inline gongaurora_agreement gongaurora_parents_agree(const uint8_t *image, size_t length, uint64_t zone, uint8_t *out,
                                                            size_t room)
{
    gongaurora_agreement result;
    result.rule = gongaurora_export_parents_agree(image, length, zone, out, room, (uint8_t *)&result + sizeof result.rule,
                                                  sizeof result - sizeof result.rule);
    return result;
}

/* ---- Paths ------------------------------------------------------------------------------------------------------ */

/* The longest path: 32 levels, each a slash and at most 32 bytes. */
#define GONGAURORA_PATH_ROOM 1056

/* Writes the path of a node to the front of `out` and answers its length: the names from below the root, each after a slash;
 * the root's path is one slash. No zero byte is appended. Works on a refused image too, as long as its rule is over 18.
 * Refusals: 1 to 18; 40: no such node; 46: the path is longer than `room`.
 * Cost: rules 1 to 18 alone are checked again, which read the records and no data. */
static inline gongaurora_count gongaurora_path(const uint8_t *image, size_t length, uint64_t node, uint8_t *out, size_t room)
{
    gongaurora_count result;
    result.rule = gongaurora_export_path(image, length, node, out, room, (uint8_t *)&result + sizeof result.rule,
                                         sizeof result - sizeof result.rule);
    return result;
}

/* ---- Names ------------------------------------------------------------------------------------------------------ */

/* How much work rule 11's comparison of sibling names is where every pair of siblings is compared, byte by byte up to the first
 * that differs: the number of name bytes looked at. A pair counts once, with the place of that byte, from 1, among the 32 of a
 * name and its blanks; the answer is the sum over all pairs. Many names under one parent that begin alike make it large:
 * Zone0001 and Zone0002 count 8, Zone0001 and Wall 1. Where there are no siblings it is 0. Works on a refused image too, as
 * long as its rule is over 18.
 * Refusals: 1 to 18.
 * Cost: rules 1 to 18 alone are checked again, then every pair of siblings is compared: up to 8,382,465 pairs. */
static inline gongaurora_count gongaurora_name_bytes(const uint8_t *image, size_t length)
{
    gongaurora_count result;
    result.rule = gongaurora_export_name_bytes(image, length, (uint8_t *)&result + sizeof result.rule,
                                               sizeof result - sizeof result.rule);
    return result;
}

/* ---- Arrays ----------------------------------------------------------------------------------------------------- */

typedef struct gongaurora_sizes {
    uint64_t rule;
    uint64_t node;
    uint64_t entry;
    uint64_t directions; /* 1 to 3 */
    uint64_t size[3];    /* 0 in a direction that the array lacks */
} gongaurora_sizes;

/* The DataSize of a DataArray_t under GridCoordinates_t or FlowSolution_t, rind included. Under a FlowSolution_t with a
 * PointRange or a PointList it is one direction, the number of points.
 * Refusals: validation's; 40: no such node, or no such array.
 * Cost: one validation: the image is validated again. */
static inline gongaurora_sizes gongaurora_data_size(const uint8_t *image, size_t length, uint64_t node)
{
    gongaurora_sizes result;
    result.rule = gongaurora_export_data_size(image, length, node, (uint8_t *)&result + sizeof result.rule,
                                              sizeof result - sizeof result.rule);
    return result;
}

enum gongaurora_kind {
    GONGAURORA_KIND_WHOLE = 1,  /* I4, I8: the number in two's complement, 64 bits */
    GONGAURORA_KIND_SINGLE = 2, /* R4: the bits of a float, in the lower 32 */
    GONGAURORA_KIND_DOUBLE = 3  /* R8: the bits of a double */
};

typedef struct gongaurora_value {
    uint64_t rule;
    uint64_t node;
    uint64_t entry; /* always 0 */
    uint64_t kind;  /* GONGAURORA_KIND_.. */
    uint64_t bits;  /* as stored, of a NaN too */
} gongaurora_value;

/* The k-th stored value of any node. Works on a refused image too, as long as its rule is over 18.
 * Refusals: 1 to 18; 40: no such node; 47: its data type is not I4, I8, R4 or R8; 42: k is not in 1 to the number of values.
 * Cost: for each value, rules 1 to 18 alone are checked again, which read the records and no data. */
static inline gongaurora_value gongaurora_array_value(const uint8_t *image, size_t length, uint64_t node, uint64_t k)
{
    gongaurora_value result;
    result.rule = gongaurora_export_array_value(image, length, node, k, (uint8_t *)&result + sizeof result.rule,
                                                sizeof result - sizeof result.rule);
    return result;
}

/* ---- Writing ---------------------------------------------------------------------------------------------------- */

/* An image is made in lent memory, the room. State how many nodes, dimension words and data bytes it has; add its nodes in
 * order, each after its parent; finish it:
 *
 *     uint64_t length = gongaurora_writer_room(nodes, words, bytes);
 *     uint8_t *room = malloc(length);
 *     gongaurora_writer writer;
 *     gongaurora_writing answer = gongaurora_writer_start(&writer, nodes, words, bytes, room, length);
 *     for (k = 0; k < nodes && answer.rule == 0; k++)
 *         answer = gongaurora_writer_add(&writer, &additions[k], room, length);
 *     gongaurora_count image = gongaurora_writer_finish(&writer, room, length);
 *
 * A refused call changes neither the room nor the state: mend the addition and make it again, and all is as if the refused one
 * had not been made. An addition is judged by the records that stand in the room then, so leave the room alone between the
 * calls; a state is taken at its word. Whatever state and room are given, each call answers and stays inside the room.
 *
 * Finishing judges rules 1 to 18, which make the image a sound table of nodes. Whether it is a sound mesh, rules 20 to 39,
 * gongaurora_validate tells, asked with the room and the length that finishing answers.
 *
 * Proved, where the start succeeded, each call got the state as the call before left it, nobody else wrote to the room, and all
 * nodes, words and bytes that were stated are added, whatever additions were refused in between: finishing succeeds, the image
 * passes rules 1 to 18, and read back its nodes are exactly those added, in that order, names and labels filled up with blanks.
 * And the other way round: an image that passes rules 1 to 18, read node by node and written again, gives equal bytes, with no
 * addition refused. No call ever changes a byte of the room past the needed ones. */

/* The parent of the root. */
#define GONGAURORA_NO_PARENT 4294967295u

/* How many numbers of 4 bytes a writer's state is. */
#define GONGAURORA_WRITER_NUMBERS 6

/* A writer's state. The number of the next node is `node`: ask it before an addition that later ones name as their parent. */
typedef struct gongaurora_writer {
    uint32_t nodes; /* as stated at the start */
    uint32_t words;
    uint32_t bytes;
    uint32_t node;  /* how many of each are added so far */
    uint32_t word;
    uint32_t byte;
} gongaurora_writer;

/* A node to be added. Texts need no zero byte behind them and no blanks: the writer fills names and labels up to 32 bytes. */
typedef struct gongaurora_addition {
    const char *name;
    size_t name_length;
    const char *label;
    size_t label_length;
    const char *type;           /* "I4" ..; "MT" for a node without data */
    size_t type_length;         /* 2 */
    const uint64_t *dimensions; /* the first one varies fastest in the data, as in Fortran */
    size_t rank;                /* how many dimensions; 0 for MT */
    uint64_t parent;            /* the parent's node number; of the root GONGAURORA_NO_PARENT */
    const void *data;           /* as they are to be stored, numbers little-endian */
    size_t size;                /* in bytes; 0 for MT */
} gongaurora_addition;

typedef struct gongaurora_writing {
    uint64_t rule;
    uint64_t node;  /* for 7 to 17 the number that the node would have, else 0 */
    uint64_t entry; /* always 0 */
} gongaurora_writing;

/* The room that an image needs, in bytes, and its length: a header of 32, a record of 84 for each node, 8 for each dimension
 * word, the data. Exact where the three are below 2^32; where it would be too large for 64 bits the start refuses them. */
static inline uint64_t gongaurora_writer_room(uint64_t nodes, uint64_t words, uint64_t bytes)
{
    return 32 + 84 * nodes + 8 * words + bytes;
}

/* Starts an image of `nodes` nodes, the root among them, which have `words` dimensions and `bytes` bytes of data, each summed
 * over all nodes. Writes the header and then zeros to the needed bytes of the room, and the state; what was in them is not
 * looked at.
 * Refusals: 4: no node or over 4,096; 5: over 49,152 words; 1: the image would have over 16,777,216 bytes; 46: `length` is less
 * than the needed room. With no room, NULL and 0, it is 46 exactly where the three numbers are lawful.
 * Cost: the needed room is written once. */
static inline gongaurora_writing gongaurora_writer_start(gongaurora_writer *writer, uint64_t nodes, uint64_t words,
                                                         uint64_t bytes, uint8_t *room, size_t length)
{
    gongaurora_writing result;
    result.rule = gongaurora_export_writer_start(nodes, words, bytes, room, length, (uint32_t *)(void *)writer,
                                                 GONGAURORA_WRITER_NUMBERS, (uint8_t *)&result + sizeof result.rule,
                                                 sizeof result - sizeof result.rule);
    return result;
}

/* Adds the next node: writes its record, its dimension words and its data to their places in the room, and nothing else; moves
 * the state on. The header in the room is not looked at.
 * Refusals: 46: `length` is less than the needed room; 50: all nodes are added; then of this node, in this order, 7: the
 * parent is not a node added before it, of the first node not GONGAURORA_NO_PARENT, or in the room a node above it breaks this
 * rule; 8: it is deeper than 32; 9: the name, 10: the label has no byte or over 32, blanks counted, or one that is not lawful;
 * 11: a node added before has this parent and this name; 12: the type is LK; 13: it is none of the eleven; 14: the number of
 * dimensions does not fit the type; 15: with them there are more words than were stated; 16: a dimension is 0, or `size` is not
 * their product times the width of the type; 17: with these there are more bytes than were stated.
 * Cost: the records before it are looked at for its siblings, each of them at every addition, 4,096 nodes below one parent in
 * under 10 ms together; its data are copied. */
static inline gongaurora_writing gongaurora_writer_add(gongaurora_writer *writer, const gongaurora_addition *addition,
                                                       uint8_t *room, size_t length)
{
    gongaurora_writing result;
    result.rule = gongaurora_export_writer_add((const uint8_t *)addition->name, addition->name_length,
                                               (const uint8_t *)addition->label, addition->label_length,
                                               (const uint8_t *)addition->type, addition->type_length, addition->dimensions,
                                               addition->rank, addition->parent, (const uint8_t *)addition->data,
                                               addition->size, room, length, (uint32_t *)(void *)writer,
                                               GONGAURORA_WRITER_NUMBERS, (uint8_t *)&result + sizeof result.rule,
                                               sizeof result - sizeof result.rule);
    return result;
}

/* Finishes an image: judges the needed bytes of the room, the header among them, and nothing past them; answers their number,
 * which is the image's length. Writes nothing, and can be asked again; an addition after it is 50.
 * Refusals: 46: `length` is less than the needed room; 51: not all nodes are added; then 1 to 18: 18, at node `nodes`, where
 * fewer words or bytes were added than stated; another where the room was changed between the calls.
 * Cost: rules 1 to 18 alone are checked, which read the records and no data. */
static inline gongaurora_count gongaurora_writer_finish(const gongaurora_writer *writer, const uint8_t *room, size_t length)
{
    gongaurora_count result;
    result.rule = gongaurora_export_writer_finish(room, length, (const uint32_t *)(const void *)writer,
                                                  GONGAURORA_WRITER_NUMBERS, (uint8_t *)&result + sizeof result.rule,
                                                  sizeof result - sizeof result.rule);
    return result;
}

/* The structs are words with nothing between them, as the exports write and read them. */
typedef char gongaurora_structs_are_words[sizeof(gongaurora_validation) == 56 &&
                                          sizeof(gongaurora_section) == 8 * GONGAURORA_SECTION_NUMBERS &&
                                          sizeof(gongaurora_count) == 32 && sizeof(gongaurora_corner) == 24 &&
                                          sizeof(gongaurora_type) == 24 && sizeof(gongaurora_usage) == 40 &&
                                          sizeof(gongaurora_parent_pair) == 40 && sizeof(gongaurora_agreement) == 40 &&
                                          sizeof(gongaurora_sizes) == 56 && sizeof(gongaurora_value) == 40 &&
                                          sizeof(gongaurora_writer) == 4 * GONGAURORA_WRITER_NUMBERS &&
                                          sizeof(gongaurora_writing) == 24 ? 1 : -1];

#ifdef __cplusplus
}
#endif

#endif
