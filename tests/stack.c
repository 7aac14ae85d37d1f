/* stack IMAGE..: makes every call on each image in a thread. First on a large stack filled with a pattern, and prints how many
 * bytes each call takes at most; then on a stack of SMALL bytes with nothing that can be touched below it. Exit status 1 where a
 * call takes more than its limit, does not end on the small stack, or succeeds on no image. */
#define _DEFAULT_SOURCE
#include "gongaurora.h"

#include <pthread.h>
#include <stdio.h>
#include <stdlib.h>
#include <string.h>
#include <sys/mman.h>
#include <sys/wait.h>
#include <unistd.h>

/* The limits in bytes: of agreement, of another call that validates, of one that checks rules 1 to 18 alone, of one that reads
 * by a section, of a start or an addition of the writer; and of the whole stack of a thread that every call has to do with. */
enum { AGREEMENT = 98000, VALIDATION = 96000, TABLE = 40000, READ = 1000, WRITE = 1000, SMALL = 112 * 1024 };

enum { LARGE = 1 << 20, GUARD = 1 << 20, PATTERN = 0x5a, ROOM = 4096 };

static uint8_t image[GONGAURORA_MAX_IMAGE], bytes[GONGAURORA_MAX_IMAGE];
static size_t length;
static uint64_t zone, array;
static gongaurora_section sections[ROOM];
static int64_t corners[ROOM];

/* The image written again: the state after its last node but one, the state after it, and this node. */
static uint8_t copy[GONGAURORA_MAX_IMAGE];
static gongaurora_writer before_last, after_last;
static gongaurora_addition last;
static uint64_t last_dimensions[12];

/* The calls; each answers the rule. */
static uint64_t validate(void) { return gongaurora_validate(image, length).rule; }
static uint64_t list_sections(void) { return gongaurora_sections(image, length, zone, sections, ROOM).rule; }
static uint64_t read_corner(void) { return gongaurora_read_corner(image, length, sections, sections->first, 1).rule; }
static uint64_t read_element(void)
{
    return gongaurora_read_element(image, length, sections, sections->first, corners, ROOM).rule;
}
static uint64_t element_type(void) { return gongaurora_element_type(image, length, sections, sections->first).rule; }
static uint64_t face_usage(void) { return gongaurora_face_usage(image, length, zone, bytes, sizeof bytes).rule; }
static uint64_t parents(void) { return gongaurora_parents(image, length, zone, sections->first).rule; }
static uint64_t parents_agree(void) { return gongaurora_parents_agree(image, length, zone, bytes, sizeof bytes).rule; }
static uint64_t path(void) { return gongaurora_path(image, length, array, bytes, sizeof bytes).rule; }
static uint64_t name_bytes(void) { return gongaurora_name_bytes(image, length).rule; }
static uint64_t data_size(void) { return gongaurora_data_size(image, length, array).rule; }
static uint64_t array_value(void) { return gongaurora_array_value(image, length, array, 1).rule; }
static uint64_t writer_start(void)
{
    gongaurora_writer writer;
    return gongaurora_writer_start(&writer, before_last.nodes, before_last.words, before_last.bytes, bytes, sizeof bytes).rule;
}
static uint64_t writer_add(void)
{
    gongaurora_writer writer = before_last;
    return gongaurora_writer_add(&writer, &last, copy, length).rule;
}
static uint64_t writer_finish(void) { return gongaurora_writer_finish(&after_last, copy, length).rule; }

/* The sections come before what reads by them. */
static const struct {
    const char *name;
    uint64_t (*make)(void);
    size_t limit;
} calls[] = {
    {"validate", validate, VALIDATION},
    {"sections", list_sections, VALIDATION},
    {"read_corner", read_corner, READ},
    {"read_element", read_element, READ},
    {"element_type", element_type, READ},
    {"face_usage", face_usage, VALIDATION},
    {"parents", parents, VALIDATION},
    {"parents_agree", parents_agree, AGREEMENT},
    {"path", path, TABLE},
    {"name_bytes", name_bytes, TABLE},
    {"data_size", data_size, VALIDATION},
    {"array_value", array_value, TABLE},
    {"writer_start", writer_start, WRITE},
    {"writer_add", writer_add, WRITE},
    {"writer_finish", writer_finish, TABLE},
};
enum { CALLS = sizeof calls / sizeof *calls };

/* Of each call: bytes taken at most, whether it has succeeded, on how many images it did not end on the small stack, and on
 * which first. */
static size_t most[CALLS], unended[CALLS];
static int succeeded[CALLS];
static const char *first_unended[CALLS];

static uint8_t *large, *small, *top;

static void fail(const char *what)
{
    printf("stack: %s\n", what);
    exit(1);
}

/* Memory for a stack. What lies below it cannot be touched, further than one frame reaches. */
static uint8_t *stack_of(size_t size)
{
    void *memory = mmap(NULL, GUARD + size, PROT_READ | PROT_WRITE, MAP_PRIVATE | MAP_ANONYMOUS, -1, 0);
    if (memory == MAP_FAILED || mprotect(memory, GUARD, PROT_NONE) != 0) fail("no memory");
    return (uint8_t *)memory + GUARD;
}

/* Makes a call; all that it takes is below `top`. */
static void *make(void *call)
{
    uint8_t here;
    size_t k = *(const size_t *)call;
    top = &here;
    if (calls[k].make() == 0) succeeded[k] = 1;
    return NULL;
}

/* Makes a call in a thread on a stack. */
static void run(size_t call, uint8_t *stack, size_t size)
{
    pthread_attr_t attributes;
    pthread_t thread;
    if (pthread_attr_init(&attributes) != 0 || pthread_attr_setstack(&attributes, stack, size) != 0 ||
        pthread_create(&thread, &attributes, make, &call) != 0 || pthread_join(thread, NULL) != 0)
        fail("no thread");
    pthread_attr_destroy(&attributes);
}

/* How many bytes of stack a call takes. */
static size_t taken(size_t call)
{
    uint8_t *low = large;
    memset(large, PATTERN, LARGE);
    run(call, large, LARGE);
    while (low < top && *low == PATTERN) low++;
    return (size_t)(top - low);
}

/* Whether a call ends on the small stack; in a process of its own, since it is killed where it does not. */
static int ends(size_t call)
{
    int status;
    pid_t child = fork();
    if (child < 0) fail("no process");
    if (child == 0) {
        run(call, small, SMALL);
        _exit(0);
    }
    return waitpid(child, &status, 0) == child && status == 0;
}

/* The little-endian word of an image at a place. */
static uint32_t word_at(size_t at)
{
    uint32_t word;
    memcpy(&word, image + at, sizeof word);
    return word;
}

/* Writes the image again, node by node, up to the first that is refused; none is where rules 1 to 18 hold. */
static void write_again(void)
{
    enum { HEADER = 32, RECORD = 84, LABEL = 32, TYPE = 64, RANK = 66, FIRST = 68, PARENT = 72, DATA = 76, SIZE = 80 };
    memset(&before_last, 0, sizeof before_last);
    memset(&after_last, 0, sizeof after_last);
    memset(&last, 0, sizeof last);
    if (gongaurora_path(image, length, 0, bytes, sizeof bytes).rule != 0 ||
        gongaurora_writer_start(&before_last, word_at(8), word_at(20), word_at(28), copy, sizeof copy).rule != 0)
        return;
    after_last = before_last;
    for (size_t node = 0; node < after_last.nodes; node++) {
        size_t at = HEADER + RECORD * node;
        before_last = after_last;
        last.name = (const char *)image + at;
        last.label = (const char *)image + at + LABEL;
        last.name_length = last.label_length = 32;
        last.type = (const char *)image + at + TYPE;
        last.type_length = 2;
        last.rank = image[at + RANK];
        memcpy(last_dimensions, image + word_at(16) + 8 * word_at(at + FIRST), 8 * last.rank);
        last.dimensions = last_dimensions;
        last.parent = word_at(at + PARENT);
        last.data = image + word_at(24) + word_at(at + DATA);
        last.size = word_at(at + SIZE);
        if (gongaurora_writer_add(&after_last, &last, copy, length).rule != 0) return;
    }
}

/* Whether a field of 32 bytes holds a text and then blanks. */
static int spells(const uint8_t *field, const char *text)
{
    size_t size = strlen(text);
    if (memcmp(field, text, size) != 0) return 0;
    while (size < 32 && field[size] == ' ') size++;
    return size == 32;
}

/* The last node with one label under a parent with another; 0 where there is none. */
static uint64_t last_node(const char *label, const char *parent_label)
{
    enum { HEADER = 32, RECORD = 84, LABEL = 32, PARENT = 72 };
    uint64_t found = 0;
    for (size_t node = 1; HEADER + RECORD * (node + 1) <= length; node++) {
        const uint8_t *record = image + HEADER + RECORD * node;
        uint32_t parent;
        memcpy(&parent, record + PARENT, sizeof parent);
        if (parent < node && spells(record + LABEL, label) && spells(image + HEADER + RECORD * parent + LABEL, parent_label))
            found = node;
    }
    return found;
}

/* Reads an image, finds a zone of it and an array, one that has a DataSize where there is one, and writes it again. */
static void load(const char *name)
{
    FILE *file = fopen(name, "rb");
    if (file == NULL) fail(name);
    length = fread(image, 1, sizeof image, file);
    fclose(file);
    zone = last_node("Zone_t", "CGNSBase_t");
    array = last_node("DataArray_t", "FlowSolution_t");
    if (array == 0) array = last_node("DataArray_t", "GridCoordinates_t");
    if (array == 0) array = last_node("DataArray_t", "Elements_t");
    write_again();
}

int main(int argc, char **argv)
{
    int status = 0;
    large = stack_of(LARGE);
    small = stack_of(SMALL);
    for (int k = 1; k < argc; k++) {
        load(argv[k]);
        for (size_t call = 0; call < CALLS; call++) {
            size_t now = taken(call);
            if (now > most[call]) most[call] = now;
            if (!ends(call) && unended[call]++ == 0) first_unended[call] = argv[k];
        }
    }
    printf("stack:");
    for (size_t call = 0; call < CALLS; call++) {
        int over = most[call] > calls[call].limit;
        printf("%s %s %lu%s", call > 0 ? "," : "", calls[call].name, (unsigned long)most[call], over ? " (too much)" : "");
        status |= over;
    }
    printf("\n");
    for (size_t call = 0; call < CALLS; call++) {
        if (unended[call] > 0)
            printf("stack: %s needs more than the %d bytes of a thread on %lu of %d images, first %s\n", calls[call].name, SMALL,
                   (unsigned long)unended[call], argc - 1, first_unended[call]);
        if (!succeeded[call]) printf("stack: %s succeeds on no image\n", calls[call].name);
        status |= unended[call] > 0 || !succeeded[call];
    }
    if (status == 0) printf("stack: every call ends in a thread with %d bytes\n", SMALL);
    return status;
}
