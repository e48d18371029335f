/*
 * Calls every function of the interface: creates a journal, posts three changes to two files, reads them back in two replies, asks the
 * controls on one of the files, sets and deletes its reparse point, which posts two more changes, lists all files with their paths, saves
 * the journal, deletes it, and loads it again.
 * Build and run: examples/c/run
 */
#include <inttypes.h>
#include <stdio.h>
#include <stdlib.h>
#include <string.h>

#include "lanhduxe.h"

enum { CAPACITY = 4096, ID = 7, NEXT_ID = 8 };

static void expect(const char *call, uint32_t status)
{
    if (status != USN_SUCCESS) {
        fprintf(stderr, "%s: status 0x%08" PRIX32 "\n", call, status);
        exit(1);
    }
}

/* A file is made, written and closed; another is made. Names are UTF-16. */
static void post_changes(usn_volume *volume, uint8_t *ring)
{
    static const struct { uint64_t file; uint32_t reason; const char *name; size_t size; } posts[] = {
        { 41, 0x00000100, "t\0a\0b\0l\0e\0", 10 },
        { 41, 0x80000102, "t\0a\0b\0l\0e\0", 10 },
        { 42, 0x00000100, "c\0o\0d\0e\0", 8 },
    };
    for (size_t i = 0; i < sizeof posts / sizeof *posts; i++) {
        usn_change change = { .file = usn_id_of(posts[i].file), .parent = usn_id_of(5), .reason = posts[i].reason };
        uint64_t usn = 0;
        expect("usn_post", usn_post(volume, ring, CAPACITY, change, (const uint8_t *)posts[i].name, posts[i].size, &usn));
        printf("posted file %" PRIu64 ", Usn %" PRIu64 "\n", posts[i].file, usn);
    }
}

/* Each read goes on where the one before ended: its start is the last reply's position. */
static void read_changes(const usn_volume *volume, const uint8_t *ring)
{
    static uint8_t output[200], text[USN_LIST_ROOM(sizeof output)];
    usn_read_input wanted = { .start = 0, .mask = 0xFFFFFFFF, .id = ID, .lowest = 2, .highest = 2 };
    while (wanted.start != volume->last) {
        uint8_t input[USN_READ_INPUT_SIZE];
        usn_put_read_input(input, wanted);
        usn_answer answer = usn_read_journal(*volume, ring, CAPACITY, input, sizeof input, output, sizeof output);
        expect("usn_read_journal", answer.status);

        usn_answer listed = usn_list_reply(output, answer.count, text, sizeof text);
        expect("usn_list_reply", listed.status);
        fwrite(text, 1, listed.count, stdout);

        usn_walk walk = usn_walk_reply(output, answer.count);
        expect("usn_walk_reply", walk.status);
        wanted.start = walk.position;
    }
}

/* Prints the regions of the whole file, with room for one at a time: as long as there are more, it asks for what is behind. */
static void ask_regions(const usn_volume *volume, usn_file file)
{
    uint8_t input[24] = { 0 }, output[40];
    uint64_t offset = 0, length = INT64_MAX;
    usn_answer answer;
    do {
        usn_put_number(input, offset, 8);
        usn_put_number(input + 8, length, 8);
        usn_put_number(input + 16, 1, 4);
        answer = usn_query_file_regions(*volume, file, input, sizeof input, output, sizeof output);
        if (usn_is_refusal(answer.status))
            break;
        if (answer.count > 0) {
            uint64_t size = usn_get_number(output + 24, 8);
            printf("region at %" PRIu64 ", length %" PRIu64 ", usage %" PRIu64 "\n", usn_get_number(output + 16, 8), size,
                   usn_get_number(output + 32, 4));
            offset += size;
            length -= size;
        }
    } while (answer.status == USN_BUFFER_OVERFLOW);
    expect("usn_query_file_regions", answer.status);
}

/* The controls that ask about the first file: 60 of its 100 bytes are valid, and it has two links. */
static void ask_file(const usn_volume *volume, usn_file file)
{
    static const uint8_t pool[] = "t\0a\0b\0l\0e\0T\0";
    static const usn_link links[] = { { .place = 10, .length = 2 }, { .place = 0, .length = 10, .short_length = 10 } };
    uint8_t output[USN_READ_ROOM];

    usn_answer answer = usn_read_file(*volume, file, usn_id_of(5), pool, 12, links, 2, NULL, 0, output, sizeof output);
    expect("usn_read_file", answer.status);
    usn_record record = usn_read_record(output, answer.count, 0);
    expect("usn_read_record", record.status);
    printf("file %" PRIu64 " in %" PRIu64 ", Usn %" PRIu64 ", name of %" PRIu64 " bytes, first %c\n",
           usn_get_number(record.file.bytes, 8), usn_get_number(record.parent.bytes, 8), record.usn, record.length, output[record.name]);

    ask_regions(volume, file);
}

/* The first file becomes a link to another table, and then a plain file again. Its store stays with it all the time. */
static void link_file(usn_volume *volume, uint8_t *ring, usn_file *file)
{
    static const uint8_t name[] = "t\0a\0b\0l\0e\0", target[] = "t\0a\0b\0l\0e\0" "2\0";
    static uint8_t store[USN_STORE_MIN];
    enum { HEADER = 8, NAME_SIZE = 10, TARGET_SIZE = 12 };
    usn_change change = { .file = file->id, .parent = usn_id_of(5) };
    uint8_t input[HEADER + TARGET_SIZE] = { 0 }, output[sizeof input];
    usn_put_number(input, 0xA000000C, 4);
    usn_put_number(input + 4, TARGET_SIZE, 2);
    memcpy(input + HEADER, target, TARGET_SIZE);
    expect("usn_set_reparse_point",
           usn_set_reparse_point(volume, ring, CAPACITY, file, store, sizeof store, change, name, NAME_SIZE, input, sizeof input));
    printf("set a reparse point, Usn %" PRIu64 "\n", file->usn);

    usn_answer answer = usn_get_reparse_point(*volume, *file, store, sizeof store, output, sizeof output);
    expect("usn_get_reparse_point", answer.status);
    printf("reparse tag %08" PRIX64 ", %" PRIu64 " bytes of data\n", usn_get_number(output, 4), usn_get_number(output + 4, 2));

    usn_put_number(input + 4, 0, 2); /* the header alone */
    expect("usn_delete_reparse_point",
           usn_delete_reparse_point(volume, ring, CAPACITY, file, store, sizeof store, change, name, NAME_SIZE, input, HEADER));
    printf("deleted it, Usn %" PRIu64 "\n", file->usn);
}

enum { FILES = 3, POOL_SIZE = 26 };

/* Prints a file's path from folder 2 on, the volume's root, which has no row. All names here are of ASCII. */
static void print_path(const usn_entry *table, const uint8_t *pool, usn_id file)
{
    static uint8_t path[USN_PATH_ROOM];
    usn_answer answer = usn_file_path(table, FILES, pool, POOL_SIZE, file, usn_id_of(2), path, sizeof path);
    expect("usn_file_path", answer.status);
    for (size_t i = 0; i < answer.count; i += 2)
        putchar(path[i]);
    putchar('\n');
}

/*
 * The files as they are now: the folder and the two in it, as a client wants them that has missed changes. Each call goes on where the one
 * before ended. Here there is room for two of them; USN_READ_ROOM bytes have room for any.
 */
static void list_files(const usn_volume *volume, const usn_file *file)
{
    static const uint8_t pool[] = "d\0a\0t\0a\0t\0a\0b\0l\0e\0c\0o\0d\0e\0";
    static uint8_t output[200];
    const usn_entry table[FILES] = {
        { .id = usn_id_of(5), .parent = usn_id_of(2), .attributes = 0x10, .name_length = 8, .name_place = 0 },
        { .id = file->id, .parent = usn_id_of(5), .usn = file->usn, .name_length = 10, .name_place = 8 },
        { .id = usn_id_of(42), .parent = usn_id_of(5), .usn = 264, .name_length = 8, .name_place = 18 },
    };
    usn_enum_input wanted = { .start = 0, .low = 0, .high = INT64_MAX, .lowest = 2, .highest = 3 };
    for (;;) {
        uint8_t input[USN_ENUM_INPUT_SIZE];
        usn_put_enum_input(input, wanted);
        usn_answer answer = usn_enumerate_files(*volume, table, FILES, pool, POOL_SIZE, input, sizeof input, output, sizeof output);
        if (answer.status == USN_END_OF_FILE)
            break;
        expect("usn_enumerate_files", answer.status);

        usn_walk walk = usn_walk_reply(output, answer.count);
        expect("usn_walk_reply", walk.status);
        printf("files: %" PRIu64 ", next %" PRIu64 "\n", walk.count, walk.position);
        for (size_t at = 8; at < answer.count;) {
            usn_record record = usn_read_record(output, answer.count, at);
            expect("usn_read_record", record.status);
            printf("file %" PRIu64 ", Usn %" PRIu64 ", name of %" PRIu64 " bytes, first %c, path ", usn_get_number(record.file.bytes, 8),
                   record.usn, record.length, output[record.name]);
            print_path(table, pool, record.file);
            at = record.next;
        }
        wanted.start = walk.position;
    }
}

int main(void)
{
    static uint8_t ring[CAPACITY], older[USN_IMAGE_ROOM(CAPACITY)], image[USN_IMAGE_ROOM(CAPACITY)];
    usn_volume volume = { .usn = 1, .regions = 1, .reparse = 1, .points = 1, .journal = 1, .capacity = CAPACITY };
    usn_file file = { .id = usn_id_of(41), .usn = 176, .eof = 100, .valid = 60 };
    expect("usn_create", usn_create(&volume, ID));
    post_changes(&volume, ring);
    read_changes(&volume, ring);
    ask_file(&volume, file);
    link_file(&volume, ring, &file);
    list_files(&volume, &file);
    usn_answer saved = usn_save_journal(volume, ring, CAPACITY, USN_FORM_1, older, sizeof older);
    expect("usn_save_journal", saved.status);
    printf("saved in form 1, %" PRIu64 " bytes\n", saved.count);
    usn_answer moved = usn_move_image(older, saved.count, USN_FORM_1, image, sizeof image);
    expect("usn_move_image", moved.status);
    printf("moved to form 2, %" PRIu64 " bytes\n", moved.count);
    expect("usn_delete", usn_delete(&volume, ID));
    expect("usn_finish", usn_finish(&volume));
    printf("deleted, LastUsn %" PRIu64 "\n", volume.last);
    expect("usn_load_journal", usn_load_journal(&volume, ring, CAPACITY, image, moved.count, NEXT_ID));
    printf("loaded with id %" PRIu64 ", first %" PRIu64 ", LastUsn %" PRIu64 "\n", volume.id, volume.first, volume.last);
    return 0;
}
