/*
 * What the header has itself: its functions, byte for byte, which statuses are refusals, and its ids, states and limits, tried on the
 * library with the last number that is taken and the first that is not. Built as C and as C++.
 */
#include <stdio.h>
#include <string.h>

#include "lanhduxe.h"

static int failed = 0;

#define TRY(wanted) \
    do { \
        if (!(wanted)) { \
            fprintf(stderr, "header.c:%d: not so: %s\n", __LINE__, #wanted); \
            failed = 1; \
        } \
    } while (0)

static void try_functions(void)
{
    static const uint8_t expected[USN_READ_INPUT_SIZE + 1] = {
        0x01, 0x02, 0x03, 0x04, 0x05, 0x06, 0x07, 0x88, 0x09, 0x0A, 0x0B, 0x8C, 0x0D, 0x0E, 0x0F, 0x90,
        0, 0, 0, 0, 0, 0, 0, 0, 0, 0, 0, 0, 0, 0, 0, 0,
        0x11, 0x12, 0x13, 0x14, 0x15, 0x16, 0x17, 0x98, 0x19, 0x9A, 0x1B, 0x9C, 0, 0, 0, 0, 0xEE,
    };
    uint8_t bytes[USN_READ_INPUT_SIZE + 1];
    usn_read_input input = { 0x8807060504030201, 0x8C0B0A09, 0x900F0E0D, 0x9817161514131211, 0x9A19, 0x9C1B };
    memset(bytes, 0xEE, sizeof bytes);
    usn_put_read_input(bytes, input);
    TRY(memcmp(bytes, expected, sizeof bytes) == 0);
    TRY(usn_reply_position(bytes) == input.start);
    TRY(usn_get_number(bytes + 8, 4) == input.mask);
    TRY(usn_get_number(bytes + 40, 2) == input.lowest);
}

/* What version 2 can show, and the first id that it cannot: 2^64, as the file's and as the parent's. */
static void try_ids(void)
{
    static const uint8_t expected[16] = { 0x01, 0x02, 0x03, 0x04, 0x05, 0x06, 0x07, 0x88 };
    static uint8_t ring[USN_CAPACITY_MIN], output[USN_READ_ROOM], image[USN_IMAGE_ROOM(sizeof ring)];
    static const uint8_t name[2] = { 'a', 0 };
    usn_id narrow = usn_id_of(0x8807060504030201), wide = { { 0, 0, 0, 0, 0, 0, 0, 0, 1 } };
    usn_change changes[3] = { { narrow, narrow, 0, 1, 0, 0, 0 }, { wide, narrow, 0, 2, 0, 0, 0 }, { narrow, wide, 0, 4, 0, 0, 0 } };
    usn_volume volume = { 1, 0, 0, 0, 1, USN_STATE_IDLE, 0, 0, 0, sizeof ring };
    usn_file file = { wide, 0, 0, 0, 0, 0, { 0 }, 0 };
    uint8_t input[USN_READ_INPUT_SIZE];
    uint64_t usn = 0;
    TRY(memcmp(narrow.bytes, expected, sizeof expected) == 0);
    for (size_t i = 0; i < sizeof wide.bytes; i++) {
        usn_id id = usn_id_of(0);
        id.bytes[i] = 0x80;
        TRY(usn_id_is_wide(id) == (i >= 8));
    }

    TRY(usn_create(&volume, 7) == USN_SUCCESS);
    for (uint32_t i = 0; i < 3; i++) {
        usn_read_input two = { 80 * i, changes[i].reason, 0, 7, 2, 2 }, three = { 80 * i, changes[i].reason, 0, 7, 3, 3 };
        usn_record record;
        TRY(usn_post(&volume, ring, sizeof ring, changes[i], name, sizeof name, &usn) == USN_SUCCESS);
        usn_put_read_input(input, two);
        TRY(usn_read_journal(volume, ring, sizeof ring, input, sizeof input, output, sizeof output).status
            == (i == 0 ? USN_SUCCESS : USN_NOT_SUPPORTED));
        usn_put_read_input(input, three);
        TRY(usn_read_journal(volume, ring, sizeof ring, input, sizeof input, output, sizeof output).count == 88);
        record = usn_read_record(output, 88, 8);
        TRY(record.status == USN_SUCCESS && record.version == 3);
        TRY(memcmp(&record.file, &changes[i].file, sizeof record.file) == 0);
        TRY(memcmp(&record.parent, &changes[i].parent, sizeof record.parent) == 0);
        TRY(usn_save_journal(volume, ring, sizeof ring, USN_FORM_1, image, sizeof image).status == (i == 0 ? USN_SUCCESS : USN_NOT_SUPPORTED));
        TRY(usn_save_journal(volume, ring, sizeof ring, USN_FORM_2, image, sizeof image).status == USN_SUCCESS);
    }
    TRY(usn_read_file(volume, file, narrow, NULL, 0, NULL, 0, NULL, 0, output, 64).status == USN_NOT_SUPPORTED);
    file.id = narrow;
    TRY(usn_read_file(volume, file, wide, NULL, 0, NULL, 0, NULL, 0, output, 64).status == USN_NOT_SUPPORTED);
    TRY(usn_read_file(volume, file, wide, NULL, 0, NULL, 0, NULL, 0, output, 63).status == USN_BUFFER_TOO_SMALL);
    TRY(usn_read_file(volume, file, narrow, NULL, 0, NULL, 0, NULL, 0, output, 64).status == USN_SUCCESS);
    TRY(memcmp(output + 8, expected, 8) == 0 && memcmp(output + 16, expected, 8) == 0);
}

static usn_volume volume_of(uint64_t capacity, uint64_t last)
{
    usn_volume volume = { 0, 0, 0, 0, 1, USN_STATE_IDLE, 0, 0, last, capacity };
    return volume;
}

static uint32_t created(uint64_t capacity, uint64_t last)
{
    usn_volume volume = volume_of(capacity, last);
    return usn_create(&volume, 7);
}

static void try_states_and_limits(void)
{
    static uint8_t ring[USN_CAPACITY_MIN], name[USN_NAME_MAX + 2], output[USN_READ_ROOM];
    static const uint8_t excluded[3][2] = { { 0, 0 }, { 0x2F, 0 }, { 0x5C, 0 } };
    usn_volume volume = volume_of(sizeof ring, 0);
    usn_change change = { usn_id_of(5), usn_id_of(2), 0, 1, 0, 0, 0 };
    usn_read_input wanted = { 0, 1, 0, 7, 3, 3 };
    uint8_t input[USN_READ_INPUT_SIZE];
    uint64_t usn = 0;
    memset(name, 'a', sizeof name);

    TRY(created(USN_CAPACITY_MIN, 0) == USN_SUCCESS);
    TRY(created(USN_CAPACITY_MIN - 8, 0) == USN_FILE_CORRUPT_ERROR);
    TRY(created(USN_CAPACITY_MAX, 0) == USN_SUCCESS);
    TRY(created(USN_CAPACITY_MAX + 8, 0) == USN_FILE_CORRUPT_ERROR);
    TRY(created(USN_CAPACITY_MIN, USN_POSITION_LIMIT - 8) == USN_SUCCESS);
    TRY(created(USN_CAPACITY_MIN, USN_POSITION_LIMIT) == USN_FILE_CORRUPT_ERROR);

    TRY(usn_create(&volume, 7) == USN_SUCCESS && volume.state == USN_STATE_ACTIVE);
    TRY(usn_post(&volume, ring, sizeof ring, change, name, USN_NAME_MAX + 2, &usn) == USN_INVALID_PARAMETER);
    TRY(usn_post(&volume, ring, sizeof ring, change, name, USN_NAME_MAX, &usn) == USN_SUCCESS);
    for (int i = 0; i < 3; i++)
        TRY(usn_post(&volume, ring, sizeof ring, change, excluded[i], 2, &usn) == USN_INVALID_PARAMETER);
    usn_put_read_input(input, wanted);
    TRY(usn_read_journal(volume, ring, sizeof ring, input, sizeof input, output, USN_READ_ROOM - 1).status == USN_BUFFER_TOO_SMALL);
    TRY(usn_read_journal(volume, ring, sizeof ring, input, sizeof input, output, USN_READ_ROOM).status == USN_SUCCESS);
    TRY(usn_delete(&volume, 7) == USN_SUCCESS && volume.state == USN_STATE_DELETING);
    TRY(usn_finish(&volume) == USN_SUCCESS && volume.state == USN_STATE_IDLE);
}

static void try_images(void)
{
    static uint8_t ring[USN_CAPACITY_MAX], image[USN_IMAGE_ROOM(sizeof ring)], newer[sizeof image], name[USN_NAME_MAX];
    usn_volume volume = volume_of(sizeof ring, 0);
    usn_change change = { usn_id_of(5), usn_id_of(2), 0, 1, 0, 0, 0 };
    usn_answer saved;
    uint64_t usn = 0;
    memset(name, 'a', sizeof name);

    TRY(usn_create(&volume, 7) == USN_SUCCESS);
    TRY(usn_save_journal(volume, ring, sizeof ring, USN_FORM_2, image, USN_IMAGE_TRAILER - 1).status == USN_BUFFER_TOO_SMALL);
    TRY(usn_save_journal(volume, ring, sizeof ring, USN_FORM_2, image, USN_IMAGE_TRAILER).count == USN_IMAGE_TRAILER);
    /* the last of these drops the first record */
    for (int posts = 0; posts < 111; posts++)
        TRY(usn_post(&volume, ring, sizeof ring, change, name, sizeof name, &usn) == USN_SUCCESS);
    TRY(volume.first == 592);
    saved = usn_save_journal(volume, ring, sizeof ring, USN_FORM_2, newer, sizeof newer);
    TRY(saved.status == USN_SUCCESS && saved.count == 110 * 592 + USN_IMAGE_TRAILER);
    TRY(usn_save_journal(volume, ring, sizeof ring, 3, image, sizeof image).status == USN_UNKNOWN_REVISION);
    TRY(usn_move_image(newer, saved.count, USN_FORM_1, image, sizeof image).status == USN_UNKNOWN_REVISION);
    saved = usn_move_image(newer, saved.count, USN_FORM_2, image, sizeof image);
    TRY(saved.status == USN_SUCCESS && saved.count == 110 * 576 + USN_IMAGE_TRAILER);
    volume = volume_of(sizeof ring, 0);
    TRY(usn_load_journal(&volume, ring, sizeof ring, image, USN_IMAGE_TRAILER - 1, 8) == USN_FILE_CORRUPT_ERROR);
    TRY(usn_load_journal(&volume, ring, sizeof ring, image, USN_IMAGE_TRAILER, 8) == USN_UNKNOWN_REVISION);
    TRY(usn_load_journal(&volume, ring, sizeof ring, image, saved.count, 8) == USN_SUCCESS && volume.state == USN_STATE_ACTIVE);
}

static void try_statuses(void)
{
    static const struct { uint32_t status; int refusal; } statuses[] = {
        { USN_SUCCESS, 0 },
        { USN_BUFFER_OVERFLOW, 0 },
        { USN_INVALID_PARAMETER, 1 },
        { USN_INVALID_DEVICE_REQUEST, 1 },
        { USN_END_OF_FILE, 1 },
        { USN_BUFFER_TOO_SMALL, 1 },
        { USN_OBJECT_PATH_NOT_FOUND, 1 },
        { USN_UNKNOWN_REVISION, 1 },
        { USN_DISK_FULL, 1 },
        { USN_NOT_SUPPORTED, 1 },
        { USN_FILE_CORRUPT_ERROR, 1 },
        { USN_NAME_TOO_LONG, 1 },
        { USN_NOT_A_REPARSE_POINT, 1 },
        { USN_IO_REPARSE_TAG_INVALID, 1 },
        { USN_IO_REPARSE_TAG_MISMATCH, 1 },
        { USN_IO_REPARSE_DATA_INVALID, 1 },
        { USN_VOLUME_NOT_UPGRADED, 1 },
        { USN_REPARSE_ATTRIBUTE_CONFLICT, 1 },
        { USN_JOURNAL_DELETE_IN_PROGRESS, 1 },
        { USN_JOURNAL_NOT_ACTIVE, 1 },
        { USN_JOURNAL_ENTRY_DELETED, 1 },
    };
    for (size_t i = 0; i < sizeof statuses / sizeof *statuses; i++)
        TRY(usn_is_refusal(statuses[i].status) == statuses[i].refusal);
}

static void try_regions(void)
{
    uint8_t output[USN_REGIONS_ROOM];
    usn_volume volume = { 0, 1, 0, 0, 0, USN_STATE_IDLE, 0, 0, 0, 0 };
    usn_file file = { usn_id_of(0), 0, 100, 60, 0, 0, { 0 }, 0 };
    usn_answer whole = usn_query_file_regions(volume, file, NULL, 0, output, USN_REGIONS_ROOM);
    usn_answer part = usn_query_file_regions(volume, file, NULL, 0, output, USN_REGIONS_ROOM - 1);
    usn_answer none = usn_query_file_regions(volume, file, NULL, 0, output, 39);

    TRY(whole.status == USN_SUCCESS && whole.count == USN_REGIONS_ROOM);
    TRY(part.status == USN_BUFFER_OVERFLOW && part.count == 40);
    TRY(none.status == USN_BUFFER_TOO_SMALL && none.count == 0);
}

/* The shortest store and the longest point: a Microsoft tag with as much data as the store has room for. */
static void try_points(void)
{
    static uint8_t store[USN_STORE_MIN], input[USN_REPARSE_MAX + 1], output[USN_REPARSE_MAX];
    usn_volume volume = { 0, 0, 1, 1, 0, USN_STATE_IDLE, 0, 0, 0, 0 };
    usn_file file = { usn_id_of(5), 0, 0, 0, 0, 0, { 0 }, 0 };
    usn_change change = { usn_id_of(5), usn_id_of(2), 0, 0, 0, 0, 0 };
    memset(input, 'a', sizeof input);
    usn_put_number(input, 0xA000000C, 8);

    usn_put_number(input + 4, USN_STORE_MIN + 1, 2);
    TRY(usn_set_reparse_point(&volume, NULL, 0, &file, store, sizeof store, change, NULL, 0, input, USN_REPARSE_MAX + 1)
        == USN_IO_REPARSE_DATA_INVALID);
    usn_put_number(input + 4, USN_STORE_MIN, 2);
    TRY(usn_set_reparse_point(&volume, NULL, 0, &file, store, USN_STORE_MIN - 1, change, NULL, 0, input, USN_REPARSE_MAX)
        == USN_FILE_CORRUPT_ERROR);
    TRY(file.tag == 0 && store[0] == 0);
    TRY(usn_set_reparse_point(&volume, NULL, 0, &file, store, sizeof store, change, NULL, 0, input, USN_REPARSE_MAX) == USN_SUCCESS);
    TRY(file.tag == 0xA000000C && file.length == USN_STORE_MIN && file.usn == 0);

    TRY(usn_get_reparse_point(volume, file, store, USN_STORE_MIN - 1, output, sizeof output).status == USN_FILE_CORRUPT_ERROR);
    TRY(usn_get_reparse_point(volume, file, store, sizeof store, output, sizeof output).count == USN_REPARSE_MAX);
    TRY(memcmp(output, input, USN_REPARSE_MAX) == 0);

    usn_put_number(input + 4, 0, 2);
    TRY(usn_delete_reparse_point(&volume, NULL, 0, &file, store, USN_STORE_MIN - 1, change, NULL, 0, input, 8) == USN_FILE_CORRUPT_ERROR);
    TRY(usn_delete_reparse_point(&volume, NULL, 0, &file, store, sizeof store, change, NULL, 0, input, 8) == USN_SUCCESS);
    TRY(file.tag == 0 && file.length == 0);
    TRY(usn_get_reparse_point(volume, file, store, sizeof store, output, sizeof output).status == USN_NOT_A_REPARSE_POINT);
}

static void try_enum_input(void)
{
    static const uint8_t expected[USN_ENUM_INPUT_SIZE + 1] = {
        0x01, 0x02, 0x03, 0x04, 0x05, 0x06, 0x07, 0x88, 0x09, 0x0A, 0x0B, 0x0C, 0x0D, 0x0E, 0x0F, 0x10,
        0x1A, 0x12, 0x13, 0x14, 0x15, 0x16, 0x17, 0xF8, 0x19, 0x9A, 0x1B, 0x9C, 0, 0, 0, 0, 0xEE,
    };
    uint8_t bytes[USN_ENUM_INPUT_SIZE + 1];
    usn_enum_input input = { 0x8807060504030201, 0x100F0E0D0C0B0A09, 0xF81716151413121A, 0x9A19, 0x9C1B };
    memset(bytes, 0xEE, sizeof bytes);
    usn_put_enum_input(bytes, input);
    TRY(memcmp(bytes, expected, sizeof bytes) == 0);
}

/*
 * A table of rows, and the same as bytes; the room for any file; the last id and the last Usn that a file may have, and the first of each
 * that none may.
 */
static void try_files(void)
{
    static const usn_entry rows[3] = {
        { { { 9 } }, { { 5 } }, 80, 0x20, 4, USN_NAME_MAX },
        { { { 3 } }, { { 5 } }, USN_POSITION_LIMIT - 1, 0, 0, USN_NAME_MAX + 4 },
        { { { 7 } }, { { 5 } }, 0, 0, USN_NAME_MAX, 0 },
    };
    static uint8_t pool[USN_NAME_MAX + 4], output[2 * USN_READ_ROOM], again[sizeof output];
    usn_volume volume = { 0, 0, 0, 0, 1, USN_STATE_IDLE, 0, 0, 0, 0 };
    usn_enum_input all = { 0, 0, INT64_MAX, 2, 3 }, seven = { 4, 0, 0, 3, 3 }, none = { 10, 0, INT64_MAX, 2, 2 };
    uint8_t input[USN_ENUM_INPUT_SIZE], bytes[sizeof rows];
    usn_entry bad[3];
    usn_answer answer;
    usn_record record;
    memset(pool, 'a', sizeof pool);
    memset(output, 0xEE, sizeof output);
    memcpy(again, output, sizeof output);
    memcpy(bytes, rows, sizeof rows);

    usn_put_enum_input(input, all);
    answer = usn_enumerate_files(volume, rows, 3, pool, sizeof pool, input, sizeof input, output, sizeof output);
    TRY(answer.status == USN_SUCCESS && answer.count == 8 + 80 + 592 + 80);
    TRY(usn_reply_position(output) == 10);
    TRY(usn_walk_reply(output, answer.count).position == 10 && usn_walk_reply(output, answer.count).count == 3);
    record = usn_read_record(output, answer.count, 8);
    TRY(record.version == 3 && record.usn == USN_POSITION_LIMIT - 1 && record.attributes == 0x80 && record.length == 0);
    TRY(memcmp(&record.file, &rows[1].id, sizeof record.file) == 0 && memcmp(&record.parent, &rows[1].parent, sizeof record.parent) == 0);
    TRY(usn_enumerate_rows(volume, bytes, sizeof bytes, pool, sizeof pool, input, sizeof input, again, sizeof again).count == answer.count);
    TRY(memcmp(output, again, sizeof output) == 0);
    TRY(usn_enumerate_rows(volume, bytes, sizeof bytes - 1, pool, sizeof pool, input, sizeof input, again, sizeof again).status
        == USN_FILE_CORRUPT_ERROR);

    usn_put_enum_input(input, seven);
    TRY(usn_enumerate_files(volume, rows, 3, pool, sizeof pool, input, sizeof input, output, USN_READ_ROOM - 1).status == USN_BUFFER_TOO_SMALL);
    TRY(usn_enumerate_files(volume, rows, 3, pool, sizeof pool, input, sizeof input, output, USN_READ_ROOM).count == USN_READ_ROOM);
    TRY(usn_reply_position(output) == 8);
    usn_put_enum_input(input, none);
    TRY(usn_enumerate_files(volume, rows, 3, pool, sizeof pool, input, sizeof input, output, sizeof output).status == USN_END_OF_FILE);
    TRY(usn_enumerate_files(volume, NULL, 0, NULL, 0, input, sizeof input, output, sizeof output).status == USN_END_OF_FILE);

    memcpy(bad, rows, sizeof rows);
    bad[2].id = usn_id_of(UINT64_MAX - 1);
    usn_put_enum_input(input, all);
    TRY(usn_enumerate_files(volume, bad, 3, pool, sizeof pool, input, sizeof input, output, sizeof output).status == USN_SUCCESS);
    TRY(usn_reply_position(output) == UINT64_MAX);
    bad[2].id = usn_id_of(UINT64_MAX);
    TRY(usn_enumerate_files(volume, bad, 3, pool, sizeof pool, input, sizeof input, output, sizeof output).status == USN_FILE_CORRUPT_ERROR);
    bad[2].id = bad[0].id;
    TRY(usn_enumerate_files(volume, bad, 3, pool, sizeof pool, input, sizeof input, output, sizeof output).status == USN_FILE_CORRUPT_ERROR);
    bad[2].id.bytes[15] = 1;
    TRY(usn_enumerate_files(volume, bad, 3, pool, sizeof pool, input, sizeof input, output, sizeof output).count == 8 + 80 + 80);
    bad[1].usn = USN_POSITION_LIMIT;
    TRY(usn_enumerate_files(volume, bad, 3, pool, sizeof pool, input, sizeof input, output, sizeof output).status == USN_FILE_CORRUPT_ERROR);
    volume.journal = 0;
    TRY(usn_enumerate_files(volume, rows, 3, pool, sizeof pool, input, sizeof input, output, sizeof output).status == USN_INVALID_DEVICE_REQUEST);
}

/* Two files and one without a name between them, as structs and as bytes, byte for byte. */
static void try_path(void)
{
    static const usn_entry rows[3] = {
        { { { 9 } }, { { 3 } }, 80, 0x20, 2, 0 },
        { { { 3 } }, { { 7 } }, 0, 0, 0, 6 },
        { { { 7 } }, { { 5 } }, 0, 0, 4, 2 },
    };
    static const uint8_t pool[6] = { 'a', 0, 'b', 0, 'c', 0 }, expected[10] = { 'b', 0, 'c', 0, 0x5C, 0, 0x5C, 0, 'a', 0 };
    uint8_t output[sizeof expected + 1], bytes[sizeof rows];
    usn_id file = usn_id_of(9), root = usn_id_of(5), wide = root;
    usn_answer answer;
    memcpy(bytes, rows, sizeof rows);
    wide.bytes[15] = 1;
    TRY(memcmp(usn_table_bytes(rows), bytes, sizeof bytes) == 0);

    memset(output, 0xEE, sizeof output);
    answer = usn_file_path(rows, 3, pool, sizeof pool, file, root, output, sizeof output);
    TRY(answer.status == USN_SUCCESS && answer.count == sizeof expected);
    TRY(memcmp(output, expected, sizeof expected) == 0 && output[sizeof expected] == 0xEE);
    memset(output, 0xEE, sizeof output);
    answer = usn_row_path(bytes, sizeof bytes, pool, sizeof pool, file, root, output, sizeof expected);
    TRY(answer.status == USN_SUCCESS && answer.count == sizeof expected);
    TRY(memcmp(output, expected, sizeof expected) == 0 && output[sizeof expected] == 0xEE);
    TRY(usn_file_path(rows, 3, pool, sizeof pool, file, rows[1].id, output, 2).count == 2 && output[0] == 'a');

    memset(output, 0xEE, sizeof output);
    TRY(usn_file_path(rows, 3, pool, sizeof pool, file, root, output, sizeof expected - 1).status == USN_BUFFER_TOO_SMALL);
    TRY(usn_file_path(rows, 3, pool, sizeof pool, file, wide, output, sizeof output).status == USN_OBJECT_PATH_NOT_FOUND);
    TRY(usn_file_path(rows, 2, pool, sizeof pool, file, root, output, sizeof output).status == USN_OBJECT_PATH_NOT_FOUND);
    TRY(usn_file_path(rows, 3, pool, sizeof pool - 1, root, root, output, sizeof output).status == USN_FILE_CORRUPT_ERROR);
    TRY(usn_row_path(bytes, sizeof bytes - 1, pool, sizeof pool, root, root, output, sizeof output).status == USN_FILE_CORRUPT_ERROR);
    TRY(output[0] == 0xEE);
    TRY(usn_file_path(NULL, 0, NULL, 0, wide, wide, NULL, 0).status == USN_SUCCESS);
}

/* The longest path: as many steps as there may be, and names as long as they may be. */
static void try_longest_path(void)
{
    static usn_entry rows[USN_PATH_STEPS + 1];
    static uint8_t pool[USN_NAME_MAX], output[USN_PATH_ROOM];
    usn_id root = usn_id_of(0), last = usn_id_of(USN_PATH_STEPS), below = usn_id_of(USN_PATH_STEPS + 1);
    size_t count = sizeof rows / sizeof *rows;
    memset(pool, 'a', sizeof pool);
    for (size_t i = 0; i < count; i++) {
        rows[i].id = usn_id_of(i + 1);
        rows[i].parent = usn_id_of(i);
        rows[i].name_length = USN_NAME_MAX;
    }

    TRY(usn_file_path(rows, count, pool, sizeof pool, last, root, output, USN_PATH_ROOM - 1).status == USN_BUFFER_TOO_SMALL);
    TRY(usn_file_path(rows, count, pool, sizeof pool, last, root, output, USN_PATH_ROOM).count == USN_PATH_ROOM);
    for (size_t at = 0; at < USN_PATH_ROOM; at += USN_NAME_MAX + 2) {
        TRY(memcmp(output + at, pool, USN_NAME_MAX) == 0);
        TRY(at + USN_NAME_MAX == USN_PATH_ROOM || usn_get_number(output + at + USN_NAME_MAX, 2) == 0x5C);
    }
    TRY(usn_file_path(rows, count, pool, sizeof pool, below, root, output, USN_PATH_ROOM).status == USN_NAME_TOO_LONG);
    TRY(usn_file_path(rows, count, pool, sizeof pool, below, rows[0].id, output, USN_PATH_ROOM).count == USN_PATH_ROOM);
}

static void try_listing(void)
{
    static uint8_t reply[USN_LIST_MAX + 1], text[USN_LIST_ROOM(sizeof reply)];
    TRY(usn_list_reply(reply, USN_LIST_MAX, text, USN_LIST_ROOM(USN_LIST_MAX) - 1).status == USN_BUFFER_TOO_SMALL);
    TRY(usn_list_reply(reply, USN_LIST_MAX, text, USN_LIST_ROOM(USN_LIST_MAX)).count == 9 && memcmp(text, "bad at 8\n", 9) == 0);
    TRY(usn_list_reply(reply, sizeof reply, text, sizeof text).count == 13 && memcmp(text, "bad at 65536\n", 13) == 0);
}

int main(void)
{
    try_functions();
    try_ids();
    try_statuses();
    try_states_and_limits();
    try_images();
    try_regions();
    try_points();
    try_enum_input();
    try_files();
    try_path();
    try_longest_path();
    try_listing();
    return failed;
}
