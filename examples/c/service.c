/*
 * A server with a ring of 1,024 bytes that saves its journal by restart.c, and a service that follows it by follow.c: once in time, once
 * too late, when a file has been deleted meanwhile, once after the journal was deleted and created anew, once after a restart, once after one that found half an image, and once
 * after one that found an image with more bytes behind it. Last, starts that must leave the image where it is.
 */
#define _POSIX_C_SOURCE 200809L
#include <fcntl.h>
#include <inttypes.h>
#include <stdio.h>
#include <stdlib.h>
#include <string.h>
#include <unistd.h>

#include "follow.h"
#include "restart.h"

/* ---- The server ---- */

uint8_t ring[USN_CAPACITY_MIN];
usn_volume volume;

/* The files, by rising id, and their names. */
static usn_entry table[8];
static size_t files;
static uint8_t pool[70];

static int folder;
static follower service;

static void expect(uint32_t status)
{
    if (status != USN_SUCCESS) {
        fprintf(stderr, "status 0x%08" PRIX32 "\n", status);
        exit(1);
    }
}

static void want(int done, const char *what)
{
    if (!done) {
        perror(what);
        exit(1);
    }
}

/* The row of a file, which is new or the one with the highest id. */
static usn_entry *row_of(uint64_t file)
{
    if (files == 0 || usn_get_number(table[files - 1].id.bytes, 8) < file) {
        want(files < sizeof table / sizeof table[0], "a table with room");
        table[files++] = (usn_entry){ .id = usn_id_of(file), .parent = usn_id_of(5) };
    }
    return &table[files - 1];
}

/* Posts the deletion of the file with the lowest id, whose row goes. */
static void delete_first(void)
{
    usn_change change = { .file = table[0].id, .parent = table[0].parent, .reason = 0x80000200 };
    expect(usn_post(&volume, ring, sizeof ring, change, pool + table[0].name_place, table[0].name_length, &table[0].usn));
    want(save(folder), "save");
    memmove(table, table + 1, --files * sizeof table[0]);
    printf("deleted one\n");
}

/* The name stands in the pool. The row has its Usn from the post. */
static void post_name(uint64_t file, uint64_t place, uint32_t length)
{
    usn_entry *row = row_of(file);
    usn_change change = { .file = row->id, .parent = row->parent, .reason = 0x80000002 };
    row->name_place = place;
    row->name_length = length;
    expect(usn_post(&volume, ring, sizeof ring, change, pool + place, length, &row->usn));
    want(save(folder), "save");
}

static void post(uint64_t file, int times)
{
    for (int i = 0; i < times; i++)
        post_name(file, 0, 2);
    printf("posted %d\n", times);
}

/* The journal is deleted, and created anew. */
static void create_anew(void)
{
    expect(usn_delete(&volume, volume.id));
    expect(usn_finish(&volume));
    expect(usn_create(&volume, new_id()));
    want(save(folder), "save");
    printf("created anew\n");
}

/* A process begins: the record and the ring of the one before are gone. */
static void restart(void)
{
    volume = (usn_volume){ .journal = 1, .capacity = sizeof ring };
    memset(ring, 0, sizeof ring);
    want(start(folder), "start");
    printf("started with journal %" PRIu64 ", LastUsn %" PRIu64 "\n", volume.id, volume.last);
}

/* Posts just as much as the ring holds, so that its image is as long as an image of it may be. */
static void fill_ring(void)
{
    create_anew();
    post(46, 11);
    post_name(46, 2, sizeof pool - 2);
    want(volume.last - volume.first == sizeof ring, "a full ring");
}

/* Puts bytes into the file of the image. */
static void put_file(int flags, const uint8_t *bytes, size_t size)
{
    int file = openat(folder, "journal", O_WRONLY | flags);
    want(file >= 0 && write(file, bytes, size) == (ssize_t)size && close(file) == 0, "journal");
}

/* The image of a journal whose records span more than this ring. */
static void put_larger(void)
{
    static uint8_t larger[2 * USN_CAPACITY_MIN], image[USN_IMAGE_ROOM(sizeof larger)];
    usn_volume other = { .journal = 1, .last = 8, .capacity = sizeof larger };
    usn_change change = { .reason = 1 };
    uint64_t usn = 0;
    expect(usn_create(&other, new_id()));
    for (int i = 0; i < 15; i++)
        expect(usn_post(&other, larger, sizeof larger, change, (const uint8_t *)"a", 2, &usn));
    usn_answer saved = usn_save_journal(other, larger, sizeof larger, USN_FORM_2, image, sizeof image);
    expect(saved.status);
    put_file(O_TRUNC, image, saved.count);
}

/* A start with a record of this capacity gives no journal, and leaves the image for a right one. */
static void refuse_start(uint64_t capacity, const char *what)
{
    volume = (usn_volume){ .journal = 1, .capacity = capacity };
    want(!start(folder) && faccessat(folder, "journal", F_OK, 0) == 0, what);
    printf("%s: no journal, and the image is still there\n", what);
}

/* ---- What restart.c wants ---- */

uint64_t new_id(void)
{
    static uint64_t ids = 0; /* a server keeps it on the disk */
    return ++ids;
}

uint64_t highest_usn(void)
{
    uint64_t highest = 0;
    for (size_t i = 0; i < files; i++)
        if (highest < table[i].usn)
            highest = table[i].usn;
    return highest;
}

void tell_services(uint64_t id, uint64_t last)
{
    if (service.id == id && service.position <= last)
        service.id = volume.id;
}

/* ---- What follow.c wants ---- */

void keep(const follower *self)
{
    printf("  at %" PRIu64 " of journal %" PRIu64 "\n", self->position, self->id);
}

uint64_t journal_id(void)
{
    return volume.id;
}

/* The next so many replies are cut on their way. */
static int cuts;

static usn_answer carry(usn_answer answer)
{
    if (answer.status == USN_SUCCESS && cuts > 0) {
        answer.count = 7;
        cuts--;
        printf("  a reply is cut\n");
    }
    return answer;
}

usn_answer ask(const uint8_t *input, size_t input_size, uint8_t *reply, size_t reply_size)
{
    return carry(usn_read_journal(volume, ring, sizeof ring, input, input_size, reply, reply_size));
}

/* The files that the service knows, and whether each was met since its list began. */
static struct { uint64_t file; int met; } known[8];
static size_t knows;

/* The place of the record's file among them, where it is put if it is new. */
static size_t meet(const char *what, const usn_record *record, const uint8_t *name)
{
    uint64_t file = usn_get_number(record->file.bytes, 8);
    printf("  %s %" PRIu64 ", name %c, Usn %" PRIu64 "\n", what, file, name[0], record->usn);
    size_t i = 0;
    while (i < knows && known[i].file != file)
        i++;
    if (i == knows) {
        want(knows < sizeof known / sizeof known[0], "room for a file");
        known[knows++].file = file;
    }
    known[i].met = 1;
    return i;
}

void act_on(const usn_record *record, const uint8_t *name)
{
    size_t i = meet("file", record, name);
    if (record->reason & 0x00000200) /* it was deleted */
        known[i] = known[--knows];
}

/* Behind this many pages a file is posted. */
static int pages_to_post;

/* The server gives two files in a page. */
usn_answer ask_files(const uint8_t *input, size_t input_size, uint8_t *reply, size_t reply_size)
{
    want(reply_size >= 200, "room for a page");
    usn_answer answer = usn_enumerate_files(volume, table, files, pool, sizeof pool, input, input_size, reply, 200);
    if (answer.status == USN_SUCCESS && --pages_to_post == 0)
        post(45, 1);
    return carry(answer);
}

void list_begins(void)
{
    for (size_t i = 0; i < knows; i++)
        known[i].met = 0;
    printf("  lists the files\n");
}

void see_file(const usn_record *record, const uint8_t *name)
{
    meet("sees file", record, name);
}

void list_ends(void)
{
    size_t left = 0;
    for (size_t i = 0; i < knows; i++) {
        if (known[i].met)
            known[left++] = known[i];
        else
            printf("  file %" PRIu64 " is gone\n", known[i].file);
    }
    knows = left;
}

int main(void)
{
    memset(pool, 'a', sizeof pool); /* a name of one letter, and one of 34 */
    pool[1] = 0;
    char name[] = "/tmp/lanhduxe-XXXXXX";
    want(mkdtemp(name) != NULL, "mkdtemp");
    folder = open(name, O_RDONLY | O_DIRECTORY);
    want(folder >= 0, name);

    restart();
    expect(begin(&service));

    post(41, 2);
    cuts = 1;
    want(follow(&service) == DAMAGED, "a damaged reply"); /* the next turn asks again */
    expect(follow(&service));

    delete_first();
    post(42, 14); /* the ring keeps twelve of them */
    expect(follow(&service));

    create_anew();
    expect(follow(&service));

    post(43, 1);
    expect(follow(&service));

    post(44, 2);
    restart();
    expect(follow(&service));

    int file = openat(folder, "journal", O_WRONLY);
    want(file >= 0 && ftruncate(file, 100) == 0 && close(file) == 0, "journal");
    printf("cut the image\n");
    restart();
    pages_to_post = 1;
    expect(follow(&service));

    fill_ring();
    put_file(O_APPEND, ring, 7);
    printf("put bytes behind the image\n");
    restart();
    expect(follow(&service));

    refuse_start(2 * sizeof ring, "another capacity");
    put_larger();
    refuse_start(sizeof ring, "the image of a larger ring");

    want(unlinkat(folder, "journal.bad", 0) == 0 && unlinkat(folder, "journal", 0) == 0 && rmdir(name) == 0, name);
    return 0;
}
