/*
 * The C interface of the library: a volume's change journal and seven controls on it and on its files. docs/USING.md says how a
 * server works with it.
 *
 * Build the library with `rt lib` in crates/lanhduxe and link its out/liblanhduxe.a (x86-64 Linux). It calls no function but
 * memcpy and memset, allocates nothing and keeps nothing between calls.
 *
 * Memory. Every buffer is lent for the time of one call, as a pointer and a length; with a length of 0 the pointer may be NULL. The
 * pointers `volume`, `usn` and `file` must not be NULL. What a call may write (the ring of a call that posts or loads, the store of a set,
 * an output, *volume, *usn, *file) must not overlap anything else that is lent to it, and nobody else may use it meanwhile; nor may anyone
 * change what the call reads. A struct that is passed by value is only read.
 *
 * Answers. USN_BUFFER_OVERFLOW is a warning: the reply holds a part of what was asked for. Only usn_query_file_regions gives it. Any
 * other status but USN_SUCCESS is a refusal: it reports 0 bytes and has changed no buffer and no record. With USN_SUCCESS or the
 * warning the output holds `count` bytes of reply, and its bytes behind them are as they were. Each call gives the first status that
 * applies, in the order listed with it.
 *
 * The volume record. Only create, delete, finish, post, load, and setting or deleting a reparse point store anything in *volume, and of
 * it only the fields that are named with the call. Where such a call refuses or its post is skipped, it stores nothing there, not even
 * what it found. The same holds of *file where a call that may change it refuses.
 *
 * The ring. Post, read, save, load, set and delete of a reparse point are lent a ring of `capacity` bytes, in which the byte at position
 * p stands at p modulo the capacity. It is sound if the capacity is right and the lent length equal to it, and from `first` to `last`,
 * at most a capacity apart, there are whole and right records. What a ring holds does not matter to a load.
 *
 * Numbers. Replies and inputs are little-endian, laid out as [MS-FSCC] has them. A number of 64 bits is passed as its bit pattern;
 * where a layout has a signed one (i64), 2^63 and above is negative.
 *
 * Names. A name is code units of 16 bits, little-endian: at most USN_NAME_MAX bytes, an even number of them, and no code unit 0, 0x2F ('/')
 * or 0x5C ('\\'). That is asked wherever a name is judged: of a post, of every record in a ring, of every link, of every row of a table, of a
 * record that is read and of every record in an image. The name of a post, and of a record in a ring or an image, is not empty.
 *
 * Ids. A file's id, and its parent's, is a number of 128 bits, passed as its sixteen bytes. Any number is one. An id is wide if one of its
 * upper eight bytes is not 0. A record of version 3 has all sixteen bytes; one of version 2 has the lower eight, and cannot show a wide id.
 * An image of form 1 has records of version 2, and so no wide ids.
 *
 * Versions. A caller names the lowest and the highest version of a record that it can read. The reply has version 3 if the highest is
 * 3 or more, else version 2. Both are refused if the lowest is above the highest or above 3, or the highest below 2. Where ids may be
 * wide, a reader should ask for version 3: in version 2 it comes to the first record with a wide id that it selects, and no further.
 */
#ifndef LANHDUXE_H
#define LANHDUXE_H

#include <stddef.h>
#include <stdint.h>

#ifdef __cplusplus
extern "C" {
#endif

/*
 * The version of this interface. It changes with every change of a struct or a call, and of what a call accepts or answers: a program
 * that was compiled with another one must be compiled again, and its author should read what changed. Since version 2 the library is
 * called lanhduxe, and this header lays out numbers and inputs. Since version 3 a journal can be saved to an image and loaded again.
 * Since version 4 USN_BUFFER_OVERFLOW, which was a refusal, is a warning with 40 bytes of reply: a caller that drops what comes with a
 * status other than USN_SUCCESS must keep them. Since version 5 a name with a code unit 0, 0x2F or 0x5C is refused, in a ring or an image
 * from before too. Since version 6 an id has 128 bits and is a usn_id, in usn_change, usn_file, usn_record and usn_read_file; the upper
 * bytes of an id in a record of version 3, which had to be 0, may be any; and what version 2 cannot show is USN_NOT_SUPPORTED. Since
 * version 7 usn_save_journal is told the form of the image, usn_load_journal takes form 2 too, and usn_move_image moves an image from one
 * form to the other. Since version 8 usn_file has the length of the reparse data, usn_get_reparse_point is lent a store of USN_STORE_MIN
 * bytes or more of which that length is the data, and usn_set_reparse_point and usn_delete_reparse_point change a file's reparse point.
 * Since version 9 usn_enumerate_files gives the files of a table. Since version 10 usn_file_path gives a file's path.
 */
#define LANHDUXE_VERSION 10

/* ---- Statuses, by the numbers of [MS-ERREF] ---- */

#define USN_SUCCESS                    0x00000000u
#define USN_BUFFER_OVERFLOW            0x80000005u
#define USN_INVALID_PARAMETER          0xC000000Du
#define USN_INVALID_DEVICE_REQUEST     0xC0000010u
#define USN_END_OF_FILE                0xC0000011u
#define USN_BUFFER_TOO_SMALL           0xC0000023u
#define USN_OBJECT_PATH_NOT_FOUND      0xC000003Au
#define USN_UNKNOWN_REVISION           0xC0000058u
#define USN_DISK_FULL                  0xC000007Fu
#define USN_NOT_SUPPORTED              0xC00000BBu
#define USN_FILE_CORRUPT_ERROR         0xC0000102u
#define USN_NAME_TOO_LONG              0xC0000106u
#define USN_NOT_A_REPARSE_POINT        0xC0000275u
#define USN_IO_REPARSE_TAG_INVALID     0xC0000276u
#define USN_IO_REPARSE_TAG_MISMATCH    0xC0000277u
#define USN_IO_REPARSE_DATA_INVALID    0xC0000278u
#define USN_VOLUME_NOT_UPGRADED        0xC000029Cu
#define USN_REPARSE_ATTRIBUTE_CONFLICT 0xC00002B2u
#define USN_JOURNAL_DELETE_IN_PROGRESS 0xC00002B7u
#define USN_JOURNAL_NOT_ACTIVE         0xC00002B8u
#define USN_JOURNAL_ENTRY_DELETED      0xC00002CFu

/* Whether a call with this status was refused. The warning, USN_BUFFER_OVERFLOW, is no refusal. */
static inline int usn_is_refusal(uint32_t status)
{
    return status != USN_SUCCESS && status != USN_BUFFER_OVERFLOW;
}

/* ---- States of a journal ---- */

#define USN_STATE_IDLE     0u /* and so is any number but the next two */
#define USN_STATE_ACTIVE   1u
#define USN_STATE_DELETING 2u

/* ---- Limits ---- */

#define USN_NAME_MAX       510u                         /* bytes of a name */
#define USN_CAPACITY_MIN   1024u                        /* bytes of a ring, always a multiple of 8 */
#define USN_CAPACITY_MAX   65536u
#define USN_READ_ROOM      600u                         /* a read or an enumeration with so many bytes of output has room for any record */
#define USN_REGIONS_ROOM   64u                          /* a region query with so many bytes of output has room for every region */
#define USN_POSITION_LIMIT UINT64_C(0x8000000000000000) /* 2^63, the first number that is no position and no Usn */
#define USN_LIST_MAX       65536u                       /* bytes of a reply that usn_list_reply lists */
#define USN_IMAGE_TRAILER  32u                          /* bytes of an image behind its records */
#define USN_STORE_MIN      16376u                       /* bytes of a file's store, at least: room for any reparse data */
#define USN_REPARSE_MAX    16384u                       /* bytes of a reparse point's header and data */
#define USN_PATH_STEPS     64u                          /* steps from a file up to the root of its path, at most */
#define USN_PATH_ROOM      32766u                       /* an output of so many bytes has room for any path */

/* The reason of the record that a set or a delete of a reparse point posts, by the number of [MS-FSCC]. */
#define USN_REASON_REPARSE_POINT_CHANGE 0x00100000u

/* ---- Records ---- */

/* What a volume supports, and its journal. A flag is 0 for no and any other number for yes. */
typedef struct usn_volume {
    uint32_t usn;      /* usn_read_file */
    uint32_t regions;  /* usn_query_file_regions */
    uint32_t reparse;  /* usn_get_reparse_point, usn_set_reparse_point, usn_delete_reparse_point */
    uint32_t points;   /* reparse points at all */
    uint32_t journal;  /* usn_post, usn_read_journal, usn_save_journal, usn_load_journal, usn_enumerate_files */
    uint32_t state;    /* one of USN_STATE_ */
    uint64_t id;       /* the journal's id, or the last one used */
    uint64_t first;    /* where the oldest kept record begins, a multiple of 8 */
    uint64_t last;     /* where the newest record ends, LastUsn, a multiple of 8 */
    uint64_t capacity; /* the ring's length */
} usn_volume;

/* A file's id, of 128 bits; usn_id_of makes one of a number, and usn_id_is_wide asks whether version 2 cannot show it. */
typedef struct usn_id {
    uint8_t bytes[16]; /* lowest byte first */
} usn_id;

/* What a post says of a change, but for the name. */
typedef struct usn_change {
    usn_id file;
    usn_id parent;
    uint64_t time;
    uint32_t reason;
    uint32_t source;
    uint32_t security;
    uint32_t attributes; /* 0 is kept as 0x80 */
} usn_change;

/* A file's record. */
typedef struct usn_file {
    usn_id id;
    uint64_t usn;        /* the Usn of its last change, below 2^63 */
    uint64_t eof;        /* its length, below 2^63 */
    uint64_t valid;      /* valid data length, at most eof */
    uint32_t attributes; /* 0 is written as 0x80 */
    uint32_t tag;        /* the reparse tag, 0 for none; bit 31 says Microsoft's */
    uint8_t guid[16];    /* goes with a tag that is not Microsoft's */
    uint64_t length;     /* of the reparse data: with a Microsoft tag at most 16,376, with another 16,360, with none 0 */
} usn_file;

/* One link of a file. */
typedef struct usn_link {
    uint32_t place;        /* where its name begins in the name pool */
    uint32_t length;       /* the name's length in bytes: even, 0 to USN_NAME_MAX, inside the pool; its code units as above (Names) */
    uint32_t short_length; /* its short name's length; only 0 or not matters */
} usn_link;

/* One file of a table: 56 bytes, a row. */
typedef struct usn_entry {
    usn_id id;            /* no other row's, and not 2^64 - 1 */
    usn_id parent;
    uint64_t usn;         /* the Usn of its last change, below 2^63 */
    uint32_t attributes;  /* 0 is written as 0x80 */
    uint32_t name_length; /* the name's length in bytes: even, 0 to USN_NAME_MAX, inside the pool; its code units as above (Names) */
    uint64_t name_place;  /* where its name begins in the name pool */
} usn_entry;

/* ---- Answers ---- */

/* The answer of a control. */
typedef struct usn_answer {
    uint32_t status;
    uint64_t count; /* the bytes written at the start of the output */
} usn_answer;

/* A record in a reply. With a status other than USN_SUCCESS all other fields are 0. */
typedef struct usn_record {
    uint32_t status;
    uint32_t version; /* 2 or 3 */
    usn_id file;      /* in version 2 neither id is wide */
    usn_id parent;
    uint64_t usn;
    uint64_t time;
    uint32_t reason;
    uint32_t source;
    uint32_t security;
    uint32_t attributes;
    uint64_t name;   /* the place of the name's first byte */
    uint64_t length; /* the name's length in bytes */
    uint64_t next;   /* the place behind the record */
} usn_record;

/* The walk over a reply. */
typedef struct usn_walk {
    uint32_t status;
    uint64_t position; /* the reply's position */
    uint64_t count;    /* the number of its records */
    uint64_t bad;      /* where refused: the place of the first bad record, 0 below 8 bytes */
} usn_walk;

/* ---- Numbers in inputs and replies ---- */

/* Writes the lowest `width` bytes of a number, at most 8. */
static inline void usn_put_number(uint8_t *bytes, uint64_t number, size_t width)
{
    for (size_t i = 0; i < width; i++)
        bytes[i] = (number >> (8 * i)) & 0xFF;
}

/* Reads a number of `width` bytes, at most 8. */
static inline uint64_t usn_get_number(const uint8_t *bytes, size_t width)
{
    uint64_t number = 0;
    while (width > 0)
        number = (number << 8) | bytes[--width];
    return number;
}

/* The id with this number, which is not wide. */
static inline usn_id usn_id_of(uint64_t number)
{
    usn_id id = { { 0 } };
    usn_put_number(id.bytes, number, 8);
    return id;
}

/* Whether an id is wide: 1 or 0. */
static inline int usn_id_is_wide(usn_id id)
{
    return usn_get_number(id.bytes + 8, 8) != 0;
}

/* ---- The journal ---- */

/*
 * Creates a journal with a new id, empty at the kept `last`. Stores state, id and first.
 * JOURNAL_DELETE_IN_PROGRESS while deleting; INVALID_PARAMETER if active, or if the id is 0 or the last one used;
 * FILE_CORRUPT_ERROR for a wrong capacity or LastUsn.
 */
uint32_t usn_create(usn_volume *volume, uint64_t id);

/*
 * Begins to delete the journal. Stores the state.
 * JOURNAL_DELETE_IN_PROGRESS while deleting; JOURNAL_NOT_ACTIVE if idle; INVALID_PARAMETER for a wrong id.
 */
uint32_t usn_delete(usn_volume *volume, uint64_t id);

/*
 * Ends a deletion. Stores the state.
 * JOURNAL_NOT_ACTIVE if idle; INVALID_PARAMETER if active.
 */
uint32_t usn_finish(usn_volume *volume);

/*
 * Posts a change to the file of this name. The oldest records are dropped, as few as needed, and the new record's bytes are written to
 * the ring and no others. Stores first and last, and in *usn, the file's Usn, the record's Usn, which is the new LastUsn.
 * Skipped, USN_SUCCESS with nothing changed: no support for the journal, no active journal, or reason 0.
 * FILE_CORRUPT_ERROR for a ring that is not sound; INVALID_PARAMETER for a name that is odd, empty, above USN_NAME_MAX bytes or
 * with a code unit 0, 0x2F or 0x5C; DISK_FULL if LastUsn would reach USN_POSITION_LIMIT.
 */
uint32_t usn_post(usn_volume *volume, uint8_t *ring, size_t ring_size, usn_change change,
                  const uint8_t *name, size_t name_size, uint64_t *usn);

/* What a read of the journal asks for: records with a bit of the mask, from a position on. */
typedef struct usn_read_input {
    uint64_t start;         /* a position, the last reply's; 0 for the oldest kept record */
    uint32_t mask;          /* the reasons to select */
    uint32_t only_on_close; /* if not 0, select only records whose reason has bit 31 */
    uint64_t id;            /* the journal's id */
    uint16_t lowest;        /* the versions */
    uint16_t highest;
} usn_read_input;

#define USN_READ_INPUT_SIZE 48

/* Lays out the input of usn_read_journal. */
static inline void usn_put_read_input(uint8_t bytes[USN_READ_INPUT_SIZE], usn_read_input input)
{
    usn_put_number(bytes, input.start, 8);
    usn_put_number(bytes + 8, input.mask, 4);
    usn_put_number(bytes + 12, input.only_on_close, 4);
    usn_put_number(bytes + 16, 0, 8);
    usn_put_number(bytes + 24, 0, 8);
    usn_put_number(bytes + 32, input.id, 8);
    usn_put_number(bytes + 40, input.lowest, 2);
    usn_put_number(bytes + 42, input.highest, 2);
    usn_put_number(bytes + 44, 0, 4);
}

/*
 * Reads the journal: a position of 8 bytes, then the selected records, up to the first that does not fit (FSCTL_READ_USN_JOURNAL). In
 * version 2 a reply ends before a selected record with a wide file or parent id too, as if it did not fit. A reader returns with each
 * reply's position as its next StartUsn.
 * Input: StartUsn i64, ReasonMask u32, ReturnOnlyOnClose u32, Timeout u64 and BytesToWaitFor u64 (both ignored), id u64; from 48 bytes
 * on also the lowest and highest version, u16 each, else the version is 2. StartUsn 0 means the oldest kept record. It is signed: -8
 * lies before every position and is JOURNAL_ENTRY_DELETED.
 * INVALID_DEVICE_REQUEST without support; JOURNAL_DELETE_IN_PROGRESS; JOURNAL_NOT_ACTIVE; INVALID_PARAMETER below 40 bytes of
 * input; BUFFER_TOO_SMALL below 8 bytes of output; INVALID_PARAMETER for the versions, then for the id; FILE_CORRUPT_ERROR for a
 * ring that is not sound; JOURNAL_ENTRY_DELETED for a start before the first position; INVALID_PARAMETER for one past LastUsn or
 * off a record's boundary; NOT_SUPPORTED in version 2 if the first selected record has a wide file or parent id, whatever its room;
 * BUFFER_TOO_SMALL if it has no room. After NOT_SUPPORTED a read in version 3 from the same start on shows the record.
 */
usn_answer usn_read_journal(usn_volume volume, const uint8_t *ring, size_t ring_size,
                            const uint8_t *input, size_t input_size, uint8_t *output, size_t output_size);

/* The position of a reply of usn_read_journal, or the id to go on from of one of usn_enumerate_files; the reply has 8 bytes at least. */
static inline uint64_t usn_reply_position(const uint8_t *reply)
{
    return usn_get_number(reply, 8);
}

/* ---- The journal's image ---- */

/*
 * An image holds a journal's kept records and its id, so that a server that keeps it in a file has its journal again after a restart. The
 * records stand back to back, oldest first: in form 1 in version 2, which has no room for wide ids, in form 2 in version 3, as the ring
 * keeps them. Behind them is the trailer, little-endian, of USN_IMAGE_TRAILER bytes:
 *      0  u32  0, where a record would have its length
 *      4  u32  the bytes before the trailer
 *      8  u64  first, where the oldest record begins
 *     16  u64  the journal's id
 *     24  u32  the sum of all other 32-bit words of the image, modulo 2^32
 *     28  u32  the form's number, USN_FORM_1 or USN_FORM_2
 * An empty journal's image is the trailer alone. An image that was cut at any byte is refused, and so is one with a 32-bit word changed.
 */

#define USN_FORM_1 1
#define USN_FORM_2 2

/* Room enough for any image, of either form, of a ring of so many bytes. */
#define USN_IMAGE_ROOM(capacity) ((capacity) + USN_IMAGE_TRAILER)

/*
 * Saves the journal: writes its image in this form, of `count` bytes. What is posted later is not in it.
 * INVALID_DEVICE_REQUEST without support; UNKNOWN_REVISION for another form than 1 and 2; JOURNAL_DELETE_IN_PROGRESS; JOURNAL_NOT_ACTIVE;
 * FILE_CORRUPT_ERROR for a ring that is not sound; NOT_SUPPORTED in form 1 while a record with a wide file or parent id is kept;
 * BUFFER_TOO_SMALL for an output shorter than the image.
 */
usn_answer usn_save_journal(usn_volume volume, const uint8_t *ring, size_t ring_size, uint32_t form, uint8_t *output, size_t output_size);

/*
 * Loads an image of either form as a journal with a new id: leaves what its creation at the image's first position and posts of the image's records
 * would. The records' bytes are written to the ring and no others. Stores state, id, first and last; the `last` that was there does not
 * matter.
 * A reader of the saved journal may go on under the new id from a position up to the loaded `last`. One that stands past it has read what
 * was posted after the save, and must begin anew: these positions are given out again, to other records.
 * INVALID_DEVICE_REQUEST without support; JOURNAL_DELETE_IN_PROGRESS; INVALID_PARAMETER if active; UNKNOWN_REVISION for
 * USN_IMAGE_TRAILER bytes or more whose last four are neither the number 1 nor 2; FILE_CORRUPT_ERROR for what is no image, a wrong capacity, or a
 * ring of another length; INVALID_PARAMETER for an id that is 0, the image's or the last one used; DISK_FULL if the records span more
 * than the capacity.
 */
uint32_t usn_load_journal(usn_volume *volume, uint8_t *ring, size_t ring_size, const uint8_t *image, size_t image_size, uint64_t id);

/*
 * Moves an image from this form to the other, without a journal: from 1 writes form 2, from 2 writes form 1. The same records with the same
 * Usns, first position and id; length, sum and form anew. Moving it back writes the first bytes again.
 * UNKNOWN_REVISION if `from` is neither 1 nor 2, or not the form in the last four bytes of USN_IMAGE_TRAILER bytes or more;
 * FILE_CORRUPT_ERROR for what is no image; NOT_SUPPORTED from form 2 with a wide file or parent id in any record; BUFFER_TOO_SMALL for an
 * output shorter than the new image, for which USN_IMAGE_ROOM(USN_CAPACITY_MAX) is always enough.
 */
usn_answer usn_move_image(const uint8_t *image, size_t image_size, uint32_t from, uint8_t *output, size_t output_size);

/* ---- Controls on one file ---- */

/*
 * Gives a USN record of the file as it is now (FSCTL_READ_FILE_USN_DATA). `parent` is that of the open's own link; the name is that
 * of the first link with a short name; with no such link, of the first whose name is not empty; else an empty one. Time, reason, source and
 * security of the record are 0: it says what the file is, not what happened to it.
 * Input: the lowest and highest version, u16 each; below 4 bytes the version is 2.
 * INVALID_DEVICE_REQUEST without support; FILE_CORRUPT_ERROR for a negative Usn or a bad link; INVALID_PARAMETER for the versions;
 * BUFFER_TOO_SMALL below 64 bytes of output (version 3: 80); NOT_SUPPORTED in version 2 if the file's id or `parent` is wide;
 * BUFFER_TOO_SMALL below the record's length.
 */
usn_answer usn_read_file(usn_volume volume, usn_file file, usn_id parent, const uint8_t *pool, size_t pool_size,
                         const usn_link *links, size_t link_count, const uint8_t *input, size_t input_size,
                         uint8_t *output, size_t output_size);

/*
 * Gives the file's regions (FSCTL_QUERY_FILE_REGIONS): that of valid data, and the rest of the file.
 * Input: FileOffset i64 and Length i64, both signed, DesiredUsage u32, 4 bytes that are ignored; or nothing, for the offset 0, the length
 * 2^63 - 1 and usage 1. A FileOffset past the end of the file, or at the end of one that is not empty, gives USN_SUCCESS with 0 bytes.
 * Reply: Flags 0, the number of regions, the number of those given, 0, u32 each; then for each one given its offset u64, length u64,
 * usage u32 and 0 u32.
 * INVALID_DEVICE_REQUEST without support; FILE_CORRUPT_ERROR for a wrong eof or valid; BUFFER_TOO_SMALL for 1 to 23 bytes of input;
 * INVALID_PARAMETER for a Length that is not above 0, a negative FileOffset, an end past 2^63 - 1, or a usage without flag 1;
 * BUFFER_TOO_SMALL below 40 bytes of output.
 * Where none of these applies, two regions are due, and the output is below USN_REGIONS_ROOM: BUFFER_OVERFLOW, the warning, with 40 bytes
 * of reply, which have the numbers 2 and 1 and the first region. A query from the end of that region on, with the Length less that
 * region's, gives the second, with USN_SUCCESS.
 */
usn_answer usn_query_file_regions(usn_volume volume, usn_file file, const uint8_t *input, size_t input_size,
                                  uint8_t *output, size_t output_size);

/*
 * A file's reparse point is its tag, and with it the GUID, where the tag is not Microsoft's, and data. The data is the first `length` bytes
 * of the file's store, a buffer of USN_STORE_MIN bytes or more that the server keeps for it, with a reparse point or without. A store that
 * is shorter, or a length that does not go with the tag, is a bad file record: FILE_CORRUPT_ERROR. What a control replies or is given is
 * laid out as [MS-FSCC] has it: tag u32, length of the data u16, 0 u16; the GUID of 16 bytes, if the tag is not Microsoft's; the data. So
 * the header has 8 bytes, or 24, and 24 with tag 0.
 */

/*
 * Gives the file's reparse tag, the GUID if the tag is not Microsoft's, and as much of the data as fits (FSCTL_GET_REPARSE_POINT).
 * INVALID_DEVICE_REQUEST without support; VOLUME_NOT_UPGRADED without reparse points; FILE_CORRUPT_ERROR for a bad file record;
 * NOT_A_REPARSE_POINT for tag 0; BUFFER_TOO_SMALL for an output shorter than the header.
 */
usn_answer usn_get_reparse_point(usn_volume volume, usn_file file, const uint8_t *store, size_t store_size,
                                 uint8_t *output, size_t output_size);

/*
 * Sets the file's reparse point to the one that the input has (FSCTL_SET_REPARSE_POINT), and posts the change. Where a point stands, it must
 * have the same tag, and the same GUID, where the tag is not Microsoft's. Stores tag, guid (zeroes with a Microsoft tag), length and usn of
 * the file, and the data at the start of the store, where no other byte is written. usn_get_reparse_point then replies the input's bytes, as
 * many as fit, with room for the header.
 * `change` and `name` are those of the post, as with usn_post, but for the reason, which is USN_REASON_REPARSE_POINT_CHANGE whatever is
 * given. An accepted post writes to the ring, stores first and last of the volume, and gives the file its new usn. Where the post is
 * skipped, for no support of the journal or no active journal, the call succeeds all the same, the usn is the one that the file had, and
 * neither ring nor name is looked at. Where the post is refused, so is the call, and nothing is changed.
 * INVALID_DEVICE_REQUEST without support; VOLUME_NOT_UPGRADED without reparse points; FILE_CORRUPT_ERROR for a bad file record;
 * IO_REPARSE_DATA_INVALID for an input that is shorter than its header, not as long as header and data together, above USN_REPARSE_MAX bytes,
 * or with anything but 0 behind the length; IO_REPARSE_TAG_INVALID for tag 0; IO_REPARSE_TAG_MISMATCH where another tag stands;
 * REPARSE_ATTRIBUTE_CONFLICT where the same tag, not Microsoft's, stands with another GUID; then what usn_post refuses:
 * FILE_CORRUPT_ERROR for a ring that is not sound, INVALID_PARAMETER for the name, DISK_FULL.
 */
uint32_t usn_set_reparse_point(usn_volume *volume, uint8_t *ring, size_t ring_size, usn_file *file, uint8_t *store, size_t store_size,
                               usn_change change, const uint8_t *name, size_t name_size, const uint8_t *input, size_t input_size);

/*
 * Deletes the file's reparse point (FSCTL_DELETE_REPARSE_POINT), and posts the change as usn_set_reparse_point does. The input is the header
 * of the point that stands, with the length 0. Stores zeroes as tag, guid and length of the file, and its usn; the store stays as it is.
 * INVALID_DEVICE_REQUEST without support; VOLUME_NOT_UPGRADED without reparse points; FILE_CORRUPT_ERROR for a bad file record;
 * IO_REPARSE_DATA_INVALID for an input as usn_set_reparse_point refuses it, or with a length other than 0; IO_REPARSE_TAG_INVALID for tag 0;
 * NOT_A_REPARSE_POINT for a file without one; IO_REPARSE_TAG_MISMATCH where another tag stands; REPARSE_ATTRIBUTE_CONFLICT where the same
 * tag, not Microsoft's, stands with another GUID; then what usn_post refuses, as above.
 */
uint32_t usn_delete_reparse_point(usn_volume *volume, uint8_t *ring, size_t ring_size, usn_file *file, const uint8_t *store, size_t store_size,
                                  usn_change change, const uint8_t *name, size_t name_size, const uint8_t *input, size_t input_size);

/* ---- The volume's files ---- */

/*
 * The bytes of a table: rows of 56, each laid out as a usn_entry is, little-endian. A table lent as bytes that is no whole number of rows is
 * FILE_CORRUPT_ERROR.
 */
static inline const uint8_t *usn_table_bytes(const usn_entry *table)
{
#ifdef __cplusplus
    return reinterpret_cast<const uint8_t *>(table);
#else
    return (const uint8_t *)table;
#endif
}

/* What an enumeration asks for: files from an id on, with a Usn from low to high. */
typedef struct usn_enum_input {
    uint64_t start;   /* an id, the last reply's; 0 for all */
    uint64_t low;     /* the lowest Usn, 0 for all; 2^63 and above is negative, and selects what 0 does */
    uint64_t high;    /* the highest Usn, INT64_MAX for all; 2^63 and above is negative, and selects nothing */
    uint16_t lowest;  /* the versions */
    uint16_t highest;
} usn_enum_input;

#define USN_ENUM_INPUT_SIZE 32

/* Lays out the input of usn_enumerate_files. */
static inline void usn_put_enum_input(uint8_t bytes[USN_ENUM_INPUT_SIZE], usn_enum_input input)
{
    usn_put_number(bytes, input.start, 8);
    usn_put_number(bytes + 8, input.low, 8);
    usn_put_number(bytes + 16, input.high, 8);
    usn_put_number(bytes + 24, input.lowest, 2);
    usn_put_number(bytes + 26, input.highest, 2);
    usn_put_number(bytes + 28, 0, 4);
}

/* usn_enumerate_files with its table as bytes. */
usn_answer usn_enumerate_rows(usn_volume volume, const uint8_t *table, size_t table_size, const uint8_t *pool, size_t pool_size,
                              const uint8_t *input, size_t input_size, uint8_t *output, size_t output_size);

/*
 * Gives USN records of the files of a table as they are now, by rising id (FSCTL_ENUM_USN_DATA): an id of 8 bytes, then the records of
 * the selected files, each as usn_read_file gives one, time and reason 0, with the name of its row, up to the first that does not fit.
 * Selected is a file with an id that is the start or above and a Usn from LowUsn to HighUsn, both ends in, where neither its id nor its
 * parent's is wide. The id in front is that of the first selected file that did not fit, or else that of the last one given plus 1. A
 * caller returns with it as its next start, and with USN_READ_ROOM bytes of output or more, over a table that does not change, comes to
 * every selected file once, in order, and then to END_OF_FILE. The journal's state does not matter, and no Usn is compared with the
 * journal's.
 * The rows may stand in any order. Each call judges the whole table: one by rising id is judged and read in a few passes over its rows and
 * names; any other takes time that grows with the square of its rows. Ids rise as numbers, byte 15 the highest, not as memcmp orders them.
 * Input: the start id u64, LowUsn i64 and HighUsn i64, both signed; from 32 bytes on also the lowest and highest version, u16 each, and 4
 * bytes that are ignored, else the version is 2.
 * INVALID_DEVICE_REQUEST without support; FILE_CORRUPT_ERROR for a bad row, be it selected or not: a bad name, a negative Usn, the id
 * 2^64 - 1, or an id that stands twice, all sixteen bytes compared; INVALID_PARAMETER below 24 bytes of input, then for the versions;
 * BUFFER_TOO_SMALL below 8 bytes of output; END_OF_FILE where nothing is selected; BUFFER_TOO_SMALL if the first selected file's record
 * has no room.
 */
static inline usn_answer usn_enumerate_files(usn_volume volume, const usn_entry *table, size_t count, const uint8_t *pool, size_t pool_size,
                                             const uint8_t *input, size_t input_size, uint8_t *output, size_t output_size)
{
    return usn_enumerate_rows(volume, usn_table_bytes(table), count * sizeof *table, pool, pool_size, input, input_size, output, output_size);
}

/* usn_file_path with its table as bytes. */
usn_answer usn_row_path(const uint8_t *table, size_t table_size, const uint8_t *pool, size_t pool_size, usn_id id, usn_id root,
                        uint8_t *output, size_t output_size);

/*
 * Gives the path, below `root`, of the file `id`: the names of the files on the way from the root down to it, the one nearest the root first
 * and its own last, with a code unit 0x5C ('\\') between two of them. The way goes from each file to its parent, USN_PATH_STEPS steps at
 * most. The root has no name in it: the path of the root itself is empty, and the root need not be in the table. Ids are compared in all
 * sixteen bytes. The count is of bytes, and no NUL ends the path. An empty name takes no bytes but keeps its separators: a path with one may
 * begin or end with a separator or have two together, and a file with an empty name right below the root has an empty path.
 * The rows may stand in any order. Each call judges the whole table. In one by rising id a parent is found by halving; in any other by a
 * pass over the rows, and such a table is judged in time that grows with the square of its rows.
 * FILE_CORRUPT_ERROR for a bad row, as usn_enumerate_files has it, be it on the way or not, and where `id` is the root too;
 * OBJECT_PATH_NOT_FOUND where `id`, or a parent that is reached with a step left, is neither the root nor in the table; NAME_TOO_LONG where
 * USN_PATH_STEPS steps do not reach the root, as in a loop of parents without it, however short the names are; BUFFER_TOO_SMALL if the path has no
 * room: USN_PATH_ROOM bytes have room for any.
 */
static inline usn_answer usn_file_path(const usn_entry *table, size_t count, const uint8_t *pool, size_t pool_size, usn_id id, usn_id root,
                                       uint8_t *output, size_t output_size)
{
    return usn_row_path(usn_table_bytes(table), count * sizeof *table, pool, pool_size, id, root, output, output_size);
}

/* ---- Reading a reply ---- */

/* Reads the record at place `at`, with any ids. INVALID_PARAMETER where no whole and right record stands there. */
usn_record usn_read_record(const uint8_t *bytes, size_t size, size_t at);

/* Walks a whole reply of usn_read_journal or usn_enumerate_files. INVALID_PARAMETER, with the place, where it is bad. */
usn_walk usn_walk_reply(const uint8_t *reply, size_t size);

/* The room that the text of a reply wants. */
#define USN_LIST_ROOM(size) (64 + 2 * (size))

/*
 * Lists a reply as text: the number in front, as a signed one, a line for each record, and how many there are. No NUL ends the text. A bad
 * reply is listed too, with USN_SUCCESS: as `bad at` and the place of the first bad record, and one above USN_LIST_MAX bytes as
 * `bad at 65536`.
 * BUFFER_TOO_SMALL for an output below USN_LIST_ROOM(size).
 */
usn_answer usn_list_reply(const uint8_t *reply, size_t size, uint8_t *output, size_t output_size);

#ifdef __cplusplus
}
#endif

#endif
