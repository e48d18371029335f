#include "follow.h"

/* Hands each record of a reply to `take`, and gives the number in front of them. */
static uint32_t read_reply(const uint8_t *reply, size_t size, void (*take)(const usn_record *, const uint8_t *), uint64_t *front)
{
    usn_walk walk = usn_walk_reply(reply, size);
    if (walk.status != USN_SUCCESS)
        return DAMAGED;
    for (size_t at = 8; at < size;) {
        usn_record record = usn_read_record(reply, size, at);
        take(&record, reply + record.name);
        at = record.next;
    }
    *front = walk.position;
    return USN_SUCCESS;
}

/* Acts on the records of one reply. There may be more where it had no room for any other. */
static uint32_t read_once(follower *self, int *more)
{
    static uint8_t reply[8192];
    uint8_t input[USN_READ_INPUT_SIZE];
    usn_read_input wanted = { .start = self->position, .mask = 0xFFFFFFFF, .id = self->id, .lowest = 2, .highest = 3 };
    usn_put_read_input(input, wanted);
    usn_answer answer = ask(input, sizeof input, reply, sizeof reply);
    if (answer.status != USN_SUCCESS)
        return answer.status;
    *more = sizeof reply - answer.count < USN_READ_ROOM - 8;
    return read_reply(reply, answer.count, act_on, &self->position);
}

/* Acts on every record up to the journal's end. */
static uint32_t read_on(follower *self)
{
    int more = 1;
    uint32_t status = USN_SUCCESS;
    while (more && status == USN_SUCCESS)
        status = read_once(self, &more);
    return status;
}

/* Sees the files of one page, and moves `start` behind them. END_OF_FILE behind the last one. */
static uint32_t list_page(uint64_t *start)
{
    static uint8_t reply[65536];
    uint8_t input[USN_ENUM_INPUT_SIZE];
    usn_enum_input wanted = { .start = *start, .high = INT64_MAX, .lowest = 2, .highest = 3 };
    usn_put_enum_input(input, wanted);
    usn_answer answer = ask_files(input, sizeof input, reply, sizeof reply);
    if (answer.status != USN_SUCCESS)
        return answer.status;
    return read_reply(reply, answer.count, see_file, start);
}

/*
 * Begins, or begins anew. First the records that are kept, from the oldest on, then the files, and behind each page of them the records that
 * have come meanwhile: a list may take longer than the ring lasts. Where it does not succeed, nothing is kept, and the next turn begins anew.
 */
uint32_t begin(follower *self)
{
    follower fresh = { .id = journal_id(), .position = 0 };
    list_begins();
    uint32_t status = read_on(&fresh);
    for (uint64_t start = 0; status == USN_SUCCESS;) {
        status = list_page(&start);
        if (status == USN_SUCCESS)
            status = read_on(&fresh);
    }
    if (status != USN_END_OF_FILE)
        return status;
    list_ends();
    *self = fresh;
    keep(self);
    return USN_SUCCESS;
}

/* Acts on what has come since the last turn. */
uint32_t follow(follower *self)
{
    for (int more = 1; more;) {
        uint32_t status = read_once(self, &more);
        if (status == USN_JOURNAL_ENTRY_DELETED) /* records are lost */
            return begin(self);
        if (status == USN_INVALID_PARAMETER)     /* the journal is another one, under another id */
            return begin(self);
        if (status != USN_SUCCESS)               /* nothing was read, and the next turn asks for the same */
            return status;
        keep(self);                              /* only now: a restart before this reads these records again */
    }
    return USN_SUCCESS;
}
