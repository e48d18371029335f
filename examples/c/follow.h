/* What follow.c wants from the service around it. */
#ifndef FOLLOW_H
#define FOLLOW_H

#include "lanhduxe.h"

/* Where a service stands in a journal. */
typedef struct follower {
    uint64_t id;       /* the journal's id */
    uint64_t position; /* the position behind the last record that was acted on */
} follower;

/* Keeps where the service stands, together with the files that it knows, so that a restart finds both. */
void keep(const follower *self);

/* The id of the server's journal, as the server tells it. */
uint64_t journal_id(void);

/* Sends the input of a read to the server, and brings back its answer and the reply. */
usn_answer ask(const uint8_t *input, size_t input_size, uint8_t *reply, size_t reply_size);

/* The same with the input of an enumeration. */
usn_answer ask_files(const uint8_t *input, size_t input_size, uint8_t *reply, size_t reply_size);

/* Acts on one change, of a file that it may not know yet. */
void act_on(const usn_record *record, const uint8_t *name);

/*
 * A fresh list begins: records may have been lost, closes among them. From here on it is remembered which files were seen in the list or
 * acted on. It may begin again before it has ended.
 */
void list_begins(void);

/* Takes a file of the list, as it is now, over all that was known of it. Its record has no Reason: it does not say whether the file is closed. */
void see_file(const usn_record *record, const uint8_t *name);

/* The list is whole: a file that was known before it began, and was neither seen nor acted on since, is gone or is left out of lists. */
void list_ends(void);

/* A reply was damaged on the way. No status of the server. */
#define DAMAGED 1u

/* Both return the server's status, or DAMAGED. */
uint32_t begin(follower *self);
uint32_t follow(follower *self);

#endif
