/* What restart.c wants from the server around it, and what it gives. */
#ifndef RESTART_H
#define RESTART_H

#include "lanhduxe.h"

/* The volume record and the ring. When the process starts, the record is zeroes but for the support flags and the capacity. */
extern usn_volume volume;
extern uint8_t ring[USN_CAPACITY_MIN];

/* An id that no journal of this volume has had: a counter that is kept before it is used, or the time. */
uint64_t new_id(void);

/* The highest Usn of any file, 0 if none has one. */
uint64_t highest_usn(void);

/*
 * Tells the services, those too that come later, that they may go on under volume.id if they stand in journal `id`, at most at position
 * `last`: the LastUsn of this moment, not of later.
 */
void tell_services(uint64_t id, uint64_t last);

/*
 * Saves the journal in an open folder: after its creation and every post, and before the file itself is changed, so that no change
 * outlasts its record. 0 if that failed; then the change is refused. One at a time, from the call to its return, so that no older image
 * replaces a newer one.
 */
int save(int folder);

/* When the process starts: goes on with the saved journal, or begins one. 0 if there is no journal then; the saved image is still there. */
int start(int folder);

#endif
