#define _POSIX_C_SOURCE 200809L
#include <errno.h>
#include <fcntl.h>
#include <stdio.h>
#include <unistd.h>

#include "restart.h"

/* Room for the image of any ring, and a byte more: what fills it is none. */
static uint8_t image[USN_IMAGE_ROOM(USN_CAPACITY_MAX) + 1];

static int write_whole(int file, size_t size)
{
    for (size_t done = 0; done < size;) {
        ssize_t written = write(file, image + done, size - done);
        if (written <= 0)
            return 0;
        done += (size_t)written;
    }
    return fsync(file) == 0;
}

/* A fresh file gets the name only when it is whole and on the disk: a kill or a loss of power leaves the image before, or this one. */
int save(int folder)
{
    usn_answer saved = usn_save_journal(volume, ring, sizeof ring, USN_FORM_2, image, sizeof image);
    if (saved.status != USN_SUCCESS)
        return 0;
    int file = openat(folder, "journal.new", O_WRONLY | O_CREAT | O_TRUNC, 0600);
    if (file < 0)
        return 0;
    int whole = write_whole(file, saved.count);
    if (close(file) != 0 || !whole)
        return 0;
    return renameat(folder, "journal.new", folder, "journal") == 0 && fsync(folder) == 0;
}

/*
 * Reads the saved image, and gives its size: 0 if there is none, -1 if it cannot be read now. Of a file that is longer than any image a
 * part is read, which is refused.
 */
static ssize_t read_image(int folder)
{
    int file = openat(folder, "journal", O_RDONLY);
    if (file < 0)
        return errno == ENOENT ? 0 : -1;
    size_t size = 0;
    ssize_t got;
    do {
        got = read(file, image + size, sizeof image - size);
        if (got > 0)
            size += (size_t)got;
    } while (got > 0 || (got < 0 && errno == EINTR));
    close(file);
    return got < 0 ? -1 : (ssize_t)size;
}

/* A new journal, in which every service begins anew. Its Usns lie above those that files have. */
static int create(int folder, uint64_t id)
{
    uint64_t highest = highest_usn();
    volume.last = highest < 8 ? 8 : (highest + 7) / 8 * 8;
    return usn_create(&volume, id) == USN_SUCCESS && save(folder);
}

int start(int folder)
{
    if (volume.capacity != sizeof ring) /* a load would refuse that, which says nothing of the image */
        return 0;
    ssize_t size = read_image(folder);
    if (size < 0)
        return 0;
    uint64_t id = new_id();
    switch (usn_load_journal(&volume, ring, sizeof ring, image, (size_t)size, id)) {
    case USN_SUCCESS:
        break;
    case USN_UNKNOWN_REVISION: /* no journal can be had from these bytes: they are kept aside */
    case USN_FILE_CORRUPT_ERROR:
        if (size > 0 && renameat(folder, "journal", folder, "journal.bad") != 0)
            return 0;
        return create(folder, id);
    default: /* the id was used before, or the ring is smaller than the one that was saved: the image stays for a right start */
        return 0;
    }
    uint64_t saved_id = usn_get_number(image + size - 16, 8);
    if (!save(folder)) /* under the new id, for the next start */
        return 0;
    tell_services(saved_id, volume.last);
    return 1;
}
