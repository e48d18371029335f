/* The layouts that C, C++ and the library share, and those of the header's own structs, checked when this file is compiled. */
#include <assert.h>

#include "lanhduxe.h"

#define SIZE(type, n) static_assert(sizeof(type) == (n), "size of " #type)
#define AT(type, field, n) static_assert(offsetof(type, field) == (n), "place of " #field " in " #type)

SIZE(usn_volume, 56);
AT(usn_volume, usn, 0);
AT(usn_volume, regions, 4);
AT(usn_volume, reparse, 8);
AT(usn_volume, points, 12);
AT(usn_volume, journal, 16);
AT(usn_volume, state, 20);
AT(usn_volume, id, 24);
AT(usn_volume, first, 32);
AT(usn_volume, last, 40);
AT(usn_volume, capacity, 48);

SIZE(usn_id, 16);
AT(usn_id, bytes, 0);

SIZE(usn_change, 56);
AT(usn_change, file, 0);
AT(usn_change, parent, 16);
AT(usn_change, time, 32);
AT(usn_change, reason, 40);
AT(usn_change, source, 44);
AT(usn_change, security, 48);
AT(usn_change, attributes, 52);

SIZE(usn_file, 72);
AT(usn_file, id, 0);
AT(usn_file, usn, 16);
AT(usn_file, eof, 24);
AT(usn_file, valid, 32);
AT(usn_file, attributes, 40);
AT(usn_file, tag, 44);
AT(usn_file, guid, 48);
AT(usn_file, length, 64);

SIZE(usn_link, 12);
AT(usn_link, place, 0);
AT(usn_link, length, 4);
AT(usn_link, short_length, 8);

SIZE(usn_entry, 56);
AT(usn_entry, id, 0);
AT(usn_entry, parent, 16);
AT(usn_entry, usn, 32);
AT(usn_entry, attributes, 40);
AT(usn_entry, name_length, 44);
AT(usn_entry, name_place, 48);

SIZE(usn_answer, 16);
AT(usn_answer, status, 0);
AT(usn_answer, count, 8);

SIZE(usn_record, 96);
AT(usn_record, status, 0);
AT(usn_record, version, 4);
AT(usn_record, file, 8);
AT(usn_record, parent, 24);
AT(usn_record, usn, 40);
AT(usn_record, time, 48);
AT(usn_record, reason, 56);
AT(usn_record, source, 60);
AT(usn_record, security, 64);
AT(usn_record, attributes, 68);
AT(usn_record, name, 72);
AT(usn_record, length, 80);
AT(usn_record, next, 88);

SIZE(usn_walk, 32);
AT(usn_walk, status, 0);
AT(usn_walk, position, 8);
AT(usn_walk, count, 16);
AT(usn_walk, bad, 24);

SIZE(usn_read_input, 32);
AT(usn_read_input, start, 0);
AT(usn_read_input, mask, 8);
AT(usn_read_input, only_on_close, 12);
AT(usn_read_input, id, 16);
AT(usn_read_input, lowest, 24);
AT(usn_read_input, highest, 26);

SIZE(usn_enum_input, 32);
AT(usn_enum_input, start, 0);
AT(usn_enum_input, low, 8);
AT(usn_enum_input, high, 16);
AT(usn_enum_input, lowest, 24);
AT(usn_enum_input, highest, 26);
