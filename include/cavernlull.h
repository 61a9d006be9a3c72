/* The functions of libcavernlull.a: the card agent and the device's end of the card profile, for C on x86-64.
 *
 * The card profile is docs/PROFILE.md; PROFILE 4.1 is its section 4.1.
 *
 * Memory is lent as a pointer and a length in bytes, or as a pointer alone where the length is fixed. For an empty buffer any
 * non-null pointer will do. Memory that a function may change must not overlap anything else lent in the same call. Nothing
 * else is asked of a caller: any bytes and any lengths will do. No function keeps a pointer, allocates memory or has state of
 * its own.
 *
 * The archive needs `memcpy` and `memset`, and nothing else.
 */
#ifndef CAVERNLULL_H
#define CAVERNLULL_H

#include <stddef.h>
#include <stdint.h>

#ifdef __cplusplus
extern "C" {
#endif

/* The version of the library. */
#define CAVERNLULL_VERSION_MAJOR 7
#define CAVERNLULL_VERSION_MINOR 0
#define CAVERNLULL_VERSION_PATCH 0
#define CAVERNLULL_VERSION "7.0.0"

/* Sizes in bytes, and the most slots and hashes (PROFILE 1.3). */
enum {
    CAVERNLULL_SLOT_BYTES = 4288,
    CAVERNLULL_MOST_SLOTS = 15,
    CAVERNLULL_REPLY_ROOM = 4279, /* the longest reply, and the shortest reply buffer */
    CAVERNLULL_MOST_PAYLOAD = 4096,
    CAVERNLULL_HANDLE_BYTES = 10,
    CAVERNLULL_KEY_BYTES = 16,
    CAVERNLULL_HASH_BYTES = 20,
    CAVERNLULL_MOST_HASHES = 8, /* in a record, a query or an installation; an installation has 1 at least */
    CAVERNLULL_LISTING_ROOM = 406 /* room for every listing */
};

/* The numbers that functions return. With 101 and every number above it, all lent memory stays as it was, but for the change that
 * `cavernlull_call_totalling` writes. Beside these, `cavernlull_salvage` alone returns 1 to 15, for so many slots cleared. */
enum {
    CAVERNLULL_DONE = 0,
    CAVERNLULL_REPLY_BUFFER_SHORT = 101,
    CAVERNLULL_TABLE_LENGTH = 102,
    CAVERNLULL_TABLE_NOT_WELL_FORMED = 103,
    CAVERNLULL_NO_FRAME = 104,
    CAVERNLULL_START_OUTSIDE = 105,
    CAVERNLULL_TALLY_DIFFERS = 106,
    CAVERNLULL_REPORT_BUFFER_SHORT = 107,
    CAVERNLULL_TOTAL_OUTSIDE = 108,
    CAVERNLULL_WRITER_BUFFER_SHORT = 201,
    CAVERNLULL_WRITER_FIELDS = 202,
    CAVERNLULL_NO_REPLY = 203
};

/* The kinds of request, in the low five bits of a frame's first byte (PROFILE 5). */
enum {
    CAVERNLULL_INSTALLATION_SETUP = 1,
    CAVERNLULL_RIGHTS_INSTALLATION = 2,
    CAVERNLULL_RIGHTS_RETRIEVAL = 3,
    CAVERNLULL_REK_QUERY = 4,
    CAVERNLULL_RIGHTS_ENABLEMENT = 5,
    CAVERNLULL_RIGHTS_REMOVAL = 6,
    CAVERNLULL_HANDLE_REMOVAL = 7,
    CAVERNLULL_HANDLE_LIST_QUERY = 8,
    CAVERNLULL_RIGHTS_INFORMATION_QUERY = 9
};

/* The statuses, in a reply's second byte (PROFILE 4.2). In replies to kinds 3 and 9 the top bit of that byte is the count's
 * (CAVERNLULL_KEPT_IN_REPLY), and the status is the other seven bits. With every status but 0, the table stays as it was. 8 is
 * not used: no card sends it, and the reply reader refuses it. 9 is for kind 5 alone. */
enum {
    CAVERNLULL_SUCCESS = 0,
    CAVERNLULL_FIELD_INTEGRITY_VERIFICATION_FAILED = 1,
    CAVERNLULL_PARAMETER_FAILED = 2,
    CAVERNLULL_REQUEST_NOT_SUPPORTED = 3,
    CAVERNLULL_HANDLE_NOT_FOUND = 4,
    CAVERNLULL_DUPLICATE_HANDLE = 5,
    CAVERNLULL_UNEXPECTED_REQUEST = 6,
    CAVERNLULL_NOT_ENOUGH_SPACE = 7,
    CAVERNLULL_COUNT_RAISED = 9 /* the count sent would raise, begin or end that of the lent right */
};

/* The bit that says that a count is kept (PROFILE 2.6). Where it is 0, none is kept, and the count must be 0. Where it is 1,
 * the count is 0 to 65,535, and 0 is a count that is used up. */
enum {
    CAVERNLULL_KEPT_IN_SLOT = 0x02,    /* in a slot's first byte, where the slot holds a right; else 0 */
    CAVERNLULL_KEPT_IN_REQUEST = 0x40, /* in a request's second byte, for kinds 2 and 5; else 0 */
    CAVERNLULL_KEPT_IN_REPLY = 0x80    /* in a reply's second byte, for a success of kinds 3 and 9; else 0 */
};

/* The tally of a table (PROFILE 2.8): how many of its slots are empty, reserved, enabled and disabled, and how many payload
 * bytes the enabled and disabled ones hold. That of a blank card of n slots is {n, 0, 0, 0, 0}. */
struct cavernlull_tally {
    uint16_t empty, reserved, enabled, disabled, payload;
};

/* The card agent (PROFILE 1.1): answers one request frame about a table of 1 to 15 slots. A table of zeros is a blank card.
 * Before the call, the front end has checked the frame's MAC, put its verdict into the highest bit of the frame's second byte,
 * and decrypted the fields.
 *
 * `tally` is the tally of the table. It is kept beside the table and lent with each call, which brings it up to date: after the
 * call it is the tally of the table as it then is. One who has a table and no tally gets it from `cavernlull_tally`.
 *
 * `start` is a slot, counted from 0. An Installation Setup looks for an empty slot from there upward and, after the last slot,
 * from slot 0 up to the slot before `start`. It takes the first that is empty, and finds none only where every slot is taken.
 * No other kind uses `start`, but every call must have one that is below the number of slots. A caller who does not mind where
 * a record lands passes 0. One who wants all slots to wear alike keeps a number with the card, which is 0 at first, passes it
 * with each call, and after each successful setup makes it the slot after the one taken, or 0 after the last slot. The slot
 * taken is the one whose byte 0 is not 0 and whose bytes 1 to 10 are the setup's handle.
 *
 * Returns 0 when it has written the reply at the start of `reply` and changed table and tally as the request asks. The reply's
 * length is 4 plus the 16-bit number, high byte first, in its third and fourth bytes; the bytes after it keep what they held.
 *
 * Otherwise returns the first of these numbers that applies, and changes neither `table` nor `tally` nor `reply`:
 *   101 CAVERNLULL_REPLY_BUFFER_SHORT     the reply buffer has fewer than 4,279 bytes
 *   102 CAVERNLULL_TABLE_LENGTH           the table is not 1 to 15 slots of 4,288 bytes
 *   105 CAVERNLULL_START_OUTSIDE          `start` is not below the number of slots, whatever the frame
 *   103 CAVERNLULL_TABLE_NOT_WELL_FORMED  a slot is not well formed, by a count without its bit for example, or two records
 *                                         have the same handle
 *   106 CAVERNLULL_TALLY_DIFFERS          `tally` is not the tally of the table, whatever the frame
 *   104 CAVERNLULL_NO_FRAME               the frame has fewer than 4 bytes, or is not 4 plus its body length long
 * Where the card refuses to carry out the request, the call returns 0, with a reply whose status is not 0.
 *
 * A return may not add starts (PROFILE 5.5). A Rights Enablement of a disabled record has status 9, CAVERNLULL_COUNT_RAISED,
 * where exactly one of record and request keeps a count, or where both do and the request's is greater. The right then stays lent,
 * under the same handle with the same count, and the return can be sent again with another count: one no greater than was lent, or
 * none where none was. A device that does not know what was lent sends no count and, where that has status 9, a kept count of 0,
 * with which the right comes back used up. The count that is sent for a record that is enabled already makes no difference.
 */
uint16_t cavernlull_call(uint8_t *table, size_t table_length, struct cavernlull_tally *tally, size_t start,
                         const uint8_t *frame, size_t frame_length, uint8_t *reply, size_t reply_length);

/* The most that one return can take off a count, and the most returns in a total (PROFILE 4.5). A total is at most as much for each
 * of its returns, above or below 0. */
enum {
    CAVERNLULL_MOST_CHANGE = 65535,
    CAVERNLULL_MOST_RETURNS = 30000
};

/* The totalling call (PROFILE 4.5): makes one call, as `cavernlull_call` does with the same arguments, and keeps a running total
 * of what returns did to counts.
 *
 * A return is a Rights Enablement with status 0 of a record that was disabled. Its change is the count sent minus the count that
 * was stored: below 0 where starts were used, and never above 0, since a greater count has status 9 and is no return. It is counted
 * where the record and the request both keep a count, also where the change is 0. Every other call has the change 0 and is not
 * counted. So has a return that is sent again, of a record that is enabled already.
 *
 * `total` is the sum of the changes so far, and `returns` says how many counted returns are in it. Both are 0 at first, and are
 * carried from call to call, so that the total is never above 0. One above 0 from elsewhere is carried on, if it is within the
 * bounds below. `change` is only written to: what it held makes no difference.
 *
 * Returns this number before everything that the call tests, and then makes no call and changes nothing at all, not even `change`:
 *   108 CAVERNLULL_TOTAL_OUTSIDE          `returns` is 30,000 or more, or `total` is more than 65,535 times `returns` above or
 *                                         below 0. After 30,000 counted returns, note both numbers and begin with 0 and 0 again
 *
 * Otherwise returns what `cavernlull_call` returns, with the same effect on `table`, `tally` and `reply`. With 0 it adds the
 * change to `total`, adds 1 to `returns` if the call is a counted return, and writes the change to `change`. With every other
 * number `total` and `returns` stay as they were, and `change` becomes 0.
 */
uint16_t cavernlull_call_totalling(uint8_t *table, size_t table_length, struct cavernlull_tally *tally, size_t start,
                                   const uint8_t *frame, size_t frame_length, uint8_t *reply, size_t reply_length,
                                   int32_t *total, uint16_t *returns, int32_t *change);

/* Works out the tally of a table (PROFILE 2.8), for one who has a table and no tally. What `tally` held makes no difference.
 *
 * Returns 0 when it has written the five numbers. Otherwise returns the first of these numbers that applies, and leaves
 * `tally` as it was:
 *   102 CAVERNLULL_TABLE_LENGTH           the table is not 1 to 15 slots of 4,288 bytes
 *   103 CAVERNLULL_TABLE_NOT_WELL_FORMED  the table is one that the call refuses with 103
 */
uint16_t cavernlull_tally(const uint8_t *table, size_t table_length, struct cavernlull_tally *tally);

/* The device's request writer (PROFILE 6.2): writes the request frame of a kind and its fields at the start of `out`, with
 * the verdict 1. `handle` and `new_handle` are 10 bytes, `key` is 16. A field that the kind lacks must be zero or empty:
 *
 *   kind                             fields
 *   1  Installation Setup            handle, room (the length asked for)
 *   2  Rights Installation           handle, key, count, kept, hashes, payload
 *   3  Rights Retrieval              handle, new_handle
 *   4  REK Query                     handle, new_handle
 *   5  Rights Enablement             handle, count, kept
 *   6  Rights Removal                handle
 *   7  Handle Removal                handle
 *   8  Handle List Query             limit, hashes
 *   9  Rights Information Query      handle
 *
 * `kept` is 1 where a count is kept, and 0 where none is: `count` must then be 0. `hashes` are 20 bytes each: 1 to 8 of them for
 * kind 2, since a right is found by them, and 0 to 8 for kind 8, where none asks for all handles.
 *
 * Returns 0 when it has written the frame at the start of `out`. The frame's length is 4 plus the 16-bit number, high byte
 * first, in its third and fourth bytes; the bytes after it keep what they held.
 *
 * Otherwise returns the first of these numbers that applies, and does not change `out`:
 *   202 CAVERNLULL_WRITER_FIELDS        the kind is not 1 to 9; the hashes are not 0 to 8 times 20 bytes; kind 2 has no hash; its
 *                                       payload is not 1 to 4,096 bytes; `kept` is over 1; `count` is not 0 though `kept` is 0;
 *                                       or a field that the kind lacks is not zero or empty
 *   201 CAVERNLULL_WRITER_BUFFER_SHORT  the frame does not fit into `out`
 */
uint16_t cavernlull_write_request(uint8_t kind, const uint8_t *handle, const uint8_t *new_handle, const uint8_t *key,
                                  uint16_t room, uint16_t count, uint8_t kept, uint16_t limit, const uint8_t *hashes,
                                  size_t hashes_length, const uint8_t *payload, size_t payload_length, uint8_t *out,
                                  size_t out_length);

/* The eleven numbers that the reply reader writes, by index. An offset counts from the frame's first byte. */
enum {
    CAVERNLULL_REPLY_KIND = 0,
    CAVERNLULL_REPLY_STATUS = 1, /* without the count's bit */
    CAVERNLULL_REPLY_COUNT = 2,
    CAVERNLULL_REPLY_HASHES = 3,    /* how many, of 20 bytes each */
    CAVERNLULL_REPLY_HASHES_AT = 4, /* the offset of the first */
    CAVERNLULL_REPLY_PAYLOAD_AT = 5,
    CAVERNLULL_REPLY_PAYLOAD_LENGTH = 6,
    CAVERNLULL_REPLY_MORE = 7,    /* 1 if a handle was left off the list, else 0 */
    CAVERNLULL_REPLY_HANDLES = 8, /* how many, of 10 bytes each */
    CAVERNLULL_REPLY_HANDLES_AT = 9,
    CAVERNLULL_REPLY_KEPT = 10, /* 1 if the reply says that a count is kept, else 0 */
    CAVERNLULL_REPLY_NUMBERS = 11
};

/* The device's reply reader (PROFILE 6.3): takes a reply frame apart. `key` is 16 bytes, `fields` eleven numbers.
 *
 * Returns 0 when it has written all of `key` and `fields`. What the reply lacks is 0. Beside kind and status, a success has:
 *
 *   3  Rights Retrieval              key, count, kept, hashes, payload
 *   4  REK Query                     key
 *   8  Handle List Query             more, handles
 *   9  Rights Information Query      count, kept, payload
 *
 * Otherwise returns this number, and changes neither `key` nor `fields`:
 *   203 CAVERNLULL_NO_REPLY  the frame is not 4 plus its body length long; its version is not 1; its status is not 0 to 7 or
 *                            9; it has a body though its status is not 0; its status is 0 and its body is not of its kind's
 *                            shape (a kind outside 1 to 9 has none); the count's bit is set though it is no success of kind 3
 *                            or 9; or it has a count that is not 0 though that bit is 0
 */
uint16_t cavernlull_read_reply(const uint8_t *frame, size_t frame_length, uint8_t *key, uint16_t *fields);

/* The listing of a table (PROFILE 7), as the program `cardlist` prints it: writes it at the start of `out`, which is 406 bytes,
 * and returns its length. The bytes after it keep what they held; no zero byte ends it. Each line ends with a newline:
 *
 *   slot place hashes count length        the header
 *   0 enabled 2 5 300                     a line for each slot; the place is empty, reserved, enabled or disabled
 *
 * For a table that the agent would refuse, the listing is one line with the agent's number:
 *   refused 102                           the table is not 1 to 15 slots of 4,288 bytes
 *   refused 103                           a slot is not well formed, or two records have the same handle
 */
size_t cavernlull_list(const uint8_t *table, size_t table_length, uint8_t *out);

/* The turning of an old table (PROFILE 2.7), in place. A table that a version before 3.0.0 wrote has no bit for the count: both
 * spare bits of a slot's first byte are 0, and a count of 0 says that none is kept. With a count in it, the agent and the
 * listing refuse such a table with 103. It is turned once.
 *
 * Returns 0 when it has set CAVERNLULL_KEPT_IN_SLOT in the first byte of each slot whose count is not 0. No other byte changes,
 * and the table is well formed.
 *
 * Otherwise returns the first of these numbers that applies, and does not change `table`:
 *   102 CAVERNLULL_TABLE_LENGTH           the table is not 1 to 15 slots of 4,288 bytes
 *   103 CAVERNLULL_TABLE_NOT_WELL_FORMED  a slot is not well formed by the old rules, or two records have the same handle
 * A table in which a count is kept is not well formed by the old rules, and so is not turned again. One without counts may be
 * turned again, and stays as it is.
 */
uint16_t cavernlull_turn(uint8_t *table, size_t table_length);

/* What the report of a salvage says of a slot (PROFILE 2.10). */
enum {
    CAVERNLULL_SLOT_KEPT = 0,
    CAVERNLULL_SLOT_DAMAGED = 1,
    CAVERNLULL_SLOT_REPEATED = 2
};

/* The salvage of a damaged table (PROFILE 2.10), in place: for a table that the agent refuses with 103. Each slot that is not
 * well formed by itself is cleared. Then, where two or more slots that are not empty have one handle, the lowest is kept and the
 * others are cleared. A cleared slot is all zeros, and no byte of any other slot changes. So the table left is well formed, and a
 * second run clears nothing.
 *
 * Byte i of `report` becomes CAVERNLULL_SLOT_KEPT, CAVERNLULL_SLOT_DAMAGED or CAVERNLULL_SLOT_REPEATED, as slot i was kept, was
 * cleared in the first step, or in the second. An empty slot is kept. The bytes after that of the last slot keep what they held.
 * CAVERNLULL_MOST_SLOTS bytes are enough for every table.
 *
 * Returns 0 to 15, the number of slots cleared; a well-formed table gives 0 and stays as it is. Otherwise returns the first of
 * these numbers that applies, and changes neither `table` nor `report`:
 *   102 CAVERNLULL_TABLE_LENGTH         the table is not 1 to 15 slots of 4,288 bytes
 *   107 CAVERNLULL_REPORT_BUFFER_SHORT  `report` has fewer bytes than the table has slots
 *
 * Whatever the number, get the tally from `cavernlull_tally` afterwards: that of before the damage may not be the table's. A table
 * that a version before 3.0.0 wrote is turned first (`cavernlull_turn`), since a count without its bit is damage to a salvage.
 */
uint16_t cavernlull_salvage(uint8_t *table, size_t table_length, uint8_t *report, size_t report_length);

#ifdef __cplusplus
}
#endif

#endif
