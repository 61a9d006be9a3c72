/* An ordinary C program that links libcavernlull.a, as a front end or a device does: one course on its way through a card of
 * two slots. It is set up, installed, listed, lent, refused a second time and under a handle in use, returned and removed. Then
 * it is set up with other starts, and in one slot after the other; it has a count of 1, which is used up and stays so; it is not
 * taken back with a count that is raised; its returns are totalled; it is refused without a hash, and used where a card holds it
 * so; it is on an old card, whose table is turned, and on a damaged one, which is salvaged. The card's tally is kept beside its
 * table, and lent with each call.
 *
 * Each step is checked against what the header promises: the number, every byte of the reply buffer, every byte of the table,
 * the five numbers of the tally, the three of a total, what the reply reader reads in the reply, and the listing. The expected
 * bytes and numbers are written here by hand. The program prints the first check that fails and exits with 1, or prints how many
 * checks held and exits with 0.
 */
#include "cavernlull.h"

#include <stdio.h>
#include <stdlib.h>
#include <string.h>

enum { SLOTS = 2, TABLE_BYTES = SLOTS * CAVERNLULL_SLOT_BYTES };
enum { REQUEST_ROOM = 4289, FILLER = 0xA5, KEY = 0xC5, PAYLOAD_AT = 192 };
enum place { EMPTY, RESERVED, ENABLED, DISABLED };

static const uint8_t none[16];
static const uint8_t course[10] = {1, 1, 1, 1, 1, 1, 1, 1, 1, 1}, other[10] = {2, 2, 2, 2, 2, 2, 2, 2, 2, 2};
static const uint8_t borrower[10] = {3, 3, 3, 3, 3, 3, 3, 3, 3, 3};
static const uint8_t payload[] = {'w', 'e', 'l', 'd', 'i', 'n', 'g'};
static uint8_t key[CAVERNLULL_KEY_BYTES], hashes[2 * CAVERNLULL_HASH_BYTES];

static uint8_t table[TABLE_BYTES], expected[TABLE_BYTES];
static struct cavernlull_tally tally = {SLOTS, 0, 0, 0, 0};
static size_t start; /* of the calls */
static uint8_t frame[REQUEST_ROOM], reply[CAVERNLULL_REPLY_ROOM + 1];
static uint16_t fields[CAVERNLULL_REPLY_NUMBERS];
static int checks;

#define CHECK(that) check((that) != 0, #that, __LINE__)

static void check(int holds, const char *that, int line) {
    checks++;
    if (holds) return;
    printf("ordinary.c:%d: it does not hold that %s (check %d, with a frame of kind %d)\n", line, that, checks, frame[0] & 31);
    exit(1);
}

static int filled(const uint8_t *bytes, size_t length, uint8_t byte) {
    for (size_t i = 0; i < length; i++)
        if (bytes[i] != byte) return 0;
    return 1;
}

static size_t length_of(const uint8_t *one) { return 4 + (size_t)(one[2] << 8 | one[3]); }

/* ---- a count: one that is kept, or none */
struct count {
    uint16_t number;
    uint8_t is_kept;
};

static const struct count no_count;

static struct count kept(uint16_t number) { return (struct count){number, 1}; }

/* ---- a slot of the expected table (PROFILE 2.2) */
static void put_slot(int index, enum place place, const uint8_t *handle, struct count count, uint16_t length) {
    uint8_t *slot = expected + index * CAVERNLULL_SLOT_BYTES;
    int right = place == ENABLED || place == DISABLED;
    memset(slot, 0, CAVERNLULL_SLOT_BYTES);
    slot[0] = (uint8_t)(place << 6 | (right ? 2 << 2 : 0) | (count.is_kept ? CAVERNLULL_KEPT_IN_SLOT : 0));
    memcpy(slot + 1, handle, sizeof course);
    slot[27] = (uint8_t)(count.number >> 8);
    slot[28] = (uint8_t)count.number;
    slot[29] = (uint8_t)(length >> 8);
    slot[30] = (uint8_t)length;
    if (!right) return;
    memcpy(slot + 11, key, sizeof key);
    memcpy(slot + 31, hashes, sizeof hashes);
    memcpy(slot + PAYLOAD_AT, payload, sizeof payload);
}

static void put_reserved(int index, const uint8_t *handle, uint16_t length) {
    put_slot(index, RESERVED, handle, no_count, length);
}

static void put_right(enum place place, const uint8_t *handle, struct count count) {
    put_slot(0, place, handle, count, sizeof payload);
}

/* ---- the tally (PROFILE 2.8) */
static int same_tally(struct cavernlull_tally a, struct cavernlull_tally b) {
    return a.empty == b.empty && a.reserved == b.reserved && a.enabled == b.enabled && a.disabled == b.disabled &&
           a.payload == b.payload;
}

/* The tally of the expected table, by the place and the length in each slot. */
static struct cavernlull_tally expected_tally(void) {
    struct cavernlull_tally all = {0, 0, 0, 0, 0};
    for (size_t at = 0; at < TABLE_BYTES; at += CAVERNLULL_SLOT_BYTES) {
        enum place place = (enum place)(expected[at] >> 6);
        all.empty += place == EMPTY;
        all.reserved += place == RESERVED;
        all.enabled += place == ENABLED;
        all.disabled += place == DISABLED;
        if (place == ENABLED || place == DISABLED) all.payload += (uint16_t)(expected[at + 29] << 8 | expected[at + 30]);
    }
    return all;
}

/* A tally whose every number is filled, between two others, so that a write beside it shows. */
struct between {
    uint16_t before;
    struct cavernlull_tally tally;
    uint16_t after;
};

static struct between between_fillers(void) {
    struct between one;
    memset(&one, FILLER, sizeof one);
    return one;
}

/* The tally has these numbers, and it is the one that is worked out of the table afresh. */
static void tallied(uint16_t empty, uint16_t reserved, uint16_t enabled, uint16_t disabled, uint16_t payload_bytes) {
    struct cavernlull_tally numbers = {empty, reserved, enabled, disabled, payload_bytes};
    struct between afresh = between_fillers();
    CHECK(same_tally(tally, numbers));
    CHECK(cavernlull_tally(table, sizeof table, &afresh.tally) == CAVERNLULL_DONE);
    CHECK(same_tally(afresh.tally, numbers));
    CHECK(afresh.before == 0xA5A5 && afresh.after == 0xA5A5);
    CHECK(memcmp(table, expected, sizeof table) == 0);
}

/* No tally is worked out: this is the number, and nothing is changed. */
static void no_tally(uint16_t number, size_t table_length) {
    struct between afresh = between_fillers(), filled_so = afresh;
    CHECK(cavernlull_tally(table, table_length, &afresh.tally) == number);
    CHECK(memcmp(&afresh, &filled_so, sizeof afresh) == 0);
    CHECK(memcmp(table, expected, sizeof table) == 0);
}

/* ---- requests: each writes a frame */
static void write_plain(uint8_t kind, const uint8_t *handle, const uint8_t *new_handle, uint16_t room) {
    CHECK(cavernlull_write_request(kind, handle, new_handle, none, room, 0, 0, 0, none, 0, none, 0, frame, sizeof frame) ==
          CAVERNLULL_DONE);
}

static void write_installation(const uint8_t *handle, struct count count) {
    CHECK(cavernlull_write_request(CAVERNLULL_RIGHTS_INSTALLATION, handle, none, key, 0, count.number, count.is_kept, 0, hashes,
                                   sizeof hashes, payload, sizeof payload, frame, sizeof frame) == CAVERNLULL_DONE);
}

static void write_return(const uint8_t *handle, struct count count) {
    CHECK(cavernlull_write_request(CAVERNLULL_RIGHTS_ENABLEMENT, handle, none, none, 0, count.number, count.is_kept, 0, none, 0,
                                   none, 0, frame, sizeof frame) == CAVERNLULL_DONE);
}

static void write_list_by(uint16_t limit, size_t hashes_length) {
    CHECK(cavernlull_write_request(CAVERNLULL_HANDLE_LIST_QUERY, none, none, none, 0, 0, 0, limit, hashes, hashes_length, none,
                                   0, frame, sizeof frame) == CAVERNLULL_DONE);
}

static void write_list(uint16_t limit) { write_list_by(limit, 0); }

/* ---- the call: number, status and the bit of a kept count, body, the rest of the buffer, the table, its tally, and what the
 * reply reader reads in the reply */
static void call_telling(uint8_t kept_bit, uint8_t status, const uint8_t *body, size_t body_length) {
    uint8_t sent_key[CAVERNLULL_KEY_BYTES];
    memset(reply, FILLER, sizeof reply);
    CHECK(cavernlull_call(table, sizeof table, &tally, start, frame, length_of(frame), reply, sizeof reply) == CAVERNLULL_DONE);
    CHECK(reply[0] == frame[0]);
    CHECK(reply[1] == (kept_bit | status));
    CHECK(length_of(reply) == 4 + body_length);
    CHECK(memcmp(reply + 4, body, body_length) == 0);
    CHECK(filled(reply + 4 + body_length, sizeof reply - 4 - body_length, FILLER));
    CHECK(memcmp(table, expected, sizeof table) == 0);
    CHECK(same_tally(tally, expected_tally()));
    CHECK(cavernlull_read_reply(reply, length_of(reply), sent_key, fields) == CAVERNLULL_DONE);
    CHECK(fields[CAVERNLULL_REPLY_KIND] == (frame[0] & 31));
    CHECK(fields[CAVERNLULL_REPLY_STATUS] == status);
    CHECK(fields[CAVERNLULL_REPLY_KEPT] == (kept_bit != 0));
    int has_key = status == CAVERNLULL_SUCCESS && (reply[0] == 0x23 || reply[0] == 0x24);
    CHECK(memcmp(sent_key, has_key ? key : none, sizeof sent_key) == 0);
}

static void call(uint8_t status, const uint8_t *body, size_t body_length) { call_telling(0, status, body, body_length); }

static void done(void) { call(CAVERNLULL_SUCCESS, none, 0); }

static void refused(uint8_t status) { call(status, none, 0); }

static void listed_after(const char *header, const char *lines) {
    uint8_t out[CAVERNLULL_LISTING_ROOM];
    memset(out, FILLER, sizeof out);
    size_t length = cavernlull_list(table, sizeof table, out), head = strlen(header);
    CHECK(length == head + strlen(lines));
    CHECK(memcmp(out, header, head) == 0);
    CHECK(memcmp(out + head, lines, strlen(lines)) == 0);
    CHECK(filled(out + length, sizeof out - length, FILLER));
}

static void listed(const char *lines) { listed_after("slot place hashes count length\n", lines); }

/* ---- the course */
static void installs(void) {
    write_plain(CAVERNLULL_INSTALLATION_SETUP, course, none, 300);
    static const uint8_t written[] = {0x21, 0x80, 0, 12, 1, 1, 1, 1, 1, 1, 1, 1, 1, 1, 300 >> 8, 300 & 255};
    CHECK(memcmp(frame, written, sizeof written) == 0);
    frame[1] = 0; /* the front end: the MAC did not hold */
    refused(CAVERNLULL_FIELD_INTEGRITY_VERIFICATION_FAILED);
    tallied(2, 0, 0, 0, 0);
    frame[1] = 0x80;
    put_reserved(0, course, 300);
    done();
    refused(CAVERNLULL_DUPLICATE_HANDLE);
    listed("0 reserved 0 0 300\n1 empty 0 0 0\n");
    tallied(1, 1, 0, 0, 0); /* room that is only reserved is no payload */
    write_installation(other, kept(9));
    refused(CAVERNLULL_HANDLE_NOT_FOUND);
    write_installation(course, kept(9));
    CHECK(frame[1] == (0x80 | CAVERNLULL_KEPT_IN_REQUEST));
    frame[1] = 0x80; /* a count without its bit */
    refused(CAVERNLULL_PARAMETER_FAILED);
    frame[1] |= CAVERNLULL_KEPT_IN_REQUEST;
    put_right(ENABLED, course, kept(9));
    done();
    refused(CAVERNLULL_UNEXPECTED_REQUEST);
    tallied(1, 0, 1, 0, 7);
    write_plain(CAVERNLULL_INSTALLATION_SETUP, other, none, 1);
    put_reserved(1, other, 1);
    done();
    write_plain(CAVERNLULL_INSTALLATION_SETUP, borrower, none, 1);
    refused(CAVERNLULL_NOT_ENOUGH_SPACE);
    listed("0 enabled 2 9 7\n1 reserved 0 0 1\n");
    tallied(0, 1, 1, 0, 7);
}

static void lists(const uint8_t *handle) {
    uint8_t body[1 + CAVERNLULL_HANDLE_BYTES] = {0x80}; /* more, and no handle */
    write_list(9);
    call(CAVERNLULL_SUCCESS, body, 1);
    CHECK(fields[CAVERNLULL_REPLY_MORE] == 1 && fields[CAVERNLULL_REPLY_HANDLES] == 0);
    body[0] = 0;
    memcpy(body + 1, handle, CAVERNLULL_HANDLE_BYTES);
    write_list(10);
    call(CAVERNLULL_SUCCESS, body, sizeof body);
    CHECK(fields[CAVERNLULL_REPLY_MORE] == 0 && fields[CAVERNLULL_REPLY_HANDLES] == 1);
    CHECK(memcmp(reply + fields[CAVERNLULL_REPLY_HANDLES_AT], handle, CAVERNLULL_HANDLE_BYTES) == 0);
}

static void lends(void) {
    write_plain(CAVERNLULL_REK_QUERY, course, other, 0);
    refused(CAVERNLULL_DUPLICATE_HANDLE);
    write_plain(CAVERNLULL_REK_QUERY, course, course, 0);
    refused(CAVERNLULL_DUPLICATE_HANDLE);
    write_plain(CAVERNLULL_REK_QUERY, course, borrower, 0);
    put_right(DISABLED, borrower, kept(9));
    call(CAVERNLULL_SUCCESS, key, sizeof key);
    refused(CAVERNLULL_HANDLE_NOT_FOUND);
    write_plain(CAVERNLULL_REK_QUERY, borrower, course, 0);
    refused(CAVERNLULL_UNEXPECTED_REQUEST);
    write_list(0);
    call(CAVERNLULL_SUCCESS, none, 1);
    listed("0 disabled 2 9 7\n1 reserved 0 0 1\n");
    tallied(0, 1, 0, 1, 7);
}

/* A return whose reply was lost is sent again, with another count or with none, and changes nothing. */
static void takes_back(void) {
    write_return(borrower, kept(8));
    put_right(ENABLED, borrower, kept(8));
    done();
    write_return(borrower, kept(7));
    done();
    write_return(borrower, no_count);
    done();
    tallied(0, 1, 1, 0, 7);
    uint8_t body[2 + sizeof payload] = {0, 8};
    memcpy(body + 2, payload, sizeof payload);
    write_plain(CAVERNLULL_RIGHTS_INFORMATION_QUERY, borrower, none, 0);
    call_telling(CAVERNLULL_KEPT_IN_REPLY, CAVERNLULL_SUCCESS, body, sizeof body);
    CHECK(fields[CAVERNLULL_REPLY_COUNT] == 8 && fields[CAVERNLULL_REPLY_PAYLOAD_LENGTH] == sizeof payload);
    CHECK(memcmp(reply + fields[CAVERNLULL_REPLY_PAYLOAD_AT], payload, sizeof payload) == 0);
}

/* Lends the course, which is under `borrower`, out whole, under `course`. It goes out with this count. */
static void retrieves(struct count count) {
    uint8_t body[16 + 2 + 1 + sizeof hashes + sizeof payload];
    memcpy(body, key, sizeof key);
    memcpy(body + 16, (uint8_t[]){(uint8_t)(count.number >> 8), (uint8_t)count.number, 2 << 4}, 3);
    memcpy(body + 19, hashes, sizeof hashes);
    memcpy(body + 19 + sizeof hashes, payload, sizeof payload);
    write_plain(CAVERNLULL_RIGHTS_RETRIEVAL, borrower, course, 0);
    put_right(DISABLED, course, count);
    call_telling(count.is_kept ? CAVERNLULL_KEPT_IN_REPLY : 0, CAVERNLULL_SUCCESS, body, sizeof body);
    CHECK(fields[CAVERNLULL_REPLY_COUNT] == count.number && fields[CAVERNLULL_REPLY_HASHES] == 2);
    CHECK(memcmp(reply + fields[CAVERNLULL_REPLY_HASHES_AT], hashes, sizeof hashes) == 0);
    CHECK(memcmp(reply + fields[CAVERNLULL_REPLY_PAYLOAD_AT], payload, sizeof payload) == 0);
}

static void removes(void) {
    retrieves(kept(8));
    tallied(0, 1, 0, 1, 7);
    write_plain(CAVERNLULL_RIGHTS_REMOVAL, course, none, 0);
    memset(expected, 0, CAVERNLULL_SLOT_BYTES);
    done();
    refused(CAVERNLULL_HANDLE_NOT_FOUND);
    tallied(1, 1, 0, 0, 0);
    write_plain(CAVERNLULL_HANDLE_REMOVAL, other, none, 0);
    memset(expected, 0, sizeof expected);
    done();
    listed("0 empty 0 0 0\n1 empty 0 0 0\n");
    tallied(2, 0, 0, 0, 0);
}

/* ---- starts: a setup looks for an empty slot from the start upward, and then from slot 0 up to the slot before it */
static void starts(void) {
    start = 1;
    write_plain(CAVERNLULL_INSTALLATION_SETUP, course, none, 300);
    put_reserved(1, course, 300);
    done();
    write_plain(CAVERNLULL_INSTALLATION_SETUP, other, none, 300);
    put_reserved(0, other, 300); /* slot 1 is taken */
    done();
    write_plain(CAVERNLULL_INSTALLATION_SETUP, borrower, none, 1);
    refused(CAVERNLULL_NOT_ENOUGH_SPACE);
    listed("0 reserved 0 0 300\n1 reserved 0 0 300\n");
    write_installation(course, no_count);
    put_slot(1, ENABLED, course, no_count, sizeof payload);
    done();
    write_installation(other, no_count);
    put_slot(0, ENABLED, other, no_count, sizeof payload);
    done();
    uint8_t body[1 + 2 * CAVERNLULL_HANDLE_BYTES] = {0}; /* in the order of the slots */
    memcpy(body + 1, other, sizeof other);
    memcpy(body + 1 + sizeof other, course, sizeof course);
    write_list(0);
    call(CAVERNLULL_SUCCESS, body, sizeof body);
    tallied(0, 0, 2, 0, 14);
    write_plain(CAVERNLULL_RIGHTS_REMOVAL, course, none, 0);
    memset(expected + CAVERNLULL_SLOT_BYTES, 0, CAVERNLULL_SLOT_BYTES);
    done();
    tallied(1, 0, 1, 0, 7);
    write_plain(CAVERNLULL_RIGHTS_REMOVAL, other, none, 0);
    memset(expected, 0, sizeof expected);
    done();
    start = 0;
}

/* The slot of the record under a handle. */
static size_t slot_of(const uint8_t *handle) {
    size_t slot = 0;
    for (; slot < SLOTS; slot++) {
        const uint8_t *bytes = table + slot * CAVERNLULL_SLOT_BYTES;
        if (bytes[0] != 0 && memcmp(bytes + 1, handle, CAVERNLULL_HANDLE_BYTES) == 0) break;
    }
    return slot;
}

/* The start of each setup is the slot after the one that the last setup took: all slots wear alike. */
static void wears_alike(void) {
    for (int setup = 0; setup < 2 * SLOTS; setup++) {
        write_plain(CAVERNLULL_INSTALLATION_SETUP, course, none, 300);
        put_reserved(setup % SLOTS, course, 300);
        done();
        CHECK(slot_of(course) == (size_t)setup % SLOTS);
        start = (slot_of(course) + 1) % SLOTS;
        write_plain(CAVERNLULL_HANDLE_REMOVAL, course, none, 0);
        memset(expected, 0, sizeof expected);
        done();
    }
    CHECK(start == 0);
}

/* A return of the course, which is lent under `borrower`, is refused with each of these counts, and it stays lent. */
static void raises(const struct count *sent, size_t length) {
    for (size_t i = 0; i < length; i++) {
        write_return(borrower, sent[i]);
        refused(CAVERNLULL_COUNT_RAISED);
    }
}

/* ---- counts: the course is installed with `first`, lent, refused with a count that is raised, returned with `then` and lent
 * again: `then` is what goes out */
static void counts(struct count first, struct count then) {
    write_plain(CAVERNLULL_INSTALLATION_SETUP, course, none, 300);
    put_reserved(0, course, 300);
    done();
    write_installation(course, first);
    put_right(ENABLED, course, first);
    done();
    write_plain(CAVERNLULL_REK_QUERY, course, borrower, 0);
    put_right(DISABLED, borrower, first);
    call(CAVERNLULL_SUCCESS, key, sizeof key);
    if (!first.is_kept) raises((const struct count[]){kept(0), kept(1), kept(0xFFFF)}, 3);
    else raises((const struct count[]){no_count, kept((uint16_t)(first.number + 1))}, first.number == 0xFFFF ? 1 : 2);
    write_return(borrower, then);
    put_right(ENABLED, borrower, then);
    done();
    write_return(borrower, kept(0xFFFF)); /* sent again: the count makes no difference */
    done();
    retrieves(then);
    write_plain(CAVERNLULL_RIGHTS_REMOVAL, course, none, 0);
    memset(expected, 0, sizeof expected);
    done();
}

/* ---- totals: what returns did to counts (PROFILE 4.5); before and afterwards the card is empty */
enum { LEAST = -2147483647 - 1, GREATEST = 2147483647 }; /* of 32 bits */

/* The three numbers, each between two others, so that a write beside it shows. */
struct sums {
    int32_t before_total, total, before_change, change, after_change;
    uint16_t before_returns, returns, after_returns;
};

static struct sums sums;

/* The three numbers are these, and nothing beside them has changed. */
static int summed(int32_t total, uint16_t returns, int32_t change) {
    int beside = sums.before_total == FILLER && sums.before_change == FILLER && sums.after_change == FILLER &&
                 sums.before_returns == FILLER && sums.after_returns == FILLER;
    return beside && sums.total == total && sums.returns == returns && sums.change == change;
}

/* The number of a totalling call with this total and these returns. The change is 77 before. */
static uint16_t call_totalling(int32_t total, uint16_t returns, size_t table_length, size_t frame_length, size_t reply_length) {
    sums = (struct sums){FILLER, total, FILLER, 77, FILLER, FILLER, returns, FILLER};
    memset(reply, FILLER, sizeof reply);
    return cavernlull_call_totalling(table, table_length, &tally, start, frame, frame_length, reply, reply_length, &sums.total,
                                     &sums.returns, &sums.change);
}

/* The course is lent under `borrower`, with this count. */
static void put_lent(struct count count) {
    put_right(DISABLED, borrower, count);
    memcpy(table, expected, sizeof table);
    tally = expected_tally();
}

/* It is lent with `first` and returned with `then`, which is a success. A counted return has this change. */
static void returns_totalled(struct count first, struct count then, int counted, int32_t change) {
    static const struct {
        int32_t total;
        uint16_t returns;
    } before[] = {{0, 0}, {-7, 3}, {-65535 * 29999, 29999}, {65535 * 29999, 29999}};
    for (size_t i = 0; i < sizeof before / sizeof before[0]; i++) {
        put_lent(first);
        write_return(borrower, then);
        put_right(ENABLED, borrower, then);
        CHECK(call_totalling(before[i].total, before[i].returns, sizeof table, length_of(frame), sizeof reply) == CAVERNLULL_DONE);
        CHECK(summed(before[i].total + change, (uint16_t)(before[i].returns + counted), change));
        CHECK(reply[0] == frame[0] && filled(reply + 1, 3, 0) && filled(reply + 4, sizeof reply - 4, FILLER));
        CHECK(memcmp(table, expected, sizeof table) == 0);
        CHECK(same_tally(tally, expected_tally()));
    }
}

/* It is lent with `first`, and a return with `then` raises the count: nothing changes but the change, which becomes 0. */
static void raise_totalled(struct count first, struct count then) {
    put_lent(first);
    write_return(borrower, then);
    CHECK(call_totalling(-7, 3, sizeof table, length_of(frame), sizeof reply) == CAVERNLULL_DONE);
    CHECK(summed(-7, 3, 0));
    CHECK(memcmp(reply, (const uint8_t[]){0x25, CAVERNLULL_COUNT_RAISED, 0, 0}, 4) == 0);
    CHECK(filled(reply + 4, sizeof reply - 4, FILLER));
    CHECK(memcmp(table, expected, sizeof table) == 0);
    CHECK(same_tally(tally, expected_tally()));
}

/* A return that is sent again, a lending and a refused return are not counted. */
static void others_totalled(void) {
    write_return(borrower, kept(3));
    CHECK(call_totalling(-7, 3, sizeof table, length_of(frame), sizeof reply) == CAVERNLULL_DONE);
    CHECK(summed(-7, 3, 0) && reply[1] == CAVERNLULL_SUCCESS);
    CHECK(memcmp(table, expected, sizeof table) == 0);
    write_return(other, kept(3));
    CHECK(call_totalling(-7, 3, sizeof table, length_of(frame), sizeof reply) == CAVERNLULL_DONE);
    CHECK(summed(-7, 3, 0) && reply[1] == CAVERNLULL_HANDLE_NOT_FOUND);
    write_plain(CAVERNLULL_REK_QUERY, borrower, course, 0);
    put_right(DISABLED, course, kept(9));
    CHECK(call_totalling(-7, 3, sizeof table, length_of(frame), sizeof reply) == CAVERNLULL_DONE);
    CHECK(summed(-7, 3, 0) && memcmp(reply + 4, key, sizeof key) == 0);
    CHECK(memcmp(table, expected, sizeof table) == 0);
}

/* The totalling call gives this number and leaves all but the change, which becomes this. */
static void totalling_refused(uint16_t number, int32_t total, uint16_t returns, int32_t change, size_t table_length,
                              size_t frame_length, size_t reply_length) {
    struct cavernlull_tally before = tally;
    CHECK(call_totalling(total, returns, table_length, frame_length, reply_length) == number);
    CHECK(summed(total, returns, change));
    CHECK(filled(reply, sizeof reply, FILLER));
    CHECK(memcmp(table, expected, sizeof table) == 0);
    CHECK(same_tally(tally, before));
}

/* These numbers cannot be: with 108, which comes before all else, also the change is as it was. */
static void total_outside(int32_t total, uint16_t returns) {
    const uint16_t number = CAVERNLULL_TOTAL_OUTSIDE;
    totalling_refused(number, total, returns, 77, TABLE_BYTES, length_of(frame), CAVERNLULL_REPLY_ROOM);
    totalling_refused(number, total, returns, 77, TABLE_BYTES, 3, CAVERNLULL_REPLY_ROOM);
    totalling_refused(number, total, returns, 77, TABLE_BYTES - 1, length_of(frame), CAVERNLULL_REPLY_ROOM);
    totalling_refused(number, total, returns, 77, 0, 0, 0);
}

/* A return that is refused: with each number of the call the change is 0, and with 108 it is as it was. */
static void totalling_refusals(void) {
    put_lent(kept(9));
    write_return(borrower, kept(4));
    totalling_refused(CAVERNLULL_REPLY_BUFFER_SHORT, -7, 3, 0, 0, 3, CAVERNLULL_REPLY_ROOM - 1);
    totalling_refused(CAVERNLULL_TABLE_LENGTH, -7, 3, 0, TABLE_BYTES - 1, 3, CAVERNLULL_REPLY_ROOM);
    totalling_refused(CAVERNLULL_NO_FRAME, -7, 3, 0, TABLE_BYTES, 15, CAVERNLULL_REPLY_ROOM);
    start = SLOTS;
    totalling_refused(CAVERNLULL_START_OUTSIDE, -7, 3, 0, TABLE_BYTES, length_of(frame), CAVERNLULL_REPLY_ROOM);
    start = 0;
    tally.payload++;
    totalling_refused(CAVERNLULL_TALLY_DIFFERS, -7, 3, 0, TABLE_BYTES, length_of(frame), CAVERNLULL_REPLY_ROOM);
    tally.payload--;
    table[TABLE_BYTES - 1] = expected[TABLE_BYTES - 1] = 1; /* an empty slot with a byte set */
    totalling_refused(CAVERNLULL_TABLE_NOT_WELL_FORMED, -7, 3, 0, TABLE_BYTES, length_of(frame), CAVERNLULL_REPLY_ROOM);
    total_outside(0, CAVERNLULL_MOST_RETURNS);
    table[TABLE_BYTES - 1] = expected[TABLE_BYTES - 1] = 0;
    total_outside(0, CAVERNLULL_MOST_RETURNS);
    total_outside(0, 65535);
    total_outside(1, 0);
    total_outside(-1, 0);
    total_outside(CAVERNLULL_MOST_CHANGE + 1, 1);
    total_outside(-CAVERNLULL_MOST_CHANGE - 1, 1);
    total_outside(CAVERNLULL_MOST_CHANGE * 29999 + 1, 29999);
    total_outside(-CAVERNLULL_MOST_CHANGE * 29999 - 1, 29999);
    total_outside(LEAST, 29999);
    total_outside(GREATEST, 65535);
}

static void totals(void) {
    returns_totalled(kept(9), kept(4), 1, -5);
    returns_totalled(kept(9), kept(9), 1, 0);
    returns_totalled(kept(65535), kept(0), 1, -CAVERNLULL_MOST_CHANGE);
    returns_totalled(no_count, no_count, 0, 0);
    raise_totalled(kept(4), kept(9));
    raise_totalled(kept(0), kept(65535));
    raise_totalled(kept(9), no_count);
    raise_totalled(no_count, kept(9));
    returns_totalled(kept(10), kept(9), 1, -1);
    others_totalled();
    totalling_refusals();
    memset(table, 0, sizeof table);
    memset(expected, 0, sizeof expected);
    tally = expected_tally();
    tallied(2, 0, 0, 0, 0);
}

/* ---- rights without a hash: none is installed (PROFILE 5.2), and those that a card holds are used (PROFILE 2.9) */
/* The number that the writer gives for an installation with this many bytes of hashes, into this much room. */
static uint16_t write_hashes(size_t hashes_length, size_t room) {
    return cavernlull_write_request(CAVERNLULL_RIGHTS_INSTALLATION, course, none, key, 0, 0, 0, 0, hashes, hashes_length, payload,
                                    sizeof payload, frame, room);
}

/* An installation without a hash, by hand: the writer does not write it. */
static void write_without_hash(void) {
    static const uint8_t head[] = {0x22, 0x80, 0, 29 + sizeof payload};
    memcpy(frame, head, sizeof head);
    memcpy(frame + 4, course, sizeof course);
    memcpy(frame + 14, key, sizeof key);
    memset(frame + 30, 0, 3); /* no count, and the hash byte */
    memcpy(frame + 33, payload, sizeof payload);
}

static void installs_none_without_a_hash(void) {
    memset(frame, FILLER, sizeof frame);
    CHECK(write_hashes(0, sizeof frame) == CAVERNLULL_WRITER_FIELDS);
    CHECK(write_hashes(0, 0) == CAVERNLULL_WRITER_FIELDS);
    CHECK(filled(frame, sizeof frame, FILLER));
    write_without_hash();
    refused(CAVERNLULL_PARAMETER_FAILED); /* before the handle is looked for */
    write_plain(CAVERNLULL_INSTALLATION_SETUP, course, none, 300);
    put_reserved(0, course, 300);
    done();
    write_without_hash();
    refused(CAVERNLULL_PARAMETER_FAILED);
    tallied(1, 1, 0, 0, 0);
    frame[1] = 0; /* the front end: the MAC did not hold */
    refused(CAVERNLULL_FIELD_INTEGRITY_VERIFICATION_FAILED);
    CHECK(write_hashes(CAVERNLULL_HASH_BYTES, sizeof frame) == CAVERNLULL_DONE);
    put_right(ENABLED, course, no_count);
    expected[0] = ENABLED << 6 | 1 << 2;
    memset(expected + 31 + CAVERNLULL_HASH_BYTES, 0, CAVERNLULL_HASH_BYTES); /* it has one hash, not two */
    done();
    tallied(1, 0, 1, 0, 7);
}

/* The course without its hashes, in slot 0. */
static void put_old_right(enum place place, const uint8_t *handle) {
    put_right(place, handle, no_count);
    expected[0] = (uint8_t)(place << 6);
    memset(expected + 31, 0, sizeof hashes);
}

/* It is on the list of all handles, and on none by hash. */
static void lists_old_right(const uint8_t *handle) {
    lists(handle);
    write_list_by(0, sizeof hashes);
    call(CAVERNLULL_SUCCESS, none, 1);
    CHECK(fields[CAVERNLULL_REPLY_MORE] == 0 && fields[CAVERNLULL_REPLY_HANDLES] == 0);
}

static void retrieves_old_right(void) {
    uint8_t body[16 + 2 + 1 + sizeof payload] = {0};
    memcpy(body, key, sizeof key);
    memcpy(body + 19, payload, sizeof payload);
    write_plain(CAVERNLULL_RIGHTS_RETRIEVAL, borrower, course, 0);
    put_old_right(DISABLED, course);
    call(CAVERNLULL_SUCCESS, body, sizeof body);
    CHECK(fields[CAVERNLULL_REPLY_HASHES] == 0 && fields[CAVERNLULL_REPLY_PAYLOAD_LENGTH] == sizeof payload);
    CHECK(memcmp(reply + fields[CAVERNLULL_REPLY_PAYLOAD_AT], payload, sizeof payload) == 0);
}

/* Afterwards the card is empty. */
static void uses_old_rights(void) {
    put_old_right(ENABLED, course);
    memcpy(table, expected, sizeof table);
    tallied(1, 0, 1, 0, 7); /* hashes are not counted */
    listed("0 enabled 0 0 7\n1 empty 0 0 0\n");
    lists_old_right(course);
    write_plain(CAVERNLULL_REK_QUERY, course, borrower, 0);
    put_old_right(DISABLED, borrower);
    call(CAVERNLULL_SUCCESS, key, sizeof key);
    tallied(1, 0, 0, 1, 7);
    write_return(borrower, no_count);
    put_old_right(ENABLED, borrower);
    done();
    lists_old_right(borrower);
    retrieves_old_right();
    listed("0 disabled 0 0 7\n1 empty 0 0 0\n");
    write_plain(CAVERNLULL_RIGHTS_REMOVAL, course, none, 0);
    memset(expected, 0, sizeof expected);
    done();
    tallied(2, 0, 0, 0, 0);
}

/* ---- an old table, in which no count has a bit */
/* The turning gives this number, and leaves the table as it was. */
static void turning_leaves(uint16_t number, size_t table_length) {
    CHECK(cavernlull_turn(table, table_length) == number);
    CHECK(memcmp(table, expected, sizeof table) == 0);
}

/* A turning takes no tally, and changes no number of one; before it there is none. */
static void turns(void) {
    put_right(ENABLED, course, (struct count){9, 0});
    put_reserved(1, other, 1);
    memcpy(table, expected, sizeof table);
    listed_after("refused 103\n", "");
    no_tally(CAVERNLULL_TABLE_NOT_WELL_FORMED, TABLE_BYTES);
    turning_leaves(CAVERNLULL_TABLE_LENGTH, TABLE_BYTES - 1);
    turning_leaves(CAVERNLULL_TABLE_LENGTH, 0);
    table[TABLE_BYTES - 1] = expected[TABLE_BYTES - 1] = 1; /* a reserved slot with a byte set */
    turning_leaves(CAVERNLULL_TABLE_NOT_WELL_FORMED, TABLE_BYTES);
    table[TABLE_BYTES - 1] = expected[TABLE_BYTES - 1] = 0;
    CHECK(cavernlull_turn(table, sizeof table) == CAVERNLULL_DONE);
    put_right(ENABLED, course, kept(9));
    CHECK(memcmp(table, expected, sizeof table) == 0);
    turning_leaves(CAVERNLULL_TABLE_NOT_WELL_FORMED, TABLE_BYTES); /* it is turned already */
    listed("0 enabled 2 9 7\n1 reserved 0 0 1\n");
    CHECK(cavernlull_tally(table, sizeof table, &tally) == CAVERNLULL_DONE);
    tallied(0, 1, 1, 0, 7);
    lists(course);
    put_right(ENABLED, course, no_count);
    memcpy(table, expected, sizeof table);
    turning_leaves(CAVERNLULL_DONE, TABLE_BYTES); /* there is no count */
    tallied(0, 1, 1, 0, 7);
}

/* ---- what is no table has no tally; the card has a right and a reservation, as the turning left them */
static void tally_refusals(void) {
    no_tally(CAVERNLULL_TABLE_LENGTH, 0);
    no_tally(CAVERNLULL_TABLE_LENGTH, TABLE_BYTES - 1);
    table[TABLE_BYTES - 1] = expected[TABLE_BYTES - 1] = 1; /* a reserved slot with a byte set */
    no_tally(CAVERNLULL_TABLE_LENGTH, TABLE_BYTES - 1);
    no_tally(CAVERNLULL_TABLE_NOT_WELL_FORMED, TABLE_BYTES);
    table[TABLE_BYTES - 1] = expected[TABLE_BYTES - 1] = 0;
    memcpy(table + CAVERNLULL_SLOT_BYTES + 1, course, sizeof course); /* two records under one handle */
    memcpy(expected + CAVERNLULL_SLOT_BYTES + 1, course, sizeof course);
    no_tally(CAVERNLULL_TABLE_NOT_WELL_FORMED, TABLE_BYTES);
    put_reserved(1, other, 1);
    memcpy(table, expected, sizeof table);
}

/* ---- a refusal leaves all lent memory as it was */
static void call_refused(uint16_t number, size_t table_length, size_t frame_length, size_t reply_length) {
    struct cavernlull_tally before = tally;
    memset(reply, FILLER, sizeof reply);
    CHECK(cavernlull_call(table, table_length, &tally, start, frame, frame_length, reply, reply_length) == number);
    CHECK(filled(reply, sizeof reply, FILLER));
    CHECK(memcmp(table, expected, sizeof table) == 0);
    CHECK(same_tally(tally, before));
}

/* A tally that differs is refused after all else that is wrong with buffer, start and table, and before the frame. */
static void differs(void) {
    write_plain(CAVERNLULL_RIGHTS_REMOVAL, course, none, 0);
    call_refused(CAVERNLULL_REPLY_BUFFER_SHORT, TABLE_BYTES, 3, CAVERNLULL_REPLY_ROOM - 1);
    call_refused(CAVERNLULL_TABLE_LENGTH, TABLE_BYTES - 1, 3, CAVERNLULL_REPLY_ROOM);
    start = SLOTS;
    call_refused(CAVERNLULL_START_OUTSIDE, TABLE_BYTES, 3, CAVERNLULL_REPLY_ROOM);
    start = 0;
    table[TABLE_BYTES - 1] = expected[TABLE_BYTES - 1] = 1; /* a reserved slot with a byte set */
    call_refused(CAVERNLULL_TABLE_NOT_WELL_FORMED, TABLE_BYTES, 3, CAVERNLULL_REPLY_ROOM);
    table[TABLE_BYTES - 1] = expected[TABLE_BYTES - 1] = 0;
    call_refused(CAVERNLULL_TALLY_DIFFERS, TABLE_BYTES, 3, CAVERNLULL_REPLY_ROOM);
    call_refused(CAVERNLULL_TALLY_DIFFERS, TABLE_BYTES, length_of(frame), CAVERNLULL_REPLY_ROOM);
    write_list(0); /* a request that changes nothing */
    call_refused(CAVERNLULL_TALLY_DIFFERS, TABLE_BYTES, length_of(frame), CAVERNLULL_REPLY_ROOM);
}

static uint16_t *number_of(struct cavernlull_tally *one, int index) {
    uint16_t *const numbers[] = {&one->empty, &one->reserved, &one->enabled, &one->disabled, &one->payload};
    return numbers[index];
}

/* One number of the tally is another: by one, in its high byte, or at either end. */
static void number_differs(int index) {
    uint16_t *number = number_of(&tally, index), right = *number;
    const uint16_t others[] = {(uint16_t)(right + 1), (uint16_t)(right - 1), right ^ 0x100, right ^ 0xFFFF, 0, 0xFFFF};
    for (size_t i = 0; i < sizeof others / sizeof others[0]; i++) {
        if (others[i] == right) continue;
        *number = others[i];
        differs();
    }
    *number = right;
}

/* Afterwards the tally is worked out, and the card emptied. */
static void tallies_differ(void) {
    for (int index = 0; index < 5; index++) number_differs(index);
    tally = (struct cavernlull_tally){1, 0, 1, 0, 7}; /* as many slots, but one of them in another place */
    differs();
    CHECK(cavernlull_tally(table, sizeof table, &tally) == CAVERNLULL_DONE);
    tallied(0, 1, 1, 0, 7);
    write_plain(CAVERNLULL_RIGHTS_REMOVAL, course, none, 0);
    memset(expected, 0, CAVERNLULL_SLOT_BYTES);
    done();
    write_plain(CAVERNLULL_HANDLE_REMOVAL, other, none, 0);
    memset(expected, 0, sizeof expected);
    done();
    tallied(2, 0, 0, 0, 0);
}

/* ---- a damaged table (PROFILE 2.10); before and afterwards the card is empty */
/* The salvage gives this number, and leaves the table and all of the report buffer as they were. */
static void salvage_refused(uint16_t number, size_t table_length, size_t report_length) {
    uint8_t report[CAVERNLULL_MOST_SLOTS];
    memset(report, FILLER, sizeof report);
    CHECK(cavernlull_salvage(table, table_length, report, report_length) == number);
    CHECK(filled(report, sizeof report, FILLER));
    CHECK(memcmp(table, expected, sizeof table) == 0);
}

/* The salvage finds this of the two slots, clears those that are not kept, and leaves the rest of the report buffer. */
static void salvage_finds(uint8_t first, uint8_t second, size_t report_length) {
    uint8_t report[CAVERNLULL_MOST_SLOTS], found[SLOTS] = {first, second};
    uint16_t cleared = (first != CAVERNLULL_SLOT_KEPT) + (second != CAVERNLULL_SLOT_KEPT);
    memset(report, FILLER, sizeof report);
    CHECK(cavernlull_salvage(table, sizeof table, report, report_length) == cleared);
    CHECK(memcmp(report, found, SLOTS) == 0);
    CHECK(filled(report + SLOTS, sizeof report - SLOTS, FILLER));
    if (first != CAVERNLULL_SLOT_KEPT) memset(expected, 0, CAVERNLULL_SLOT_BYTES);
    if (second != CAVERNLULL_SLOT_KEPT) memset(expected + CAVERNLULL_SLOT_BYTES, 0, CAVERNLULL_SLOT_BYTES);
    CHECK(memcmp(table, expected, sizeof table) == 0);
}

/* A course in slot 0, and a reservation under `handle` in slot 1. In each slot byte 191 is 0, or makes it damaged. */
static void put_worn(uint8_t first, const uint8_t *handle, uint8_t second) {
    put_right(ENABLED, course, kept(9));
    put_reserved(1, handle, 300);
    expected[PAYLOAD_AT - 1] = first;
    expected[CAVERNLULL_SLOT_BYTES + PAYLOAD_AT - 1] = second;
    memcpy(table, expected, sizeof table);
}

/* What is found of the slots, with a buffer as long as it must be and with a longer one. A second run finds nothing. */
static void finds(void) {
    put_worn(0, other, 0);
    salvage_finds(CAVERNLULL_SLOT_KEPT, CAVERNLULL_SLOT_KEPT, SLOTS);
    put_worn(1, other, 0);
    salvage_finds(CAVERNLULL_SLOT_DAMAGED, CAVERNLULL_SLOT_KEPT, SLOTS);
    put_worn(1, other, 1);
    salvage_finds(CAVERNLULL_SLOT_DAMAGED, CAVERNLULL_SLOT_DAMAGED, SLOTS + 1);
    put_worn(0, course, 0); /* two records under one handle: the lower is kept */
    salvage_finds(CAVERNLULL_SLOT_KEPT, CAVERNLULL_SLOT_REPEATED, CAVERNLULL_MOST_SLOTS);
    put_worn(0, course, 1);
    salvage_finds(CAVERNLULL_SLOT_KEPT, CAVERNLULL_SLOT_DAMAGED, CAVERNLULL_MOST_SLOTS);
    salvage_finds(CAVERNLULL_SLOT_KEPT, CAVERNLULL_SLOT_KEPT, CAVERNLULL_MOST_SLOTS);
    put_worn(1, course, 0); /* a damaged slot makes no other a repeated one */
    salvage_finds(CAVERNLULL_SLOT_DAMAGED, CAVERNLULL_SLOT_KEPT, CAVERNLULL_MOST_SLOTS);
    salvage_finds(CAVERNLULL_SLOT_KEPT, CAVERNLULL_SLOT_KEPT, CAVERNLULL_MOST_SLOTS);
    listed("0 empty 0 0 0\n1 reserved 0 0 300\n");
    put_worn(0, other, 1);
    put_old_right(ENABLED, course); /* a right without a hash is in order */
    memcpy(table, expected, sizeof table);
    salvage_finds(CAVERNLULL_SLOT_KEPT, CAVERNLULL_SLOT_DAMAGED, SLOTS);
}

/* 102 is tested before 107. */
static void salvage_refusals(void) {
    put_worn(1, other, 1);
    for (size_t report_length = 0; report_length <= CAVERNLULL_MOST_SLOTS; report_length++) {
        salvage_refused(CAVERNLULL_TABLE_LENGTH, 0, report_length);
        salvage_refused(CAVERNLULL_TABLE_LENGTH, TABLE_BYTES - 1, report_length);
    }
    for (size_t report_length = 0; report_length < SLOTS; report_length++)
        salvage_refused(CAVERNLULL_REPORT_BUFFER_SHORT, TABLE_BYTES, report_length);
}

/* The course in slot 0 is lent and returned, another is installed in slot 1, which was cleared, and both are removed. */
static void uses_what_is_left(void) {
    write_plain(CAVERNLULL_REK_QUERY, course, borrower, 0);
    put_right(DISABLED, borrower, kept(9));
    call(CAVERNLULL_SUCCESS, key, sizeof key);
    write_return(borrower, kept(8));
    put_right(ENABLED, borrower, kept(8));
    done();
    write_plain(CAVERNLULL_INSTALLATION_SETUP, other, none, 300);
    put_reserved(1, other, 300);
    done();
    write_installation(other, kept(9));
    put_slot(1, ENABLED, other, kept(9), sizeof payload);
    done();
    tallied(0, 0, 2, 0, 14);
    write_plain(CAVERNLULL_RIGHTS_REMOVAL, other, none, 0);
    memset(expected + CAVERNLULL_SLOT_BYTES, 0, CAVERNLULL_SLOT_BYTES);
    done();
    write_plain(CAVERNLULL_RIGHTS_REMOVAL, borrower, none, 0);
    memset(expected, 0, sizeof expected);
    done();
    tallied(2, 0, 0, 0, 0);
}

/* The card is refused, salvaged and used again. The tally from before is not that of the table left. */
static void salvages(void) {
    salvage_refusals();
    finds();
    put_worn(0, other, 1);
    tally = (struct cavernlull_tally){0, 1, 1, 0, 7};
    write_list(0);
    call_refused(CAVERNLULL_TABLE_NOT_WELL_FORMED, TABLE_BYTES, length_of(frame), CAVERNLULL_REPLY_ROOM);
    salvage_finds(CAVERNLULL_SLOT_KEPT, CAVERNLULL_SLOT_DAMAGED, CAVERNLULL_MOST_SLOTS);
    call_refused(CAVERNLULL_TALLY_DIFFERS, TABLE_BYTES, length_of(frame), CAVERNLULL_REPLY_ROOM);
    CHECK(cavernlull_tally(table, sizeof table, &tally) == CAVERNLULL_DONE);
    tallied(1, 0, 1, 0, 7);
    uses_what_is_left();
}

static void call_refusals(void) {
    write_plain(CAVERNLULL_INSTALLATION_SETUP, course, none, 5);
    call_refused(CAVERNLULL_REPLY_BUFFER_SHORT, 1, 3, CAVERNLULL_REPLY_ROOM - 1);
    call_refused(CAVERNLULL_TABLE_LENGTH, 0, 3, CAVERNLULL_REPLY_ROOM);
    call_refused(CAVERNLULL_TABLE_LENGTH, TABLE_BYTES - 1, 16, CAVERNLULL_REPLY_ROOM);
    call_refused(CAVERNLULL_NO_FRAME, TABLE_BYTES, 3, CAVERNLULL_REPLY_ROOM);
    call_refused(CAVERNLULL_NO_FRAME, TABLE_BYTES, 15, CAVERNLULL_REPLY_ROOM);
    table[TABLE_BYTES - 1] = expected[TABLE_BYTES - 1] = 1; /* an empty slot with a byte set */
    call_refused(CAVERNLULL_TABLE_NOT_WELL_FORMED, TABLE_BYTES, 3, CAVERNLULL_REPLY_ROOM);
    table[TABLE_BYTES - 1] = expected[TABLE_BYTES - 1] = 0;
}

/* A start outside the card is refused after a short buffer and a table's length, and before all else, whatever the frame. */
static void start_refusals(void) {
    static const size_t outside[] = {SLOTS, SLOTS + 1, (size_t)1 << 32, (size_t)1 << 58, (size_t)-1};
    for (size_t i = 0; i < sizeof outside / sizeof outside[0]; i++) {
        start = outside[i];
        write_plain(CAVERNLULL_INSTALLATION_SETUP, course, none, 5);
        call_refused(CAVERNLULL_REPLY_BUFFER_SHORT, TABLE_BYTES, 16, CAVERNLULL_REPLY_ROOM - 1);
        call_refused(CAVERNLULL_TABLE_LENGTH, TABLE_BYTES - 1, 16, CAVERNLULL_REPLY_ROOM);
        call_refused(CAVERNLULL_START_OUTSIDE, TABLE_BYTES, 16, CAVERNLULL_REPLY_ROOM);
        call_refused(CAVERNLULL_START_OUTSIDE, TABLE_BYTES, 3, CAVERNLULL_REPLY_ROOM);
        write_list(0);
        call_refused(CAVERNLULL_START_OUTSIDE, TABLE_BYTES, length_of(frame), CAVERNLULL_REPLY_ROOM);
        table[TABLE_BYTES - 1] = expected[TABLE_BYTES - 1] = 1; /* an empty slot with a byte set */
        call_refused(CAVERNLULL_START_OUTSIDE, TABLE_BYTES, length_of(frame), CAVERNLULL_REPLY_ROOM);
        table[TABLE_BYTES - 1] = expected[TABLE_BYTES - 1] = 0;
    }
    start = 0;
}

/* A request of a kind with a handle, a count, its bit and a room, and with nothing else, into a buffer of 13 bytes. */
static uint16_t write_short(uint8_t kind, uint16_t count, uint8_t is_kept, uint16_t room) {
    return cavernlull_write_request(kind, course, none, none, room, count, is_kept, 0, none, 0, none, 0, frame, 13);
}

static void writer_refusals(void) {
    memset(frame, FILLER, sizeof frame);
    CHECK(write_short(CAVERNLULL_RIGHTS_REMOVAL, 0, 0, 0) == CAVERNLULL_WRITER_BUFFER_SHORT);
    CHECK(write_short(CAVERNLULL_RIGHTS_REMOVAL, 0, 0, 1) == CAVERNLULL_WRITER_FIELDS);
    CHECK(write_short(CAVERNLULL_RIGHTS_REMOVAL, 0, 1, 0) == CAVERNLULL_WRITER_FIELDS);
    CHECK(write_short(CAVERNLULL_RIGHTS_INSTALLATION, 0, 0, 0) == CAVERNLULL_WRITER_FIELDS);
    CHECK(write_short(10, 0, 0, 0) == CAVERNLULL_WRITER_FIELDS);
    CHECK(write_short(CAVERNLULL_RIGHTS_ENABLEMENT, 0, 0, 0) == CAVERNLULL_WRITER_BUFFER_SHORT);
    CHECK(write_short(CAVERNLULL_RIGHTS_ENABLEMENT, 0, 1, 0) == CAVERNLULL_WRITER_BUFFER_SHORT);
    CHECK(write_short(CAVERNLULL_RIGHTS_ENABLEMENT, 256, 1, 0) == CAVERNLULL_WRITER_BUFFER_SHORT);
    CHECK(write_short(CAVERNLULL_RIGHTS_ENABLEMENT, 256, 0, 0) == CAVERNLULL_WRITER_FIELDS);
    CHECK(write_short(CAVERNLULL_RIGHTS_ENABLEMENT, 0, 2, 0) == CAVERNLULL_WRITER_FIELDS);
    CHECK(filled(frame, sizeof frame, FILLER));
}

static void reader_refusals(void) {
    uint8_t same[CAVERNLULL_KEY_BYTES];
    memset(same, FILLER, sizeof same);
    memset(fields, FILLER, sizeof fields);
    for (uint8_t kind = 0; kind < 32; kind++) { /* 8 is no status, and no refusal has the bit of a count */
        CHECK(cavernlull_read_reply((const uint8_t[]){0x20 | kind, 8, 0, 0}, 4, same, fields) == CAVERNLULL_NO_REPLY);
        CHECK(cavernlull_read_reply((const uint8_t[]){0x20 | kind, 0x84, 0, 0}, 4, same, fields) == CAVERNLULL_NO_REPLY);
    }
    CHECK(cavernlull_read_reply((const uint8_t[]){0x21, 10, 0, 0}, 4, same, fields) == CAVERNLULL_NO_REPLY);
    CHECK(cavernlull_read_reply((const uint8_t[]){0x25, 9, 0, 1, 0}, 5, same, fields) == CAVERNLULL_NO_REPLY);
    CHECK(cavernlull_read_reply((const uint8_t[]){0x25, 0x89, 0, 0}, 4, same, fields) == CAVERNLULL_NO_REPLY);
    CHECK(cavernlull_read_reply((const uint8_t[]){0x25, 0x80, 0, 0}, 4, same, fields) == CAVERNLULL_NO_REPLY);
    CHECK(cavernlull_read_reply((const uint8_t[]){0x29, 0, 0, 3, 0, 1, 0}, 7, same, fields) == CAVERNLULL_NO_REPLY);
    CHECK(filled(same, sizeof same, FILLER) && fields[0] == 0xA5A5 && fields[CAVERNLULL_REPLY_NUMBERS - 1] == 0xA5A5);
}

/* Each status but 0 is read in a reply of any kind, those that there are not as well. */
static void reads_statuses(void) {
    static const uint8_t statuses[] = {1, 2, 3, 4, 5, 6, 7, 9};
    uint8_t read[CAVERNLULL_KEY_BYTES];
    for (uint8_t kind = 0; kind < 32; kind++)
        for (size_t i = 0; i < sizeof statuses; i++) {
            CHECK(cavernlull_read_reply((const uint8_t[]){0x20 | kind, statuses[i], 0, 0}, 4, read, fields) == CAVERNLULL_DONE);
            CHECK(fields[CAVERNLULL_REPLY_KIND] == kind && fields[CAVERNLULL_REPLY_STATUS] == statuses[i]);
        }
}

int main(void) {
    memset(key, KEY, sizeof key);
    memset(hashes, 0xA1, CAVERNLULL_HASH_BYTES);
    memset(hashes + CAVERNLULL_HASH_BYTES, 0xA2, CAVERNLULL_HASH_BYTES);
    installs();
    lists(course);
    lends();
    takes_back();
    lists(borrower);
    removes();
    starts();
    wears_alike();
    counts(kept(1), kept(0)); /* used up, and not free */
    counts(no_count, no_count);
    counts(kept(0xFFFF), kept(256));
    counts(kept(0), kept(0));
    totals();
    installs_none_without_a_hash();
    uses_old_rights();
    turns();
    tally_refusals();
    tallies_differ();
    salvages();
    call_refusals();
    start_refusals();
    writer_refusals();
    reader_refusals();
    reads_statuses();
    printf("ordinary: %d checks hold\n", checks);
    return 0;
}
