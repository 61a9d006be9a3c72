/* A coverage-guided fuzz target for the exported functions. An input is a program: the length of the table and whether it holds
 * rights without a hash, and then what is done with it: requests of every kind and frames of any bytes, each with a tally and
 * from a start, changes to the table, turnings, salvages, and tallies worked out. After each call the number, the reply buffer, the
 * table and the tally must be those of the agent in C (counterparts/c/agent.c), and so must a tally that is worked out, and number,
 * report buffer and table of a salvage; each call is made as a totalling call too, on copies and with totals that can be or
 * cannot, and must give the same, with the change and the totals that are worked out below; no return may raise a count, begin one
 * or end one; a table that was salvaged must have a tally, and nothing to clear; after each turning, number and table must be those
 * of the turning below; every request that is written must have the kind and the count's bit asked for, and the verdict 1; no
 * installation may be written without a hash; and every reply must be one that the reply reader takes.
 *
 * All memory is lent in allocations of exactly its length, so that the address sanitiser sees any access outside it.
 */
#include <stdint.h>
#include <stdlib.h>
#include <string.h>

#include "cavernlull.h"

uint16_t c_agent(uint8_t *, size_t, struct cavernlull_tally *, size_t, const uint8_t *, size_t, uint8_t *, size_t);
uint16_t c_agent_tally(const uint8_t *, size_t, struct cavernlull_tally *);
uint16_t c_agent_salvage(uint8_t *, size_t, uint8_t *, size_t);

enum { SLOT = CAVERNLULL_SLOT_BYTES, HANDLE = CAVERNLULL_HANDLE_BYTES, HASH = CAVERNLULL_HASH_BYTES };

/* ---- the input, taken from the front; after its end come zeros */
struct input {
    const uint8_t *at;
    size_t left;
};

static uint8_t take(struct input *in) {
    if (in->left == 0) return 0;
    in->left--;
    return *in->at++;
}

static uint16_t take_word(struct input *in) {
    uint16_t high = take(in);
    return (uint16_t)(high << 8 | take(in));
}

/* A length: a small one, one near 4,096 or 4,279, or any other. */
static uint16_t take_length(struct input *in) {
    uint8_t how = take(in);
    if (how < 160) return how;
    if (how < 200) return (uint16_t)(4096 - 20 + how - 160);
    if (how < 240) return (uint16_t)(4279 - 20 + how - 200);
    return take_word(in);
}

static uint8_t *lent(size_t length, uint8_t byte) {
    uint8_t *s = malloc(length ? length : 1);
    if (!s) abort();
    memset(s, byte, length);
    return s;
}

static void *lent_copy(const void *bytes, size_t length) {
    uint8_t *s = lent(length, 0);
    return length ? memcpy(s, bytes, length) : s;
}

static void same(const void *a, const void *b, size_t length) {
    if (memcmp(a, b, length) != 0) abort();
}

/* ---- the table, and an equal one lent to the agent in C; and the tally kept beside them, which a change to the table can
 * make a wrong one */
struct tables {
    uint8_t *ours, *theirs;
    size_t length;
    struct cavernlull_tally tally;
};

/* ---- tallies */
static struct cavernlull_tally *lent_tally(const struct cavernlull_tally *tally) {
    return lent_copy(tally, sizeof *tally);
}

/* The tally that is kept, as a rule, else one that has another number: one more, one less, or any. */
static struct cavernlull_tally take_tally(struct input *in, const struct tables *t) {
    struct cavernlull_tally tally = t->tally;
    uint16_t *numbers[] = {&tally.empty, &tally.reserved, &tally.enabled, &tally.disabled, &tally.payload};
    uint8_t how = take(in);
    uint16_t *number = numbers[how % 5];
    if (how >= 250) *number = take_word(in);
    else if (how >= 235) ++*number;
    else if (how >= 220) --*number;
    return tally;
}

/* Works the tally out, which is kept from then on; where there is none, the five numbers are still what they were. Gives the
 * number. */
static uint16_t work_out(struct tables *t) {
    struct cavernlull_tally *ours = lent_tally(&t->tally), *theirs = lent_tally(&t->tally);
    uint16_t number = cavernlull_tally(t->ours, t->length, ours);
    if (number != c_agent_tally(t->theirs, t->length, theirs)) abort();
    same(ours, theirs, sizeof *ours);
    if (number != 0) same(ours, &t->tally, sizeof *ours);
    same(t->ours, t->theirs, t->length);
    t->tally = *ours;
    free(ours);
    free(theirs);
    return number;
}

/* ---- totals: those that can be, with any change */
struct sums {
    int32_t total, change;
    uint16_t returns;
};

/* A total that is a sum of few or of nearly 30,000 returns as a rule, at either end or between them, else one that is outside by
 * one, or any numbers. */
static struct sums take_sums(struct input *in) {
    uint8_t how = take(in), few = take(in);
    uint16_t returns = how < 200 ? few : how < 240 ? (uint16_t)(29984 + few % 17) : take_word(in);
    int64_t most = (int64_t)CAVERNLULL_MOST_CHANGE * returns, part = most ? take_word(in) % (most + 1) : 0;
    int64_t totals[] = {most, -most, part, -part, most + 1, -most - 1, (int64_t)take_word(in) << 16 | take_word(in), 0};
    return (struct sums){(int32_t)totals[how & 7], (int32_t)take_word(in) - 32768, returns};
}

static int sums_hold(const struct sums *s) {
    int64_t most = (int64_t)CAVERNLULL_MOST_CHANGE * s->returns;
    return s->returns < CAVERNLULL_MOST_RETURNS && s->total <= most && s->total >= -most;
}

/* ---- calls */
struct beside {
    struct cavernlull_tally tally;
    size_t start;
    struct sums sums;
};

/* A start: a slot of the table as a rule, else a number up to 15, or one with its low bits or its high bits 0. */
static size_t take_start(struct input *in, const struct tables *t) {
    size_t how = take(in), slots = t->length / SLOT;
    if (how < 224 && slots > 0) return how % slots;
    if (how < 240) return how % 16;
    return (size_t)take_word(in) << 4 * (how - 240);
}

/* What a call is handed beside table, frame and reply buffer. */
static struct beside take_beside(struct input *in, const struct tables *t) {
    struct beside b = {take_tally(in, t), 0, {0, 0, 0}};
    b.start = take_start(in, t);
    b.sums = take_sums(in);
    return b;
}

static void must_read(const uint8_t *reply) {
    uint8_t key[CAVERNLULL_KEY_BYTES];
    uint16_t fields[CAVERNLULL_REPLY_NUMBERS];
    if (cavernlull_read_reply(reply, 4 + (size_t)(reply[2] << 8 | reply[3]), key, fields) != 0) abort();
    if (fields[CAVERNLULL_REPLY_STATUS] != (reply[1] & 127)) abort();
    if (fields[CAVERNLULL_REPLY_KEPT] != reply[1] >> 7) abort();
}

/* A totalling call, made on copies of what a call is made with: the table before it, and what it was lent. */
struct totalled {
    uint8_t *before, *table, *reply;
    struct cavernlull_tally *tally;
    int32_t *total, *change;
    uint16_t *returns, number;
};

static struct totalled call_totalling(const struct tables *t, const struct beside *b, const uint8_t *frame, size_t length,
                                      size_t room) {
    struct totalled c = {lent_copy(t->ours, t->length), lent_copy(t->ours, t->length), lent(room, 0xa5), lent_tally(&b->tally),
                         lent_copy(&b->sums.total, sizeof b->sums.total), lent_copy(&b->sums.change, sizeof b->sums.change),
                         lent_copy(&b->sums.returns, sizeof b->sums.returns), 0};
    c.number = cavernlull_call_totalling(c.table, t->length, c.tally, b->start, frame, length, c.reply, room, c.total, c.returns,
                                         c.change);
    return c;
}

static void free_totalled(struct totalled *c) {
    free(c->before);
    free(c->table);
    free(c->reply);
    free(c->tally);
    free(c->total);
    free(c->change);
    free(c->returns);
}

/* The record under the handle of a return that was a success: the table before it has one. */
static const uint8_t *record_of(const uint8_t *table, size_t length, const uint8_t *frame) {
    for (size_t at = 0; at < length; at += SLOT)
        if (table[at] != 0 && memcmp(table + at + 1, frame + 4, HANDLE) == 0) return table + at;
    abort();
}

/* Whether the count of a return raises that of its record (PROFILE 5.5). */
static int raises(const uint8_t *record, const uint8_t *frame) {
    int stored = (record[0] & CAVERNLULL_KEPT_IN_SLOT) != 0, sent = (frame[1] & CAVERNLULL_KEPT_IN_REQUEST) != 0;
    return stored != sent || memcmp(frame + 14, record + 27, 2) > 0;
}

/* Adds what a call with a reply did to the count (PROFILE 4.4). */
static void add_change(struct sums *s, const uint8_t *table, size_t length, const uint8_t *frame, const uint8_t *reply) {
    s->change = 0;
    if ((frame[0] & 31) != CAVERNLULL_RIGHTS_ENABLEMENT || reply[1] != CAVERNLULL_SUCCESS) return;
    const uint8_t *record = record_of(table, length, frame);
    if (record[0] >> 6 != 3) return;
    if (raises(record, frame)) abort();
    if (!(record[0] & CAVERNLULL_KEPT_IN_SLOT)) return;
    s->change = (frame[14] << 8 | frame[15]) - (record[27] << 8 | record[28]);
    s->total += s->change;
    s->returns++;
}

/* A totalling call must have done what the call did, of which these are number, reply buffer and tally, and must have added its
 * change; with 108 it must have done nothing. */
static void must_total(const struct totalled *c, const struct tables *t, const struct beside *b, const uint8_t *frame,
                       uint16_t number, const uint8_t *reply, size_t room, const struct cavernlull_tally *tally) {
    struct sums sums = b->sums;
    if (sums_hold(&sums)) {
        if (c->number != number) abort();
        same(c->reply, reply, room);
        same(c->table, t->ours, t->length);
        same(c->tally, tally, sizeof *tally);
        if (number == 0) add_change(&sums, c->before, t->length, frame, reply);
        else sums.change = 0;
    } else {
        if (c->number != CAVERNLULL_TOTAL_OUTSIDE) abort();
        for (size_t i = 0; i < room; i++)
            if (c->reply[i] != 0xa5) abort();
        same(c->table, c->before, t->length);
        same(c->tally, &b->tally, sizeof *tally);
    }
    if (*c->total != sums.total || *c->returns != sums.returns || *c->change != sums.change) abort();
}

static void call(struct tables *t, const struct beside *b, const uint8_t *bytes, size_t length, size_t room) {
    uint8_t *frame = lent_copy(bytes, length), *reply = lent(room, 0xa5), *other = lent(room, 0xa5);
    struct cavernlull_tally *ours = lent_tally(&b->tally), *theirs = lent_tally(&b->tally);
    struct totalled totalled = call_totalling(t, b, frame, length, room);
    uint16_t number = cavernlull_call(t->ours, t->length, ours, b->start, frame, length, reply, room);
    if (number != c_agent(t->theirs, t->length, theirs, b->start, frame, length, other, room)) abort();
    same(reply, other, room);
    same(t->ours, t->theirs, t->length);
    same(ours, theirs, sizeof *ours);
    must_total(&totalled, t, b, frame, number, reply, room, ours);
    free_totalled(&totalled);
    if (number == 0) {
        must_read(reply);
        t->tally = *ours;
    } else same(ours, &b->tally, sizeof *ours);
    free(frame);
    free(reply);
    free(other);
    free(ours);
    free(theirs);
}

/* ---- the turning, written plainly */
static int zeros(const uint8_t *s, size_t from, size_t to) {
    for (size_t i = from; i < to; i++)
        if (s[i] != 0) return 0;
    return 1;
}

static int well_by_old_rules(const uint8_t *s) {
    unsigned place = s[0] >> 6, hashes = s[0] >> 2 & 15, length = (unsigned)(s[29] << 8 | s[30]);
    if (place == 0) return zeros(s, 0, SLOT);
    if ((s[0] & 3) != 0 || hashes > 8 || length < 1 || length > 4096) return 0;
    if (place == 1) return hashes == 0 && zeros(s, 11, 29) && zeros(s, 31, SLOT);
    return zeros(s, 31 + HASH * hashes, 192) && zeros(s, 192 + length, SLOT);
}

/* Whether a record before offset `at` has the handle of the record there. */
static int has_handle_before(const uint8_t *table, size_t at) {
    for (size_t i = 0; i < at; i += SLOT)
        if (table[i] >> 6 != 0 && table[at] >> 6 != 0 && memcmp(table + i + 1, table + at + 1, HANDLE) == 0) return 1;
    return 0;
}

static int is_old_table(const uint8_t *table, size_t length) {
    for (size_t at = 0; at < length; at += SLOT)
        if (!well_by_old_rules(table + at) || has_handle_before(table, at)) return 0;
    return 1;
}

static uint16_t plain_turn(uint8_t *table, size_t length) {
    if (length == 0 || length % SLOT != 0 || length / SLOT > CAVERNLULL_MOST_SLOTS) return CAVERNLULL_TABLE_LENGTH;
    if (!is_old_table(table, length)) return CAVERNLULL_TABLE_NOT_WELL_FORMED;
    for (size_t at = 0; at < length; at += SLOT)
        if (!zeros(table + at, 27, 29)) table[at] |= CAVERNLULL_KEPT_IN_SLOT;
    return CAVERNLULL_DONE;
}

/* ---- what an input can do */
static void any_frame(struct input *in, struct tables *t) {
    struct beside b = take_beside(in, t);
    size_t length = take(in);
    if (length > in->left) length = in->left;
    call(t, &b, in->at, length, CAVERNLULL_REPLY_ROOM);
    in->at += length;
    in->left -= length;
}

/* The input itself as a frame, and a reply buffer of any length. */
static void whole_input(struct input *in, struct tables *t, const uint8_t *bytes, size_t length) {
    struct beside b = take_beside(in, t);
    call(t, &b, bytes, length, take_length(in));
}

/* The fields of a request; those that its kind lacks stay blank. */
struct fields {
    const uint8_t *handle, *other, *key;
    uint16_t room, count, limit;
    uint8_t kept;
    size_t hashes, payload;
};

static uint8_t payload[65535], hashes[9 * HASH], out[70000];

/* Writes a request, and gives whether the writer takes it. */
static int written(unsigned kind, const struct fields *f) {
    if (cavernlull_write_request((uint8_t)kind, f->handle, f->other, f->key, f->room, f->count, f->kept, f->limit, hashes,
                                 f->hashes, payload, f->payload, out, sizeof out) != 0) return 0;
    if (f->kept > 1 || (f->count != 0 && f->kept == 0)) abort();
    if ((out[0] & 31) != kind || out[1] != (f->kept ? 0x80 | CAVERNLULL_KEPT_IN_REQUEST : 0x80)) abort();
    return 1;
}

/* Writes an installation without a hash: the writer refuses it, so it is written with one, which is taken off. */
static int written_without_hash(struct fields f) {
    if (written(CAVERNLULL_RIGHTS_INSTALLATION, &f)) abort();
    f.hashes = HASH;
    if (!written(CAVERNLULL_RIGHTS_INSTALLATION, &f)) return 0;
    size_t length = 29 + f.payload;
    out[2] = (uint8_t)(length >> 8);
    out[3] = (uint8_t)length;
    out[4 + 28] = 0;
    memcpy(out + 4 + 29, payload, f.payload);
    return 1;
}

/* A request of a kind, about few handles and few hashes. */
static void request(struct input *in, struct tables *t, unsigned kind) {
    static const uint8_t none[16];
    uint8_t names = take(in), handle[HANDLE], other[HANDLE];
    memset(handle, names & 3, HANDLE);
    memset(other, names >> 2 & 3, HANDLE);
    for (size_t i = 0; i < sizeof hashes; i++) hashes[i] = (uint8_t)(i / HASH + (names >> 6));
    size_t listed = (names >> 4 & 3) * HASH;
    uint16_t n = take_length(in), count = take_word(in);
    uint8_t kept = take(in) % 3; /* 2 is refused */
    memset(payload, (int)count, n);
    struct fields f = {handle, none, none, 0, 0, 0, 0, 0, 0};
    switch (kind) {
    case 1: f.room = n; break;
    case 2: f.key = payload; f.count = count; f.kept = kept; f.hashes = listed; f.payload = n; break;
    case 3:
    case 4: f.other = other; break;
    case 5: f.count = count; f.kept = kept; break;
    case 8: f.handle = none; f.limit = n; f.hashes = listed; break;
    }
    int has_hash = kind != CAVERNLULL_RIGHTS_INSTALLATION || f.hashes != 0;
    if (!(has_hash ? written(kind, &f) : written_without_hash(f))) return;
    struct beside b = take_beside(in, t);
    call(t, &b, out, 4 + (size_t)(out[2] << 8 | out[3]), CAVERNLULL_REPLY_ROOM + (names & 1));
}

/* Gives a slot the handle of another one. */
static void copy_handle(struct tables *t, size_t to, size_t from) {
    size_t slots = t->length / SLOT;
    if (slots == 0) return;
    size_t at = to % slots * SLOT + 1, other = from % slots * SLOT + 1;
    memmove(t->ours + at, t->ours + other, HANDLE);
    memmove(t->theirs + at, t->theirs + other, HANDLE);
}

/* Changes the table: a handle, a byte that a rule is about, or any byte. */
static void change(struct input *in, struct tables *t) {
    static const uint16_t offsets[] = {0, 1, 10, 11, 27, 28, 29, 30, 31, 50, 51, 190, 191, 192, 4286, 4287};
    size_t slot = take(in) % 16, where = take(in), at = slot * SLOT;
    if (where >= 128) {
        copy_handle(t, slot, where);
        return;
    }
    at += where < sizeof offsets / sizeof offsets[0] ? offsets[where] : take_word(in) % SLOT;
    uint8_t byte = take(in);
    if (at < t->length) t->ours[at] = t->theirs[at] = byte;
}

/* Makes the table one of before the bit: no count has it. */
static void age(struct tables *t) {
    for (size_t at = 0; at < t->length; at += SLOT) t->ours[at] = t->theirs[at] &= (uint8_t)~CAVERNLULL_KEPT_IN_SLOT;
}

static void turn(struct input *in, struct tables *t) {
    if (take(in) & 1) age(t);
    if (cavernlull_turn(t->ours, t->length) != plain_turn(t->theirs, t->length)) abort();
    same(t->ours, t->theirs, t->length);
}

/* Salvages both tables, and gives the number. */
static uint16_t salvaged(struct tables *t, size_t room) {
    uint8_t *ours = lent(room, 0xa5), *theirs = lent(room, 0xa5);
    uint16_t number = cavernlull_salvage(t->ours, t->length, ours, room);
    if (number != c_agent_salvage(t->theirs, t->length, theirs, room)) abort();
    same(ours, theirs, room);
    same(t->ours, t->theirs, t->length);
    free(ours);
    free(theirs);
    return number;
}

/* Puts bytes of the input over those of the table, from any offset on. */
static void wear(struct input *in, struct tables *t) {
    size_t at = take(in) % 16 * SLOT + take_length(in) % SLOT, length = take(in);
    for (; length > 0 && at < t->length; length--, at++) t->ours[at] = t->theirs[at] = take(in);
}

/* Damages the table, or not, and salvages it, with a report buffer of a byte for each slot or some more, as a rule, else of any
 * length that a table could ask for. What is left is well formed, and a second salvage clears nothing of it. */
static void salvage(struct input *in, struct tables *t) {
    uint8_t how = take(in), slots = take(in);
    if (how & 1) wear(in, t);
    if (how & 2) copy_handle(t, slots >> 4, slots & 15);
    size_t room = how < 224 ? t->length / SLOT + (how >> 2 & 3) : how >> 2 & 15;
    if (salvaged(t, room) > CAVERNLULL_MOST_SLOTS) return;
    if (salvaged(t, room) != 0 || work_out(t) != 0) abort();
}

static void list(struct tables *t) {
    uint8_t *out = lent(CAVERNLULL_LISTING_ROOM, 0xa5);
    size_t length = cavernlull_list(t->ours, t->length, out);
    if (length == 0 || length > CAVERNLULL_LISTING_ROOM || out[length - 1] != '\n') abort();
    free(out);
}

static void any_reply(struct input *in) {
    size_t length = take(in);
    if (length > in->left) length = in->left;
    uint8_t *frame = lent(length, 0), key[CAVERNLULL_KEY_BYTES] = {0};
    uint16_t fields[CAVERNLULL_REPLY_NUMBERS] = {0};
    if (length) memcpy(frame, in->at, length);
    uint16_t number = cavernlull_read_reply(frame, length, key, fields);
    if (number != 0 && number != CAVERNLULL_NO_REPLY) abort();
    in->at += length;
    in->left -= length;
    free(frame);
}

/* Puts rights without a hash (PROFILE 2.9) into the first three slots of a blank table, under handles that requests are about: the
 * second one is lent, and keeps a count if `kept` is not 0. No call brings such a right. */
static void put_old_rights(struct tables *t, int kept, uint16_t count) {
    for (size_t i = 0; i < 3 && (i + 1) * SLOT <= t->length; i++) {
        uint8_t *s = t->ours + i * SLOT;
        s[0] = i == 1 ? 0xc0 : 0x80;
        memset(s + 1, (int)i, HANDLE);
        memset(s + 11, 7, CAVERNLULL_KEY_BYTES);
        if (i == 1 && kept) {
            s[0] |= CAVERNLULL_KEPT_IN_SLOT;
            s[27] = (uint8_t)(count >> 8);
            s[28] = (uint8_t)count;
        }
        s[30] = 1;
        s[192] = 7;
    }
    memcpy(t->theirs, t->ours, t->length);
    work_out(t);
}

int LLVMFuzzerTestOneInput(const uint8_t *bytes, size_t length) {
    struct input in = {bytes, length};
    uint8_t slots = take(&in);
    size_t size = (size_t)(slots & 15) * SLOT + (slots >> 4 == 15 ? take(&in) : 0);
    struct tables t = {lent(size, 0), lent(size, 0), size, {(uint16_t)(size / SLOT), 0, 0, 0, 0}};
    if (slots >> 4 == 12 || slots >> 4 == 15) put_old_rights(&t, 0, 0);
    else if (slots >> 4 >= 10) put_old_rights(&t, 1, take_word(&in));
    for (unsigned steps = 0; in.left > 0 && steps < 64; steps++) {
        uint8_t what = take(&in) % 17;
        if (what >= 1 && what <= 9) request(&in, &t, what);
        else if (what == 10) change(&in, &t);
        else if (what == 11) list(&t);
        else if (what == 12) any_reply(&in);
        else if (what == 13) whole_input(&in, &t, bytes, length);
        else if (what == 14) turn(&in, &t);
        else if (what == 15) work_out(&t);
        else if (what == 16) salvage(&in, &t);
        else any_frame(&in, &t);
    }
    free(t.ours);
    free(t.theirs);
    return 0;
}
