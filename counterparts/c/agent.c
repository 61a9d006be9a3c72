/* The card agent (docs/PROFILE.md) as a practised C programmer would write it for speed: zero checks that become vector code,
 * memcmp for handles and hashes, memcpy and memset for the rest. It is the bench's yardstick, and what the fuzz target
 * compares the proved agent with. Nothing about it is proved.
 *
 * It is compiled once for each compiler and optimisation level. AGENT names the call; the functions that work a tally out and
 * salvage a table have the same name with _tally and _salvage after it.
 */
#include "cavernlull.h" /* for the tally; nothing else of it is used */

#define JOINED(a, b) a##b
#define NAMED_AFTER(agent, end) JOINED(agent, end)

#define bool _Bool
#define true 1
#define false 0

/* Declared here as <string.h> declares them, so that no header of any machine is needed. */
int memcmp(const void *a, const void *b, size_t length);
void *memcpy(void *restrict to, const void *restrict from, size_t length);
void *memset(void *to, int byte, size_t length);

enum { SLOT = 4288, SLOTS = 15, HANDLE = 10, KEY = 16, HASH = 20, HASHES = 8, PAYLOAD = 4096, REPLY = 4279, BLOCK = 512 };
enum { AT_HANDLE = 1, AT_KEY = 11, AT_COUNT = 27, AT_LENGTH = 29, AT_HASHES = 31, AT_ZERO = 191, AT_PAYLOAD = 192 };
enum { EMPTY, RESERVED, ENABLED, DISABLED };
enum { SPARE = 0x01, KEPT = 0x02 }; /* bits of a slot's first byte; KEPT: a count is kept */
enum { SUCCESS, INTEGRITY, PARAMETER, UNSUPPORTED, NOT_FOUND, DUPLICATE, UNEXPECTED, NO_SPACE, RAISED = 9 };

/* ---- bytes */
static unsigned word(const uint8_t *s) { return (unsigned)s[0] << 8 | s[1]; }

static void put_word(uint8_t *s, unsigned n) {
    s[0] = (uint8_t)(n >> 8);
    s[1] = (uint8_t)n;
}

static bool zero_block(const uint8_t *s, size_t n) {
    uint8_t any = 0;
    for (size_t i = 0; i < n; i++) any |= s[i];
    return any == 0;
}

static bool all_zero(const uint8_t *s, size_t n) {
    for (; n >= BLOCK; s += BLOCK, n -= BLOCK)
        if (!zero_block(s, BLOCK)) return false;
    return zero_block(s, n);
}

/* ---- slots */
static unsigned place_of(const uint8_t *s) { return s[0] >> 6; }
static unsigned hashes_of(const uint8_t *s) { return s[0] >> 2 & 15; }

/* A count without its bit must be 0. */
static bool is_count(unsigned kept, const uint8_t *count) { return kept || word(count) == 0; }

static bool well_slot(const uint8_t *s) {
    unsigned place = place_of(s), hashes = hashes_of(s), length = word(s + AT_LENGTH);
    if (place == EMPTY) return all_zero(s, SLOT);
    if (hashes > HASHES || length == 0 || length > PAYLOAD || (s[0] & SPARE) || s[AT_ZERO]) return false;
    if (place == RESERVED)
        return s[0] == RESERVED << 6 && all_zero(s + AT_KEY, AT_LENGTH - AT_KEY) && all_zero(s + AT_HASHES, SLOT - AT_HASHES);
    if (!is_count(s[0] & KEPT, s + AT_COUNT)) return false;
    size_t used = AT_HASHES + HASH * hashes, end = AT_PAYLOAD + length;
    return all_zero(s + used, AT_ZERO - used) && all_zero(s + end, SLOT - end);
}

static bool under(const uint8_t *s, const uint8_t *handle) {
    return place_of(s) != EMPTY && memcmp(s + AT_HANDLE, handle, HANDLE) == 0;
}

/* The first slot under a handle, from slot `s` on; `end` where there is none. It may be changed where the table may be, as
 * with strchr. */
static uint8_t *find(const uint8_t *s, const uint8_t *end, const uint8_t *handle) {
    while (s < end && !under(s, handle)) s += SLOT;
    return (uint8_t *)s;
}

static bool distinct(const uint8_t *table, const uint8_t *end) {
    for (const uint8_t *s = table; s < end; s += SLOT)
        if (place_of(s) != EMPTY && find(s + SLOT, end, s + AT_HANDLE) < end) return false;
    return true;
}

/* ---- tallies (PROFILE 2.8) */
/* Whether each slot is well formed, and the tally of the table, if so. It is counted in the loop that has read place and length
 * anyway, with a byte of `slots` for each place. */
static bool count_well(const uint8_t *table, const uint8_t *end, struct cavernlull_tally *tally) {
    uint32_t slots = 0, payload = 0;
    for (const uint8_t *s = table; s < end; s += SLOT) {
        if (!well_slot(s)) return false;
        slots += 1u << 8 * place_of(s);
        payload += place_of(s) >= ENABLED ? word(s + AT_LENGTH) : 0;
    }
    *tally = (struct cavernlull_tally){slots & 255, slots >> 8 & 255, slots >> 16 & 255, slots >> 24, (uint16_t)payload};
    return true;
}

static bool same_tally(const struct cavernlull_tally *a, const struct cavernlull_tally *b) {
    return a->empty == b->empty && a->reserved == b->reserved && a->enabled == b->enabled && a->disabled == b->disabled &&
           a->payload == b->payload;
}

/* Brings a tally up to date for a record that is cleared. */
static void take_off(struct cavernlull_tally *t, const uint8_t *s) {
    t->empty++;
    if (place_of(s) == RESERVED) {
        t->reserved--;
        return;
    }
    if (place_of(s) == ENABLED) t->enabled--;
    else t->disabled--;
    t->payload = (uint16_t)(t->payload - word(s + AT_LENGTH));
}

/* ---- requests */
static unsigned zero_bits(unsigned kind) { return kind == 2 || kind == 5 ? 0x3f : 0x7f; }

/* The count's bit of a request, as a slot has it. */
static unsigned kept_asked(const uint8_t *frame) { return frame[1] >> 5 & KEPT; }

static unsigned length_status(unsigned kind, size_t n) {
    static const uint8_t sizes[10] = {0, 12, 0, 20, 20, 12, 10, 10, 0, 10};
    if (kind < 1 || kind > 9) return UNSUPPORTED;
    if (kind == 2) return n < 30 ? PARAMETER : SUCCESS;
    if (kind == 8) return n < 3 ? PARAMETER : SUCCESS;
    return n == sizes[kind] ? SUCCESS : PARAMETER;
}

static unsigned field_status(unsigned kind, unsigned kept, const uint8_t *body, size_t n) {
    if (kind == 2) {
        size_t hashes = body[28] >> 4, used = 29 + HASH * hashes;
        if (!is_count(kept, body + HANDLE + KEY)) return PARAMETER;
        if (hashes == 0 || hashes > HASHES || (body[28] & 15)) return PARAMETER;
        return n <= used || n - used > PAYLOAD ? PARAMETER : SUCCESS;
    }
    if (kind == 5) return is_count(kept, body + HANDLE) ? SUCCESS : PARAMETER;
    if (kind == 8) return body[2] > HASHES || n != 3 + HASH * (size_t)body[2] ? PARAMETER : SUCCESS;
    return SUCCESS;
}

static unsigned request_status(const uint8_t *frame, size_t n) {
    unsigned kind = frame[0] & 31, status;
    if (frame[0] >> 5 != 1 || (frame[1] & zero_bits(kind))) return PARAMETER;
    if ((status = length_status(kind, n - 4)) != SUCCESS) return status;
    if (kind <= 7 && frame[1] < 128) return INTEGRITY;
    return field_status(kind, kept_asked(frame), frame + 4, n - 4);
}

/* ---- replies */
/* The count's bit of a slot, as a reply has it. */
static unsigned kept_told(const uint8_t *s) { return s[0] << 6 & 128; }

static void reply_head(uint8_t *reply, unsigned kind, unsigned status, size_t body) {
    reply[0] = (uint8_t)(1 << 5 | kind);
    reply[1] = (uint8_t)status;
    put_word(reply + 2, (unsigned)body);
}

static size_t put_right(uint8_t *body, const uint8_t *s) {
    size_t hashes = HASH * hashes_of(s), length = word(s + AT_LENGTH);
    memcpy(body, s + AT_KEY, KEY + 2);
    body[18] = (uint8_t)(hashes_of(s) << 4);
    memcpy(body + 19, s + AT_HASHES, hashes);
    memcpy(body + 19 + hashes, s + AT_PAYLOAD, length);
    return 19 + hashes + length;
}

/* ---- what each kind does: it gives a status and, at success, brings the tally up to date and sets the length of the body
 * that it wrote, and the count's bit of the reply */
struct call {
    uint8_t *table, *start, *end, *reply;
    struct cavernlull_tally *tally;
    const uint8_t *body;
    size_t n, given;
    unsigned kept, told;
};

/* The first empty slot from slot `s` on; `end` where there is none. */
static uint8_t *find_empty(uint8_t *s, const uint8_t *end) {
    while (s < end && place_of(s) != EMPTY) s += SLOT;
    return s;
}

static unsigned set_up(struct call *c) {
    unsigned length = word(c->body + HANDLE);
    if (length == 0) return PARAMETER;
    if (find(c->table, c->end, c->body) < c->end) return DUPLICATE;
    uint8_t *s = find_empty(c->start, c->end);
    if (s == c->end) s = find_empty(c->table, c->start);
    if (length > PAYLOAD || place_of(s) != EMPTY) return NO_SPACE;
    s[0] = RESERVED << 6;
    memcpy(s + AT_HANDLE, c->body, HANDLE);
    put_word(s + AT_LENGTH, length);
    c->tally->empty--;
    c->tally->reserved++;
    return SUCCESS;
}

static unsigned install(struct call *c, uint8_t *s) {
    unsigned hashes = c->body[28] >> 4;
    size_t length = c->n - 29 - HASH * hashes;
    if (place_of(s) != RESERVED) return UNEXPECTED;
    if (length > word(s + AT_LENGTH)) return NO_SPACE;
    s[0] = (uint8_t)(ENABLED << 6 | hashes << 2 | c->kept);
    memcpy(s + AT_KEY, c->body + HANDLE, KEY + 2);
    put_word(s + AT_LENGTH, (unsigned)length);
    memcpy(s + AT_HASHES, c->body + 29, HASH * hashes);
    memcpy(s + AT_PAYLOAD, c->body + 29 + HASH * hashes, length);
    c->tally->reserved--;
    c->tally->enabled++;
    c->tally->payload = (uint16_t)(c->tally->payload + length);
    return SUCCESS;
}

static unsigned lend(struct call *c, uint8_t *s, bool whole) {
    if (place_of(s) != ENABLED) return UNEXPECTED;
    if (find(c->table, c->end, c->body + HANDLE) < c->end) return DUPLICATE;
    if (whole) {
        c->given = put_right(c->reply + 4, s);
        c->told = kept_told(s);
    } else {
        memcpy(c->reply + 4, s + AT_KEY, KEY);
        c->given = KEY;
    }
    s[0] |= DISABLED << 6;
    memcpy(s + AT_HANDLE, c->body + HANDLE, HANDLE);
    c->tally->enabled--;
    c->tally->disabled++;
    return SUCCESS;
}

/* Whether the count sent raises that of a slot. Where neither is kept, both numbers are 0. */
static bool raises(const struct call *c, const uint8_t *s) {
    return c->kept != (s[0] & KEPT) || word(c->body + HANDLE) > word(s + AT_COUNT);
}

static unsigned enable(struct call *c, uint8_t *s) {
    if (place_of(s) == RESERVED) return UNEXPECTED;
    if (place_of(s) == DISABLED) {
        if (raises(c, s)) return RAISED;
        s[0] ^= (ENABLED ^ DISABLED) << 6; /* the count's bit is what it was */
        memcpy(s + AT_COUNT, c->body + HANDLE, 2);
        c->tally->disabled--;
        c->tally->enabled++;
    }
    return SUCCESS;
}

static unsigned clear(struct call *c, uint8_t *s, bool reserved) {
    if ((place_of(s) == RESERVED) != reserved) return UNEXPECTED;
    take_off(c->tally, s);
    memset(s, 0, SLOT);
    return SUCCESS;
}

static unsigned inform(struct call *c, const uint8_t *s) {
    if (place_of(s) != ENABLED) return UNEXPECTED;
    size_t length = word(s + AT_LENGTH);
    memcpy(c->reply + 4, s + AT_COUNT, 2);
    memcpy(c->reply + 6, s + AT_PAYLOAD, length);
    c->given = 2 + length;
    c->told = kept_told(s);
    return SUCCESS;
}

static bool has_some(const uint8_t *s, const uint8_t *asked, unsigned n) {
    for (unsigned i = 0; i < hashes_of(s); i++)
        for (unsigned k = 0; k < n; k++)
            if (memcmp(s + AT_HASHES + HASH * i, asked + HASH * k, HASH) == 0) return true;
    return false;
}

static unsigned list(struct call *c) {
    unsigned limit = word(c->body), most = limit == 0 ? SLOTS : limit / HANDLE, found = 0;
    for (const uint8_t *s = c->table; s < c->end; s += SLOT) {
        if (place_of(s) != ENABLED || (c->body[2] != 0 && !has_some(s, c->body + 3, c->body[2]))) continue;
        if (found < most) memcpy(c->reply + 5 + HANDLE * found, s + AT_HANDLE, HANDLE);
        found++;
    }
    c->reply[4] = found > most ? 128 : 0;
    c->given = 1 + HANDLE * (found > most ? most : found);
    return SUCCESS;
}

static unsigned serve(struct call *c, unsigned kind) {
    if (kind == 1) return set_up(c);
    if (kind == 8) return list(c);
    uint8_t *s = find(c->table, c->end, c->body);
    if (s == c->end) return NOT_FOUND;
    switch (kind) {
    case 2: return install(c, s);
    case 3: return lend(c, s, true);
    case 4: return lend(c, s, false);
    case 5: return enable(c, s);
    case 6: return clear(c, s, false);
    case 7: return clear(c, s, true);
    default: return inform(c, s);
    }
}

/* ---- salvages (PROFILE 2.10) */
enum { IN_ORDER, DAMAGED, REPEATED };

/* What is found of slot `s`, where those below it, from `table` on, have been salvaged: a damaged one among them is empty by now. */
static uint8_t found(const uint8_t *table, const uint8_t *s) {
    if (!well_slot(s)) return DAMAGED;
    return place_of(s) != EMPTY && find(table, s, s + AT_HANDLE) < s ? REPEATED : IN_ORDER;
}

/* ---- the three functions */
static bool whole_slots(size_t size) { return size != 0 && size % SLOT == 0 && size <= SLOTS * SLOT; }

uint16_t AGENT(uint8_t *table, size_t size, struct cavernlull_tally *tally, size_t start, const uint8_t *frame, size_t n,
               uint8_t *reply, size_t room) {
    if (room < REPLY) return 101;
    if (!whole_slots(size)) return 102;
    if (start >= size / SLOT) return 105;
    struct cavernlull_tally fresh;
    if (!count_well(table, table + size, &fresh) || !distinct(table, table + size)) return 103;
    if (!same_tally(tally, &fresh)) return 106;
    if (n < 4 || n - 4 != word(frame + 2)) return 104;
    struct call c = {table, table + SLOT * start, table + size, reply, tally, frame + 4, n - 4, 0, kept_asked(frame), 0};
    unsigned status = request_status(frame, n);
    if (status == SUCCESS) status = serve(&c, frame[0] & 31);
    reply_head(reply, frame[0] & 31, status | c.told, status == SUCCESS ? c.given : 0);
    return 0;
}

uint16_t NAMED_AFTER(AGENT, _tally)(const uint8_t *table, size_t size, struct cavernlull_tally *tally) {
    if (!whole_slots(size)) return 102;
    struct cavernlull_tally fresh;
    if (!count_well(table, table + size, &fresh) || !distinct(table, table + size)) return 103;
    *tally = fresh;
    return 0;
}

uint16_t NAMED_AFTER(AGENT, _salvage)(uint8_t *table, size_t size, uint8_t *report, size_t room) {
    if (!whole_slots(size)) return 102;
    if (room < size / SLOT) return 107;
    uint16_t cleared = 0;
    for (uint8_t *s = table; s < table + size; s += SLOT, report++) {
        *report = found(table, s);
        if (*report == IN_ORDER) continue;
        memset(s, 0, SLOT);
        cleared++;
    }
    return cleared;
}
