/* The tables and requests that are measured. Their bytes are random, from a fixed seed. This file needs only memcpy and memset,
 * so that it can be built for another machine too.
 */
#include "scenarios.h"

void *memcpy(void *restrict to, const void *restrict from, size_t length);
void *memset(void *to, int byte, size_t length);

static unsigned long long state;

static uint8_t byte(void) {
    state ^= state << 13;
    state ^= state >> 7;
    state ^= state << 17;
    return (uint8_t)(state >> 32);
}

static void random_bytes(uint8_t *s, size_t length) {
    for (size_t i = 0; i < length; i++) s[i] = byte();
}

/* ---- tables */
enum { RESERVED = 1, ENABLED = 2, KEPT = 0x02 };

/* A reservation, or a right that keeps a count. */
static void put_slot(uint8_t *s, int place, unsigned hashes, size_t length) {
    random_bytes(s + 1, 10);
    s[0] = (uint8_t)(place << 6 | hashes << 2 | (place == RESERVED ? 0 : KEPT));
    s[29] = (uint8_t)(length >> 8);
    s[30] = (uint8_t)length;
    if (place == RESERVED) return;
    random_bytes(s + 11, 18);
    random_bytes(s + 31, 20 * hashes);
    random_bytes(s + 192, length);
}

/* The tally of the table (PROFILE 2.8). */
static struct cavernlull_tally counted(const uint8_t *table) {
    struct cavernlull_tally t = {0, 0, 0, 0, 0};
    for (const uint8_t *s = table; s < table + TABLE; s += SLOT) {
        uint16_t *of_place[] = {&t.empty, &t.reserved, &t.enabled, &t.disabled};
        ++*of_place[s[0] >> 6];
        if (s[0] >> 6 >= ENABLED) t.payload = (uint16_t)(t.payload + (s[29] << 8 | s[30]));
    }
    return t;
}

static void reserve(struct scenario *s) {
    for (unsigned i = 0; i < SLOTS; i++) put_slot(s->table + SLOT * i, RESERVED, 0, 4096);
}

/* Fills slots with rights of two hashes each. */
static void fill(struct scenario *s, unsigned slots, size_t length) {
    for (unsigned i = 0; i < slots; i++) put_slot(s->table + SLOT * i, ENABLED, 2, length);
}

/* The same, but the slot before the start is empty: a setup comes to it last. */
static void fill_but_the_last_searched(struct scenario *s, size_t length) {
    s->start = 7;
    fill(s, SLOTS, length);
    memset(s->table + SLOT * 6, 0, SLOT);
}

static void fill_with_hashes(struct scenario *s) {
    for (unsigned i = 0; i < SLOTS; i++) put_slot(s->table + SLOT * i, ENABLED, 8, 100);
}

/* Fills all slots, under handles that differ in one of their ten bytes. */
static void fill_under_like_handles(struct scenario *s, size_t length, unsigned but) {
    fill(s, SLOTS, length);
    for (unsigned i = 0; i < SLOTS; i++) {
        memset(s->table + SLOT * i + 1, 7, 10);
        s->table[SLOT * i + 1 + but] = (uint8_t)i;
    }
}

/* ---- requests, with the verdict 1; those that have a count keep it */
static void ask(struct scenario *s, unsigned kind, const uint8_t *body, size_t length) {
    struct step *step = &s->steps[s->count++];
    step->length = 4 + length;
    step->frame[0] = (uint8_t)(1 << 5 | kind);
    step->frame[1] = kind == 2 || kind == 5 ? 0xc0 : 0x80;
    step->frame[2] = (uint8_t)(length >> 8);
    step->frame[3] = (uint8_t)length;
    memcpy(step->frame + 4, body, length);
}

static void ask_list(struct scenario *s) { ask(s, 8, (const uint8_t[]){0, 0, 0}, 3); }

/* A query with eight hashes that no record has. */
static void ask_list_of_others(struct scenario *s) {
    uint8_t body[3 + 160] = {0, 0, 8};
    random_bytes(body + 3, 160);
    ask(s, 8, body, sizeof body);
}

static void ask_under(struct scenario *s, unsigned kind, const uint8_t *handle, const uint8_t *more, size_t length) {
    uint8_t body[20];
    memcpy(body, handle, 10);
    memcpy(body + 10, more, length);
    ask(s, kind, body, 10 + length);
}

/* Lends the right in the middle under a new handle and returns it, and then the same under its old handle. */
static void ask_to_lend(struct scenario *s) {
    uint8_t old[10], new[10];
    const uint8_t count[2] = {0, 9};
    memcpy(old, s->table + SLOT * 7 + 1, 10);
    random_bytes(new, 10);
    memcpy(s->table + SLOT * 7 + 27, count, 2);
    ask_under(s, 4, old, new, 10);
    ask_under(s, 5, new, count, 2);
    ask_under(s, 4, new, old, 10);
    ask_under(s, 5, old, count, 2);
}

/* Sets up, installs, retrieves and removes a right of one hash and 4,096 bytes. */
static void ask_to_install(struct scenario *s) {
    static uint8_t body[29 + 20 + 4096];
    uint8_t old[10], new[10];
    random_bytes(old, 10);
    random_bytes(new, 10);
    ask_under(s, 1, old, (const uint8_t[]){16, 0}, 2);
    memcpy(body, old, 10);
    random_bytes(body + 10, sizeof body - 10);
    body[28] = 1 << 4;
    ask(s, 2, body, sizeof body);
    ask_under(s, 3, old, new, 10);
    ask_under(s, 6, new, new, 0);
}

/* A query that is refused for the last byte of the table, or for a tally with one payload byte too few. */
static void ask_to_be_refused(struct scenario *s, uint16_t number) {
    s->number = number;
    if (number == 103) s->table[TABLE - 1] = 1;
    ask_list(s);
}

/* Lays out the table and the requests of the scenario of this index, if it is among these: those with random handles whose requests
 * are carried out. */
static int lay_out(struct scenario *s, unsigned index) {
    switch (index) {
    case 0: s->name = "blank, list query"; ask_list(s); break;
    case 1: s->name = "full, 100 bytes each, list query"; fill(s, 15, 100); ask_list(s); break;
    case 2: s->name = "full, 100 bytes each, REK query and return"; fill(s, 15, 100); ask_to_lend(s); break;
    case 3: s->name = "full, 2,013 bytes each, REK query and return"; fill(s, 15, 2013); ask_to_lend(s); break;
    case 4: s->name = "full, 4,096 bytes each, REK query and return"; fill(s, 15, 4096); ask_to_lend(s); break;
    case 5: s->name = "15 reservations, list query"; reserve(s); ask_list(s); break;
    case 6: s->name = "set-up to removal of 4,096 bytes, with 14 of 100"; fill(s, 14, 100); ask_to_install(s); break;
    case 7:
        s->name = "set-up to removal of 4,096 bytes, with 14 of 100, from slot 7 round to slot 6";
        fill_but_the_last_searched(s, 100);
        ask_to_install(s);
        break;
    case 8: s->name = "full, 8 hashes each, list query of 8 others"; fill_with_hashes(s); ask_list_of_others(s); break;
    default: return 0;
    }
    return 1;
}

/* The same for a query that is refused, and for handles that are alike. */
static int lay_out_refused_or_alike(struct scenario *s, unsigned index) {
    switch (index) {
    case 9:
        s->name = "full, 100 bytes each, refused with 103 at the last byte";
        fill(s, 15, 100);
        ask_to_be_refused(s, 103);
        break;
    case 10:
        s->name = "full, 100 bytes each, refused with 106 for one payload byte";
        fill(s, 15, 100);
        ask_to_be_refused(s, 106);
        break;
    case 11:
        s->name = "full, 100 bytes each, handles that differ in the last byte, list query";
        fill_under_like_handles(s, 100, 9);
        ask_list(s);
        break;
    case 12:
        s->name = "full, 100 bytes each, handles that differ in the last byte but one, list query";
        fill_under_like_handles(s, 100, 8);
        ask_list(s);
        break;
    case 13:
        s->name = "full, 100 bytes each, handles that differ in the last byte but two, list query";
        fill_under_like_handles(s, 100, 7);
        ask_list(s);
        break;
    default: return 0;
    }
    return 1;
}

int make_scenario(struct scenario *s, unsigned index) {
    memset(s, 0, sizeof *s);
    state = 0x9e3779b97f4a7c15;
    if (!lay_out(s, index) && !lay_out_refused_or_alike(s, index)) return 0;
    s->tally = counted(s->table);
    if (s->number == 106) s->tally.payload--;
    return 1;
}
