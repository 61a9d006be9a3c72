/* Calls the functions of libcavernlull.a as commands on standard input tell it, and writes the outcomes to standard output.
 *
 * A command is one byte and its arguments. Numbers have 32 bits, the low byte first; a start has 64, in the same order. A
 * string is its length, as a number, and its bytes.
 *
 *   command  arguments                                           answer
 *   t        string table                                        none: the table that is lent from here on
 *   c        start, strings tally (10 bytes), frame, reply       number, strings tally, reply and table, as cavernlull_call
 *                                                                left them
 *   o        start, strings tally (10 bytes), frame, reply,      number, strings tally, reply, table, total, returns and
 *            total (4 bytes), returns (2 bytes), change          change, as cavernlull_call_totalling left them
 *            (4 bytes)
 *   a        string tally (10 bytes)                             number, string tally, as cavernlull_tally left it
 *   w        numbers kind, room, count, kept, limit; strings     number, string out, as cavernlull_write_request left it
 *            handle, new handle, key, hashes, payload, out
 *   r        strings frame, key, fields (22 bytes)               number, strings key and fields, as cavernlull_read_reply
 *                                                                left them
 *   l        string out (406 bytes)                              number, string out, as cavernlull_list left it
 *   u        none                                                number, string table, as cavernlull_turn left it
 *   s        string report                                       number, strings report and table, as cavernlull_salvage
 *                                                                left them
 *
 * Every string is lent so that it ends where memory ends: an access to the byte after it is a fault. A tally, the fields of
 * a reply and the returns are 16-bit numbers, the low byte first; their lengths are even, so they are aligned where they end. So
 * are total and change, which are signed numbers of 32 bits, the low byte first.
 * It ends with status 0 at the end of the input, and with 2 where the input is not a command or is too long.
 *
 * It is freestanding, so that the compiler and the linker are all that building it needs.
 */
#include "cavernlull.h"

enum { CALL_READ = 0, CALL_WRITE = 1, CALL_MPROTECT = 10, CALL_EXIT = 60 };

static long system_call(long number, long a, long b, long c) {
    long given;
    __asm__ volatile("syscall" : "=a"(given) : "a"(number), "D"(a), "S"(b), "d"(c) : "rcx", "r11", "memory");
    return given;
}

static _Noreturn void leave(int status) {
    for (;;) system_call(CALL_EXIT, status, 0, 0);
}

/* What the archive needs. With -ffreestanding the compiler does not turn these loops into calls of themselves. */
void *memcpy(void *restrict to, const void *restrict from, size_t length) {
    uint8_t *restrict d = to;
    const uint8_t *restrict s = from;
    for (size_t i = 0; i < length; i++) d[i] = s[i];
    return to;
}

void *memset(void *to, int byte, size_t length) {
    uint8_t *d = to;
    for (size_t i = 0; i < length; i++) d[i] = (uint8_t)byte;
    return to;
}

/* ---- input and output, through buffers; all output is sent before it waits for more input */
enum { BUFFER = 1 << 18 };

static uint8_t input[BUFFER], output[BUFFER];
static size_t taken, filled, held;

static void flush(void) {
    for (size_t sent = 0; sent < held;) {
        long n = system_call(CALL_WRITE, 1, (long)(output + sent), (long)(held - sent));
        if (n <= 0) leave(2);
        sent += (size_t)n;
    }
    held = 0;
}

/* Fills the input buffer again; gives 0 at the end of the input. */
static int refill(void) {
    flush();
    long n = system_call(CALL_READ, 0, (long)input, BUFFER);
    if (n < 0) leave(2);
    taken = 0;
    filled = (size_t)n;
    return n > 0;
}

static void take(uint8_t *to, size_t length) {
    while (length > 0) {
        if (taken == filled && !refill()) leave(2);
        size_t n = filled - taken < length ? filled - taken : length;
        memcpy(to, input + taken, n);
        taken += n;
        to += n;
        length -= n;
    }
}

static void give(const uint8_t *from, size_t length) {
    while (length > 0) {
        if (held == BUFFER) flush();
        size_t n = BUFFER - held < length ? BUFFER - held : length;
        memcpy(output + held, from, n);
        held += n;
        from += n;
        length -= n;
    }
}

static uint32_t take_number(void) {
    uint8_t b[4];
    take(b, 4);
    return (uint32_t)b[0] | (uint32_t)b[1] << 8 | (uint32_t)b[2] << 16 | (uint32_t)b[3] << 24;
}

static size_t take_start(void) {
    size_t low = take_number();
    return low | (size_t)take_number() << 32;
}

static void give_number(uint32_t n) {
    uint8_t b[4] = {(uint8_t)n, (uint8_t)(n >> 8), (uint8_t)(n >> 16), (uint8_t)(n >> 24)};
    give(b, 4);
}

/* ---- memory to lend */
enum { ROOM = 1 << 17, PAGE = 1 << 16 };

/* ROOM bytes, and after them a page that can be neither read nor written. */
struct area {
    _Alignas(PAGE) uint8_t bytes[ROOM];
    _Alignas(PAGE) uint8_t wall[PAGE];
};

/* The last `length` bytes of an area. */
struct lent {
    uint8_t *at;
    size_t length;
};

static void wall_off(struct area *area) {
    if (system_call(CALL_MPROTECT, (long)area->wall, PAGE, 0) != 0) leave(2);
}

static struct lent take_string(struct area *area) {
    size_t length = take_number();
    if (length > ROOM) leave(2);
    struct lent lent = {area->bytes + ROOM - length, length};
    take(lent.at, lent.length);
    return lent;
}

/* A string of this length: an array, which is lent without its length. */
static struct lent take_array(struct area *area, size_t length) {
    struct lent lent = take_string(area);
    if (lent.length != length) leave(2);
    return lent;
}

/* A tally ends at a multiple of PAGE, so it is aligned if it is its five numbers and nothing more. */
_Static_assert(sizeof(struct cavernlull_tally) == 5 * sizeof(uint16_t), "a tally is its five numbers");
_Static_assert(_Alignof(struct cavernlull_tally) == sizeof(uint16_t), "a tally is aligned as one of its numbers");

static struct lent take_tally(struct area *area) {
    return take_array(area, sizeof(struct cavernlull_tally));
}

static struct cavernlull_tally *tally_in(struct lent lent) {
    return (struct cavernlull_tally *)(void *)lent.at;
}

static void give_string(struct lent lent) {
    give_number((uint32_t)lent.length);
    give(lent.at, lent.length);
}

/* ---- the commands */
static struct area table_area, areas[6];
static struct lent table = {table_area.wall, 0};

static void call(void) {
    size_t start = take_start();
    struct lent tally = take_tally(&areas[0]);
    struct lent frame = take_string(&areas[1]);
    struct lent reply = take_string(&areas[2]);
    give_number(cavernlull_call(table.at, table.length, tally_in(tally), start, frame.at, frame.length, reply.at,
                                reply.length));
    give_string(tally);
    give_string(reply);
    give_string(table);
}

static void call_totalling(void) {
    size_t start = take_start();
    struct lent tally = take_tally(&areas[0]);
    struct lent frame = take_string(&areas[1]);
    struct lent reply = take_string(&areas[2]);
    struct lent total = take_array(&areas[3], sizeof(int32_t));
    struct lent returns = take_array(&areas[4], sizeof(uint16_t));
    struct lent change = take_array(&areas[5], sizeof(int32_t));
    give_number(cavernlull_call_totalling(table.at, table.length, tally_in(tally), start, frame.at, frame.length, reply.at,
                                          reply.length, (int32_t *)(void *)total.at, (uint16_t *)(void *)returns.at,
                                          (int32_t *)(void *)change.at));
    give_string(tally);
    give_string(reply);
    give_string(table);
    give_string(total);
    give_string(returns);
    give_string(change);
}

static void work_out(void) {
    struct lent tally = take_tally(&areas[0]);
    give_number(cavernlull_tally(table.at, table.length, tally_in(tally)));
    give_string(tally);
}

static void write_request(void) {
    uint8_t kind = (uint8_t)take_number();
    uint16_t room = (uint16_t)take_number(), count = (uint16_t)take_number();
    uint8_t kept = (uint8_t)take_number();
    uint16_t limit = (uint16_t)take_number();
    struct lent handle = take_array(&areas[0], CAVERNLULL_HANDLE_BYTES);
    struct lent new_handle = take_array(&areas[1], CAVERNLULL_HANDLE_BYTES);
    struct lent key = take_array(&areas[2], CAVERNLULL_KEY_BYTES);
    struct lent hashes = take_string(&areas[3]);
    struct lent payload = take_string(&areas[4]);
    struct lent out = take_string(&areas[5]);
    give_number(cavernlull_write_request(kind, handle.at, new_handle.at, key.at, room, count, kept, limit, hashes.at,
                                         hashes.length, payload.at, payload.length, out.at, out.length));
    give_string(out);
}

static void read_reply(void) {
    struct lent frame = take_string(&areas[0]);
    struct lent key = take_array(&areas[1], CAVERNLULL_KEY_BYTES);
    struct lent fields = take_array(&areas[2], CAVERNLULL_REPLY_NUMBERS * sizeof(uint16_t));
    give_number(cavernlull_read_reply(frame.at, frame.length, key.at, (uint16_t *)(void *)fields.at));
    give_string(key);
    give_string(fields);
}

static void list(void) {
    struct lent out = take_array(&areas[0], CAVERNLULL_LISTING_ROOM);
    give_number((uint32_t)cavernlull_list(table.at, table.length, out.at));
    give_string(out);
}

static void turn(void) {
    give_number(cavernlull_turn(table.at, table.length));
    give_string(table);
}

static void salvage(void) {
    struct lent report = take_string(&areas[0]);
    give_number(cavernlull_salvage(table.at, table.length, report.at, report.length));
    give_string(report);
    give_string(table);
}

static _Noreturn __attribute__((used)) void run(void) {
    wall_off(&table_area);
    for (size_t i = 0; i < sizeof areas / sizeof areas[0]; i++) wall_off(&areas[i]);
    while (taken < filled || refill()) {
        switch (input[taken++]) {
        case 't': table = take_string(&table_area); break;
        case 'c': call(); break;
        case 'o': call_totalling(); break;
        case 'a': work_out(); break;
        case 'w': write_request(); break;
        case 'r': read_reply(); break;
        case 'l': list(); break;
        case 'u': turn(); break;
        case 's': salvage(); break;
        default: leave(2);
        }
    }
    leave(0);
}

__attribute__((naked)) void _start(void) {
    __asm__("xor %ebp, %ebp\n\tcall run\n\thlt");
}
