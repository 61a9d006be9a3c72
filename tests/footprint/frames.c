/* Functions with frames of known sizes, by which scripts/test-footprint tests scripts/footprint. The compiler takes a frame of more
 * than a page one page at a time, and one of many pages in a loop.
 */
void outside(unsigned char *bytes);

#define FRAME(name, size)            \
    void name(void) {                \
        unsigned char bytes[size];   \
        outside(bytes);              \
    }

FRAME(less_than_a_page, 100)
FRAME(more_than_a_page, 5000)
FRAME(some_pages, 20000)
FRAME(many_pages, 200000)

static __attribute__((noinline)) FRAME(deep, 70000)

/* Its deepest path is the one through `deep`. */
void two_frames(int deeper) {
    unsigned char bytes[200];
    outside(bytes);
    if (deeper) deep();
    outside(bytes);
}

/* The call, the totalling call and the salvage by their names alone, with frames that the test chooses. */
FRAME(cavernlull_call, CALL_FRAME)
FRAME(cavernlull_call_totalling, TOTALLING_FRAME)
FRAME(cavernlull_salvage, SALVAGE_FRAME)
