/* Measures how much stack the call, the totalling call and the salvage really take, on the tables and requests of the bench: each is
 * made on a stack of its own, which was filled with one byte before, and the deepest byte that is another afterwards is looked for.
 * Prints a line for each of the three functions, with its name and the most that it took, or 0 where it gave another number than it
 * should. What memcpy and memset take is counted too; the parameters that a caller hands over on the stack, the last two of the call
 * and the last five of the totalling call, are not.
 */
#include <stdio.h>
#include <string.h>

#include "cavernlull.h"
#include "scenarios.h"

/* The bytes that the call's last two parameters take, and those that the totalling call's last five take, with 8 above them: with
 * these the stack is aligned. */
enum { PAINT = 0xa5, HANDED_OVER = 16, HANDED_OVER_TOTALLING = 48 };

static struct scenario scenario;
static uint8_t table[TABLE], reply[REPLY], report[SLOTS];
static struct cavernlull_tally tally;
static int32_t total, change;
static uint16_t returns;
static uint8_t stack[64 * 1024] __attribute__((aligned(16)));
uint8_t *const stack_end = stack + sizeof stack;

/* cavernlull_call, cavernlull_call_totalling and cavernlull_salvage with their own parameters, on that stack. */
uint16_t call_on_stack(uint8_t *, size_t, struct cavernlull_tally *, size_t, const uint8_t *, size_t, uint8_t *, size_t);
uint16_t totalling_on_stack(uint8_t *, size_t, struct cavernlull_tally *, size_t, const uint8_t *, size_t, uint8_t *, size_t, int32_t *,
                            uint16_t *, int32_t *);
uint16_t salvage_on_stack(uint8_t *, size_t, uint8_t *, size_t);
__asm__(".globl call_on_stack\n"
        "call_on_stack:\n"
        "    pushq %rbp\n"
        "    movq %rsp, %rbp\n"
        "    movq stack_end(%rip), %rsp\n"
        "    pushq 24(%rbp)\n"
        "    pushq 16(%rbp)\n"
        "    call cavernlull_call@PLT\n"
        "    movq %rbp, %rsp\n"
        "    popq %rbp\n"
        "    ret\n"
        ".globl totalling_on_stack\n"
        "totalling_on_stack:\n"
        "    pushq %rbp\n"
        "    movq %rsp, %rbp\n"
        "    movq stack_end(%rip), %rsp\n"
        "    subq $8, %rsp\n"
        "    pushq 48(%rbp)\n"
        "    pushq 40(%rbp)\n"
        "    pushq 32(%rbp)\n"
        "    pushq 24(%rbp)\n"
        "    pushq 16(%rbp)\n"
        "    call cavernlull_call_totalling@PLT\n"
        "    movq %rbp, %rsp\n"
        "    popq %rbp\n"
        "    ret\n"
        ".globl salvage_on_stack\n"
        "salvage_on_stack:\n"
        "    pushq %rbp\n"
        "    movq %rsp, %rbp\n"
        "    movq stack_end(%rip), %rsp\n"
        "    call cavernlull_salvage@PLT\n"
        "    movq %rbp, %rsp\n"
        "    popq %rbp\n"
        "    ret\n");

/* What one of the functions took at most, and how often it gave another number than it should. */
struct taken {
    size_t most;
    unsigned strays;
};

static struct taken calls, totallings, salvages;

static void paint(void) { memset(stack, PAINT, sizeof stack); }

/* Looks at the stack after a call that gave a number. */
static void look(struct taken *t, size_t handed_over, int as_it_should) {
    size_t untouched = 0;
    while (untouched < sizeof stack && stack[untouched] == PAINT) untouched++;
    size_t bytes = sizeof stack - handed_over - untouched;
    if (bytes > t->most) t->most = bytes;
    if (!as_it_should) t->strays++;
}

static void call(const struct step *step) {
    paint();
    uint16_t number = call_on_stack(table, TABLE, &tally, scenario.start, step->frame, step->length, reply, REPLY);
    look(&calls, HANDED_OVER, number == scenario.number);
}

/* Every return of the bench hands back the count that was lent, so that each change is 0, and so is the total. */
static void call_totalling(const struct step *step) {
    change = 1;
    paint();
    uint16_t number = totalling_on_stack(table, TABLE, &tally, scenario.start, step->frame, step->length, reply, REPLY, &total, &returns,
                                         &change);
    look(&totallings, HANDED_OVER_TOTALLING, number == scenario.number && change == 0 && total == 0);
}

/* Makes all requests of the scenario by one of the two. */
static void call_all(void (*one)(const struct step *)) {
    memcpy(table, scenario.table, TABLE);
    tally = scenario.tally;
    for (size_t i = 0; i < scenario.count; i++) one(&scenario.steps[i]);
}

/* Salvages the table of the scenario, after all slots got this byte from one offset to another. */
static void salvage(size_t from, size_t to, uint8_t byte, uint16_t cleared) {
    memcpy(table, scenario.table, TABLE);
    for (size_t at = 0; at < TABLE; at += SLOT) memset(table + at + from, byte, to - from);
    paint();
    uint16_t number = salvage_on_stack(table, TABLE, report, SLOTS);
    look(&salvages, 0, number == cleared);
}

/* The table as it is, with every slot damaged, and with one handle in all slots: an empty one is damaged then. */
static void salvage_all(void) {
    int blank = scenario.tally.empty == SLOTS;
    salvage(0, 0, 0, scenario.number == 103);
    salvage(191, 192, 1, SLOTS);
    salvage(1, 11, 7, blank ? SLOTS : SLOTS - 1);
}

static void print(const char *name, struct taken t) { printf("%s %zu\n", name, t.strays == 0 ? t.most : 0); }

int main(void) {
    for (unsigned index = 0; make_scenario(&scenario, index); index++) {
        call_all(call);
        call_all(call_totalling);
        salvage_all();
    }
    print("cavernlull_call", calls);
    print("cavernlull_call_totalling", totallings);
    print("cavernlull_salvage", salvages);
    return 0;
}
