/* Measures the proved call, the totalling call, and the call's counterparts in C and Rust, in one run.
 *
 * It prints a line for each scenario: the proved call's time, its ratios to the others' times, and its ratio to the time that
 * reading the table takes. The agents take turns within each round, and each round gives one ratio, so that whatever else the
 * machine does in that time slows all of them alike. Before anything is timed, every agent must give the same numbers, replies,
 * tables and tallies.
 */
#define _POSIX_C_SOURCE 200809L
#include <stdio.h>
#include <stdlib.h>
#include <string.h>
#include <time.h>

#include "agents.h"
#include "scenarios.h"

enum { ROUNDS = 301, ROUND_NS = 60000 };

uint8_t reads(const uint8_t *s, size_t length);

static struct scenario scenario;
static uint8_t table[TABLE], reply[REPLY];
static struct cavernlull_tally tally; /* kept beside the table, as a caller keeps it */

/* Makes the calls of the scenario once. */
static uint16_t cycle(agent_function *call) {
    uint16_t number = 0;
    for (size_t i = 0; i < scenario.count; i++) {
        const struct step *step = &scenario.steps[i];
        number |= call(table, TABLE, &tally, scenario.start, step->frame, step->length, reply, REPLY);
    }
    return number;
}

/* ---- that all agents do the same */
static struct left {
    uint8_t table[TABLE], reply[REPLY];
    struct cavernlull_tally tally, tallies[MOST_STEPS]; /* at the end, and after each call */
} left[2];

static int same_tally(const struct cavernlull_tally *a, const struct cavernlull_tally *b) {
    return a->empty == b->empty && a->reserved == b->reserved && a->enabled == b->enabled && a->disabled == b->disabled &&
           a->payload == b->payload;
}

/* Makes the calls of the scenario, and gives whether they do what it says. */
static int made(agent_function *call, struct left *l) {
    memcpy(l->table, scenario.table, TABLE);
    memset(l->reply, 0xa5, REPLY);
    l->tally = scenario.tally;
    for (size_t i = 0; i < scenario.count; i++) {
        const struct step *step = &scenario.steps[i];
        uint16_t number = call(l->table, TABLE, &l->tally, scenario.start, step->frame, step->length, l->reply, REPLY);
        unsigned status = l->reply[1] & 0x7f; /* beside the bit of a kept count */
        if (number != scenario.number || (number == 0 && status != 0)) return 0;
        l->tallies[i] = l->tally;
    }
    return memcmp(l->table, scenario.table, TABLE) == 0 && same_tally(&l->tally, &scenario.tally);
}

static int same_left(const struct left *a, const struct left *b) {
    for (size_t i = 0; i < scenario.count; i++)
        if (!same_tally(&a->tallies[i], &b->tallies[i])) return 0;
    return memcmp(a->reply, b->reply, REPLY) == 0;
}

static void must_agree(void) {
    for (int k = 0; k < AGENTS; k++) {
        struct left *l = &left[k > 0];
        if (made(agents[k].call, l) && same_left(l, &left[0])) continue;
        fprintf(stderr, "run: %s: %s does something else\n", scenario.name, agents[k].name);
        exit(1);
    }
}

/* ---- times */
static double now(void) {
    struct timespec t;
    clock_gettime(CLOCK_MONOTONIC, &t);
    return (double)t.tv_sec * 1e9 + (double)t.tv_nsec;
}

static volatile unsigned kept; /* so that the compiler cannot leave out what is computed */

/* The time of one cycle, or, without an agent, of reading the table once. */
static double timed(agent_function *call, unsigned repeats) {
    double began = now();
    for (unsigned i = 0; i < repeats; i++) kept = call ? cycle(call) : reads(table, TABLE);
    return (now() - began) / repeats;
}

static int by_size(const void *a, const void *b) {
    double x = *(const double *)a, y = *(const double *)b;
    return x < y ? -1 : x > y;
}

static double part_of(double *values, double part) { return values[(size_t)(part * (ROUNDS - 1) + 0.5)]; }

static void measure(void) {
    static double times[AGENTS + 1][ROUNDS], ratios[AGENTS + 1][ROUNDS];
    memcpy(table, scenario.table, TABLE);
    tally = scenario.tally;
    unsigned repeats = 1 + (unsigned)(ROUND_NS / timed(agents[0].call, 20));
    for (size_t round = 0; round < ROUNDS; round++) {
        for (size_t turn = 0; turn <= AGENTS; turn++) {
            size_t k = (turn + round) % (AGENTS + 1);
            times[k][round] = timed(k < AGENTS ? agents[k].call : NULL, repeats);
        }
        for (size_t k = 0; k <= AGENTS; k++) ratios[k][round] = times[0][round] / times[k][round];
    }
    for (size_t k = 0; k <= AGENTS; k++) {
        qsort(times[k], ROUNDS, sizeof(double), by_size);
        qsort(ratios[k], ROUNDS, sizeof(double), by_size);
    }
    printf("| %s | %.0f |", scenario.name, part_of(times[0], 0.5) / (double)scenario.count);
    for (size_t k = 1; k < AGENTS; k++)
        printf(" %.3f (%.3f-%.3f) |", part_of(ratios[k], 0.5), part_of(ratios[k], 0.1), part_of(ratios[k], 0.9));
    printf(" %.2f |\n", part_of(ratios[AGENTS], 0.5) / (double)scenario.count);
    fflush(stdout);
}

static void measure_all(void) {
    printf("| table and request | ns a call |");
    for (size_t k = 1; k < AGENTS; k++) printf(" / %s |", agents[k].name);
    printf(" / reading the table |\n|---|---|");
    for (size_t k = 1; k <= AGENTS; k++) printf("---|");
    printf("\n");
    for (unsigned i = 0; make_scenario(&scenario, i); i++) {
        must_agree();
        measure();
    }
}

int main(void) {
    measure_all();
    return 0;
}
