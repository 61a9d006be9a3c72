/* Makes the calls of a scenario with one agent, a number of times: `count AGENT SCENARIO TIMES`, each a number. It prints
 * nothing; the tool that runs it counts its instructions. It exits with 3 where there is no such agent, and with 4 where there
 * is no such scenario.
 */
#include "agents.h"
#include "scenarios.h"

void *memcpy(void *restrict to, const void *restrict from, size_t length);

static struct scenario scenario;
static uint8_t table[TABLE], reply[REPLY];
static struct cavernlull_tally tally;

static unsigned number(const char *digits) {
    unsigned n = 0;
    for (; *digits; digits++) n = 10 * n + (unsigned)(*digits - '0');
    return n;
}

int main(int words, char **word) {
    if (words != 4) return 2;
    unsigned who = number(word[1]);
    if (who >= AGENTS) return 3;
    if (!make_scenario(&scenario, number(word[2]))) return 4;
    memcpy(table, scenario.table, TABLE);
    tally = scenario.tally;
    for (unsigned times = number(word[3]); times > 0; times--)
        for (size_t i = 0; i < scenario.count; i++) {
            const struct step *step = &scenario.steps[i];
            agents[who].call(table, TABLE, &tally, scenario.start, step->frame, step->length, reply, REPLY);
        }
    return 0;
}
