/* The agents that are measured, the proved call first. The build defines OTHER_AGENTS, the list of the others, as
 * AGENT(name, function) for each.
 */
#ifndef AGENTS_H
#define AGENTS_H

#include "cavernlull.h"

typedef uint16_t agent_function(uint8_t *, size_t, struct cavernlull_tally *, size_t, const uint8_t *, size_t, uint8_t *,
                                size_t);

#define AGENT(name, function) agent_function function;
OTHER_AGENTS
#undef AGENT
#define AGENT(name, function) {name, function},
static const struct {
    const char *name;
    agent_function *call;
} agents[] = {{"Cavernlull", cavernlull_call}, OTHER_AGENTS};
#undef AGENT

enum { AGENTS = sizeof agents / sizeof agents[0] };

#endif
