# Sourced by the scripts that count instructions.
# shellcheck shell=sh

# Prints a line for each scenario, with the number of instructions that its requests take in each agent. HOW AGENT SCENARIO
# TIMES prints how many instructions a run of `count` takes; what a run does beside the requests does not depend on TIMES.
instructions() { # HOW NAME...
    how=$1
    shift
    printf '| table and request |'
    for name; do printf ' %s |' "$name"; done
    printf '\n|---|'
    for name; do printf -- '---|'; done
    echo
    scenario=0
    sed -n 's/.*s->name = "\([^"]*\)".*/\1/p' bench/scenarios.c | while read -r title; do
        printf '| %s |' "$title"
        agent=0
        for name; do
            few=$("$how" "$agent" "$scenario" 1)
            more=$("$how" "$agent" "$scenario" 3)
            printf ' %d |' $(((more - few) / 2))
            agent=$((agent + 1))
        done
        echo
        scenario=$((scenario + 1))
    done
}
