/* Prints the listing of the job on standard input, or its refusal, as `kitlist` does. Fails where an
 * area is not left as the header says. */
#include <stdio.h>
#include <stdlib.h>
#include <string.h>

#include "kit.h"

enum {
    VARIABLES = 1024,
    CLAUSES = 2048,
    LITERALS = 1024,
    WAITING = 256,
    MARKS = 65536,
    UNIONS = 52428,
    CATALOGUE = 50696,
    STORE = 20 * CLAUSES,
    STATE = 16 * VARIABLES + 2 * LITERALS + 2 * (3649 + WAITING) + 34954,
    DEFERRED = 8 * WAITING,
    LISTING = 65536,
    JUNK = 0xA5
};

static uint8_t job[65537];
static uint8_t marks[MARKS], unions[UNIONS], catalogue[CATALOGUE];
static uint8_t store[STORE], state[STATE], deferred[DEFERRED];
static uint8_t listing[LISTING];

static void fill_work_areas(void) {
    memset(marks, JUNK, MARKS);
    memset(unions, JUNK, UNIONS);
    memset(catalogue, JUNK, CATALOGUE);
    memset(store, JUNK, STORE);
    memset(state, JUNK, STATE);
    memset(deferred, JUNK, DEFERRED);
}

static void demand_all(const uint8_t *area, size_t length, uint8_t byte) {
    for (size_t i = 0; i < length; i++) {
        if (area[i] != byte) {
            fprintf(stderr, "byte %zu of an area is %d\n", i, area[i]);
            exit(1);
        }
    }
}

static void demand_zero_work_areas(void) {
    demand_all(marks, MARKS, 0);
    demand_all(unions, UNIONS, 0);
    demand_all(catalogue, CATALOGUE, 0);
    demand_all(store, STORE, 0);
    demand_all(state, STATE, 0);
    demand_all(deferred, DEFERRED, 0);
}

static struct kit_answer check(size_t length) {
    fill_work_areas();
    struct kit_answer answer = kit_check(
        job, length, VARIABLES, CLAUSES, LITERALS, WAITING, marks, MARKS, unions, UNIONS,
        catalogue, CATALOGUE, store, STORE, state, STATE, deferred, DEFERRED);
    demand_zero_work_areas();
    return answer;
}

static struct kit_answer run(size_t length) {
    fill_work_areas();
    memset(listing, JUNK, LISTING);
    struct kit_answer answer = kit_run(
        job, length, VARIABLES, CLAUSES, LITERALS, WAITING, marks, MARKS, unions, UNIONS,
        catalogue, CATALOGUE, store, STORE, state, STATE, deferred, DEFERRED, listing, LISTING);
    demand_zero_work_areas();
    demand_all(listing + answer.length, LISTING - answer.length, JUNK);
    return answer;
}

/* A catalogue that is refused is refused alike by both. */
static void demand_same_refusal(struct kit_answer checked, struct kit_answer ran) {
    if (checked.number != 0 && (checked.number != ran.number || checked.place != ran.place)) {
        fprintf(stderr, "check and run differ\n");
        exit(1);
    }
}

int main(void) {
    size_t length = fread(job, 1, sizeof job, stdin);
    struct kit_answer answer = run(length);
    demand_same_refusal(check(length), answer);
    if (answer.number != 0) {
        printf("refused %llu %llu\n", (unsigned long long)answer.number,
               (unsigned long long)answer.place);
    } else {
        fwrite(listing, 1, answer.length, stdout);
    }
    return 0;
}
