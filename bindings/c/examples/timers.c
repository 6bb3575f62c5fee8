/* A scheduler: two threads set and cancel timers at 4096 moments, and a third fires those that are due. A timer is a key, its moment, and
   its weight is what it stands for. */
#include "augtrie.h"
#include <pthread.h>
#include <stdio.h>
#include <stdlib.h>

enum { BITS = 12, MOMENTS = 1 << BITS };

static aug_trie timers = AUG_ZEROED;

/* The answer of a call, which is not refused. */
static int64_t done(int64_t answer) {
    if (answer < AUG_NONE) {
        fprintf(stderr, "timers: %s\n", aug_error_text(answer));
        exit(1);
    }
    return answer;
}

/* Sets a timer at every other moment from the first on, and cancels every tenth of them again. */
static void *set_timers(void *first) {
    aug_user setter = AUG_ZEROED;
    uint32_t from = *(const uint32_t *)first;
    done(aug_user_open(&timers, &setter));
    for (uint32_t at = from; at < MOMENTS; at += 2) {
        done(aug_put(&setter, at, 1000 + at, NULL));
        if (at % 20 == from) done(aug_remove(&setter, at, NULL));
    }
    aug_user_close(&setter);
    return NULL;
}

int main(void) {
    uint32_t even = 0, odd = 1;
    pthread_t a, b;
    aug_user clock = AUG_ZEROED;
    done(aug_open(&timers, BITS, 3, 1 << 21));
    if (pthread_create(&a, NULL, set_timers, &even) || pthread_create(&b, NULL, set_timers, &odd)) return 1;
    pthread_join(a, NULL);
    pthread_join(b, NULL);
    /* Fires the timers that are due before moment 100. Each comes to one caller, also if others fire too. */
    done(aug_user_open(&timers, &clock));
    done(aug_look(&clock));
    int64_t fired = 0, due = done(aug_rank(&clock, 100)), next = done(aug_select(&clock, (uint32_t)due));
    printf("due before 200: %lld\n", (long long)done(aug_range(&clock, 0, 200, NULL)));
    aug_look_done(&clock);
    aug_member timer;
    while (fired < due && done(aug_pop_first(&clock, &timer)) == 1) fired += timer.weight == 1000 + timer.key;
    printf("fired %lld, next at %lld\n", (long long)fired, (long long)next);
    aug_report report;
    aug_user_close(&clock);
    done(aug_close(&timers, &report));
    printf("left %u, set %llu\n", (unsigned)report.size, (unsigned long long)report.inserts);
    return 0;
}
