/* Three threads look again and again for a millisecond each, with no pause between two looks, and one updates a table that is soon full: of its updates
   that wait, nine of ten take no more than 100 milliseconds, by the calls that wait and by those that never do. On a busy machine the best of some
   measurements counts, and more is allowed where a thread stands still for long that waits for nobody. */
#define _DEFAULT_SOURCE
#include "augtrie.h"
#include "want.h"

#include <pthread.h>
#include <sched.h>
#include <stdatomic.h>
#include <stdlib.h>
#include <time.h>
#include <unistd.h>

enum { READERS = 3, MEASUREMENTS = 5, BYTES = 126000, SECOND = 1000000000, LONGEST = SECOND / 10 };

/* An update that takes longer than this many nanoseconds waited. So many of a measurement are kept. */
enum { WAIT = SECOND / 1000, KEPT = 10000 };

/* After so many updates there is one of the trie that nobody reads. */
enum { UPDATES = 100 };

static aug_trie trie = AUG_ZEROED, unread = AUG_ZEROED;
static atomic_int stopped;
static unsigned seconds;
static int64_t waits[KEPT];
static size_t wait_count;

static int64_t now(void) {
    struct timespec t;
    clock_gettime(CLOCK_MONOTONIC, &t);
    return t.tv_sec * (int64_t)SECOND + t.tv_nsec;
}

static void nap(long nanoseconds) {
    nanosleep(&(struct timespec){0, nanoseconds}, NULL);
}

static void *read_on(void *unused) {
    aug_user user = AUG_ZEROED;
    MUST(aug_user_open(&trie, &user), 0);
    while (!stopped) {
        MUST(aug_look(&user), 0);
        nap(1000000);
        MUST(aug_look_done(&user), 0);
    }
    MUST(aug_user_close(&user), 0);
    return unused;
}

/* Stops the readers also if an update waits for them. */
static void *stop_later(void *unused) {
    sleep(seconds);
    stopped = 1;
    return unused;
}

/* An update by a caller that calls again himself. */
static int64_t add_by_tries(aug_user *user) {
    aug_told told;
    int64_t code = aug_try_add(user, 3, 1, &told);
    if (code != AUG_AGAIN) return code;
    MUST(aug_wait_begin(user), 0);
    while ((code = aug_try_add(user, 3, 1, &told)) == AUG_AGAIN) nap(50000);
    MUST(aug_wait_end(user), 0);
    return code;
}

static int64_t add(aug_user *user) { return aug_add(user, 3, 1, NULL); }

/* The same of a trie that nobody reads, by a thread that gives its processor away as one does that waits. */
static int64_t add_unread(aug_user *user) {
    sched_yield();
    return add(user);
}

/* Makes an update: how long it took. */
static int64_t measure(int64_t (*update)(aug_user *), aug_user *user) {
    int64_t begin = now();
    MUST(update(user) > 0, 1);
    return now() - begin;
}

static int compare(const void *a, const void *b) {
    int64_t x = *(const int64_t *)a, y = *(const int64_t *)b;
    return (x > y) - (x < y);
}

/* How long nine of ten of those updates took at most that waited within these seconds, and how many updates there were; and how long the longest one took
   of the trie that nobody reads. */
static int64_t waits_of(aug_user *user, aug_user *alone, int64_t (*update)(aug_user *), uint32_t *updates, int64_t *longest_alone) {
    pthread_t threads[READERS + 1];
    wait_count = 0;
    *longest_alone = 0;
    stopped = 0;
    for (int i = 0; i <= READERS; i++) WANT(pthread_create(&threads[i], NULL, i ? read_on : stop_later, NULL), 0);
    while (!stopped) {
        for (int i = 0; i < UPDATES && !stopped; i++, ++*updates) {
            int64_t took = measure(update, user);
            if (took > WAIT && wait_count < KEPT) waits[wait_count++] = took;
        }
        int64_t took = measure(add_unread, alone);
        if (took > *longest_alone) *longest_alone = took;
    }
    for (int i = 0; i <= READERS; i++) WANT(pthread_join(threads[i], NULL), 0);
    qsort(waits, wait_count, sizeof *waits, compare);
    return wait_count ? waits[wait_count * 9 / 10] : 0;
}

/* Each measurement is twice as long as the one before it. One that is no longer than twice what is allowed says nothing, since an update that waits
   is made when it ends. */
static void check_waits(aug_user *user, aug_user *alone, int64_t (*update)(aug_user *), uint32_t *updates) {
    int64_t most[MEASUREMENTS], longest_alone[MEASUREMENTS];
    int is_in_time = 0;
    for (int i = 0; i < MEASUREMENTS && !is_in_time; i++) {
        seconds = 1u << i;
        most[i] = waits_of(user, alone, update, updates, &longest_alone[i]);
        int64_t limit = LONGEST + 4 * longest_alone[i];
        is_in_time = most[i] <= limit && limit <= (int64_t)seconds * SECOND / 2;
    }
    for (int i = 0; i < MEASUREMENTS && !is_in_time; i++)
        printf("in %u seconds nine of ten that wait took %.1f milliseconds, and one with nobody beside it %.1f\n", 1u << i, most[i] / 1e6, longest_alone[i] / 1e6);
    WANT(is_in_time, 1);
}

int main(void) {
    aug_user user = AUG_ZEROED, alone = AUG_ZEROED;
    uint32_t updates = 0;
    WANT(aug_open(&unread, 4, 1, BYTES), 0);
    WANT(aug_user_open(&unread, &alone), 0);
    WANT(aug_open(&trie, 4, READERS + 1, BYTES), 0);
    WANT(aug_user_open(&trie, &user), 0);
    check_waits(&user, &alone, add, &updates);
    check_waits(&user, &alone, add_by_tries, &updates);
    WANT(aug_user_close(&user), 0);
    WANT(aug_close(&trie, NULL), 0);
    WANT(aug_user_close(&alone), 0);
    WANT(aug_close(&unread, NULL), 0);
    printf("ok: %u answers, %u updates\n", wanted, updates);
    return 0;
}
