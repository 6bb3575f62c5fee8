/* Several threads at once: each update begins with the weight that another one left, each member is popped by one thread, 64 users work at the same time,
   what changed is followed beside writers, and users are closed by other threads than had them. */
#include "augtrie.h"
#include "want.h"

#include <pthread.h>
#include <stdatomic.h>
#include <string.h>

enum { THREADS = 4 };

static aug_trie trie = AUG_ZEROED;

/* Has so many threads work, each with a number, its user and what it is given, and waits for them. */
struct worker { pthread_t thread; uint32_t number; aug_user user; void *(*work)(void *); };
static struct worker workers[AUG_MOST_USERS];

static void *begin(void *of) {
    struct worker *w = of;
    MUST(aug_user_open(&trie, &w->user), AUG_OK);
    return w->work(w);
}

static void start(uint32_t count, void *(*work)(void *)) {
    for (uint32_t i = 0; i < count; i++) {
        workers[i] = (struct worker){.number = i, .work = work};
        WANT(pthread_create(&workers[i].thread, NULL, begin, &workers[i]), 0);
    }
}

static void join(uint32_t count, int64_t closed) {
    for (uint32_t i = 0; i < count; i++) {
        WANT(pthread_join(workers[i].thread, NULL), 0);
        WANT(aug_user_close(&workers[i].user), closed);
    }
}

/* ---- What updates tell of each other ---- */

/* With so few bytes, the fewest for five users, the table is full again and again. */
enum { KEYS = 9, UPDATES = 4000 };

/* What the updates of a thread told that stored something. */
static struct link { uint32_t key; aug_told told; } links[THREADS][UPDATES];
static uint32_t link_counts[THREADS];

/* To a third of the keys amounts are added, another third has amounts taken away too, and the last one any update. */
static int64_t change(aug_user *user, uint32_t key, uint32_t n, uint32_t number, aug_told *told) {
    switch (key % 3 == 0 ? 0 : key % 3 == 1 ? n % 2 : n % 6) {
        case 0: return aug_add(user, key, number, told);
        case 1: return aug_sub(user, key, number, told);
        case 2: return aug_put(user, key, number, told);
        case 3: return aug_remove(user, key, told);
        case 4: return aug_try_add(user, key, number, told);
        default: return aug_try_put(user, key, number, told);
    }
}

static void *change_all(void *of) {
    struct worker *w = of;
    uint32_t drawn = 1 + w->number;
    for (uint32_t made = 0; made < UPDATES;) {
        aug_told told = {77, 78};
        drawn = drawn * 1664525u + 1013904223u;
        const uint32_t key = (drawn >> 8) % KEYS, n = drawn >> 16, number = 1 + n % 7;
        const int64_t code = change(&w->user, key, n, number, &told);
        made += code != AUG_AGAIN;
        if (code == 1 || code == 2) links[w->number][link_counts[w->number]++] = (struct link){key, told};
        else if (code == AUG_AGAIN) MUST(told.before == 77 && told.now == 78, 1);
        else MUST((code == 0 || code == AUG_TOO_LITTLE) && told.before == told.now, 1);
        if (key % 3 == 0) MUST(told.now, number + (told.before == AUG_NONE ? 0 : told.before));
    }
    return NULL;
}

static int compare(const void *a, const void *b) {
    const int64_t one = *(const int64_t *)a, other = *(const int64_t *)b;
    return (one > other) - (one < other);
}

/* Of each key, every weight is found as often as it is left, where AUG_NONE is left at first, and the look finds the last one. So the updates of a key
   whose weight only rises are one chain. */
static void chains(void) {
    static int64_t found[THREADS * UPDATES + 1], left[THREADS * UPDATES + 1];
    aug_user user = AUG_ZEROED;
    WANT(aug_open(&trie, 6, THREADS + 1, 241848), AUG_OK);
    WANT(aug_user_open(&trie, &user), AUG_OK);
    start(THREADS, change_all);
    join(THREADS, AUG_OK);
    WANT(aug_look(&user), AUG_OK);
    for (uint32_t key = 0; key < KEYS; key++) {
        uint32_t count = 0;
        for (int i = 0; i < THREADS; i++)
            for (uint32_t n = 0; n < link_counts[i]; n++)
                if (links[i][n].key == key) found[count] = links[i][n].told.before, left[count++] = links[i][n].told.now;
        WANT(count >= UPDATES / KEYS, 1);
        found[count] = aug_weight(&user, key), left[count] = AUG_NONE;
        qsort(found, count + 1, sizeof *found, compare);
        qsort(left, count + 1, sizeof *left, compare);
        for (uint32_t n = 0; n <= count; n++) WANT(found[n], left[n]);
    }
    WANT(aug_user_close(&user), AUG_OK);
    WANT(aug_close(&trie, NULL), AUG_OK);
}

/* ---- Members that are popped ---- */

enum { TIMERS = 4096 };
static unsigned char popped[THREADS][TIMERS];

/* Each second thread takes the last member, the others the first, until there is none. */
static void *pop_all(void *of) {
    struct worker *w = of;
    const int last = w->number % 2;
    uint32_t before = last ? TIMERS : 0;
    aug_member member;
    int64_t code;
    while ((code = last ? aug_pop_last(&w->user, &member) : aug_pop_first(&w->user, &member)) == 1) {
        MUST(member.weight, 3 * member.key + 7);
        MUST(last ? member.key < before : member.key + 1 > before, 1);
        before = last ? member.key : member.key + 1;
        popped[w->number][member.key]++;
    }
    MUST(code, AUG_NONE);
    return NULL;
}

static void pops(void) {
    aug_user user = AUG_ZEROED;
    aug_report report;
    WANT(aug_open(&trie, 12, THREADS + 1, 3 << 19), AUG_OK);
    WANT(aug_user_open(&trie, &user), AUG_OK);
    for (uint32_t key = 0; key < TIMERS; key++) WANT(aug_put(&user, key, 3 * key + 7, NULL), 1);
    start(THREADS, pop_all);
    join(THREADS, AUG_OK);
    for (uint32_t key = 0; key < TIMERS; key++) {
        int times = 0;
        for (int i = 0; i < THREADS; i++) times += popped[i][key];
        WANT(times, 1);
    }
    WANT(aug_close(&trie, &report), AUG_OK);
    WANT(report.size == 0 && report.inserts == TIMERS && report.removals == TIMERS, 1);
    WANT(aug_user_close(&user), AUG_OK);
}

/* ---- 64 users ---- */

enum { BITS = 8, ADDITIONS = 300 };

/* Adds to all keys in turn, and looks at times. No look goes back, whatever others do, or has what came later and not what came before it. */
static void *add(void *of) {
    aug_user *user = &((struct worker *)of)->user;
    uint32_t keys[1 << BITS], weights[1 << BITS], seen[1 << BITS] = {0};
    for (uint32_t i = 0; i < ADDITIONS; i++) {
        MUST(aug_add(user, i % (1 << BITS), 1, NULL) > 0, 1);
        if (i % 32) continue;
        MUST(aug_look(user), AUG_OK);
        for (int turn = 0; turn < 2; turn++) {
            int64_t count = aug_list(user, 0, keys, weights, 1 << BITS);
            MUST(count > 0 && aug_weight(user, i % (1 << BITS)) > i >> BITS, 1);
            for (int64_t j = 0; j < count; j++) {
                MUST(keys[j] == j && weights[j] >= seen[j] && (!j || weights[j] <= weights[j - 1]), 1);
                seen[j] = weights[j];
            }
            MUST(weights[0] - (count >> BITS ? weights[count - 1] : 0) <= AUG_MOST_USERS, 1);
            MUST(aug_look_again(user) >= 0, 1);
        }
        MUST(aug_look_done(user), AUG_OK);
    }
    return NULL;
}

static void all_users(void) {
    WANT(aug_open(&trie, BITS, AUG_MOST_USERS, 3977520), AUG_OK);
    start(AUG_MOST_USERS, add);
    for (uint32_t i = 1; i < AUG_MOST_USERS; i++) WANT(pthread_join(workers[i].thread, NULL), 0);
    WANT(pthread_join(workers[0].thread, NULL), 0);
    WANT(aug_look(&workers[0].user), AUG_OK);
    for (uint32_t key = 0; key < 1 << BITS; key++)
        WANT(aug_weight(&workers[0].user, key), AUG_MOST_USERS * (ADDITIONS / (1 << BITS) + (key < ADDITIONS % (1 << BITS))));
    for (uint32_t i = 0; i < AUG_MOST_USERS; i++) WANT(aug_user_close(&workers[i].user), AUG_OK);
    WANT(aug_close(&trie, NULL), AUG_OK);
}

/* ---- A copy that follows ---- */

enum { WRITERS = 2, SNAPSHOTS = 10, PLACES = 7, COPIED = 1 << BITS };
static atomic_int writing;

static void *write_on(void *of) {
    struct worker *w = of;
    for (uint32_t i = 0; i < UPDATES; i++) {
        const uint32_t key = (i * 37 + w->number) % COPIED;
        MUST((i / 50 % 2 ? aug_remove(&w->user, key, NULL) : aug_put(&w->user, key, i, NULL)) >= 0, 1);
    }
    writing--;
    return NULL;
}

/* What the look shows, in a place for each key. */
static int64_t list(aug_user *looks, int64_t *weights, uint32_t *keys, uint32_t *weighs) {
    int64_t count = aug_list(looks, 0, keys, weighs, COPIED);
    MUST(count, aug_size(looks));
    for (uint32_t key = 0; key < COPIED; key++) weights[key] = AUG_NONE;
    for (int64_t i = 0; i < count; i++) weights[keys[i]] = weighs[i];
    return count;
}

/* Follows the snapshots of one look by what changed, a few changes at a time: since a list, where a new round began in between. */
static void follow(aug_user *looks) {
    static int64_t copy[COPIED], now[COPIED];
    uint32_t keys[COPIED], weights[COPIED];
    aug_change some[PLACES];
    WANT(aug_look(looks), AUG_OK);
    for (int i = 0; i < SNAPSHOTS; i++) {
        const int64_t kept = list(looks, copy, keys, weights), is_since = aug_look_again(looks);
        int64_t count = PLACES;
        MUST(is_since == 0 || is_since == 1, 1);
        if (is_since) MUST(aug_changes(looks, 0, some, PLACES), 0);
        for (uint32_t from = 0; count == PLACES; from = some[PLACES - 1].key + 1) {
            count = is_since ? aug_changes_since(looks, keys, weights, (size_t)kept, from, some, PLACES) : aug_changes(looks, from, some, PLACES);
            MUST(count >= 0 && count <= PLACES, 1);
            for (int64_t c = 0; c < count; c++) {
                MUST(some[c].before, copy[some[c].key]);
                copy[some[c].key] = some[c].now;
            }
        }
        list(looks, now, keys, weights);
        WANT(memcmp(copy, now, sizeof now), 0);
    }
    WANT(aug_look_done(looks), AUG_OK);
}

/* The table is so small that a look is taken again in many rounds. */
static void beside_writers(void) {
    aug_user looks = AUG_ZEROED;
    WANT(aug_open(&trie, BITS, WRITERS + 1, 1 << 18), AUG_OK);
    WANT(aug_user_open(&trie, &looks), AUG_OK);
    writing = WRITERS;
    start(WRITERS, write_on);
    do follow(&looks); while (writing);
    join(WRITERS, AUG_OK);
    WANT(aug_user_close(&looks), AUG_OK);
    WANT(aug_close(&trie, NULL), AUG_OK);
}

/* ---- Users that other threads close, while another one lays rounds out, and the trie is closed ---- */

static void *come(void *of) {
    struct worker *w = of;
    for (uint32_t k = 0; k < 500; k++) MUST(aug_add(&w->user, k % 64, 1, NULL) > 0, 1);
    return NULL;
}

static void *tend(void *unused) {
    for (uint32_t i = 0; i < 2000; i++) {
        int64_t more = aug_tend(&trie);
        MUST(more == 0 || more == 1, 1);
    }
    return unused;
}

static void *go(void *user) {
    MUST(aug_look(user), AUG_OK);
    MUST(aug_user_close(user), AUG_OK);
    return NULL;
}

static void cross(void) {
    pthread_t tends, goes[THREADS - 1];
    aug_span span;
    WANT(aug_open(&trie, 6, THREADS, 195744), AUG_OK);
    WANT(pthread_create(&tends, NULL, tend, NULL), 0);
    start(THREADS, come);
    for (int i = 0; i < THREADS; i++) WANT(pthread_join(workers[i].thread, NULL), 0);
    WANT(aug_look(&workers[0].user), AUG_OK);
    WANT(aug_range(&workers[0].user, 0, 64, &span), 64);
    WANT(span.sum, 500 * THREADS);
    WANT(aug_look_done(&workers[0].user), AUG_OK);
    for (int i = 0; i < THREADS - 1; i++) WANT(pthread_create(&goes[i], NULL, go, &workers[i].user), 0);
    for (int i = 0; i < THREADS - 1; i++) WANT(pthread_join(goes[i], NULL), 0);
    WANT(pthread_join(tends, NULL), 0);
    WANT(aug_close(&trie, NULL), AUG_OK);
    WANT(aug_tend(&trie), AUG_CLOSED);
    for (int i = 0; i < THREADS; i++) WANT(aug_put(&workers[i].user, 1, 1, NULL), AUG_CLOSED);
    for (int i = 0; i < THREADS; i++) WANT(aug_user_close(&workers[i].user), i < THREADS - 1 ? AUG_CLOSED : AUG_OK);
}

int main(void) {
    chains();
    pops();
    all_users();
    beside_writers();
    for (int i = 0; i < 10; i++) cross();
    printf("ok: %u answers\n", wanted);
    return 0;
}
