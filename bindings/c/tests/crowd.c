/* Users of eight threads come and go in one trie after another, whose tables are so small that they are full again and again. Each look is held to
   itself, the keys of one thread to what it did with them, and the weights that all add to, to the unit, to what all added. In between, tries are
   closed while seven threads work. The argument is for how many seconds. */
#define _POSIX_C_SOURCE 200809L
#include "augtrie.h"
#include "want.h"

#include <pthread.h>
#include <sched.h>
#include <stdatomic.h>
#include <string.h>
#include <time.h>

enum { BITS = 8, KEYS = 1 << BITS, THREADS = 8, WORKERS = 7 };
enum update { INSERT, REMOVE, PUT, ADD, SUB };

/* How many keys there is memory for when a look is listed: fewer are a fault on purpose. */
#ifndef PLACES
#define PLACES KEYS
#endif

/* Whose a key is: one thread's, or everybody's to add to and take from, or everybody's for any update. */
enum { SUMMED = THREADS, ANY = 12, OWNERS = 16 };
static uint32_t owner(uint32_t key) {
    return key % OWNERS < SUMMED ? key % OWNERS : key % OWNERS < ANY ? SUMMED : ANY;
}

struct worker {
    pthread_t thread;
    uint32_t number, drawn;
    aug_user user;
    int64_t weights[KEYS]; /* of the thread's own keys, or AUG_NONE; of the summed ones, what it added less what it took away */
    uint64_t inserts, removals, operations, looks, turned_away;
};

static aug_trie trie = AUG_ZEROED;
static atomic_int stopped;

static uint32_t draw(struct worker *w, uint32_t below) {
    w->drawn = w->drawn * 1664525u + 1013904223u;
    return (w->drawn >> 8) % below;
}

/* Makes an update, and counts what came of it. */
static int64_t update(struct worker *w, aug_user *user, enum update what, uint32_t key, uint32_t n, aug_told *told) {
    int takes_out = what == REMOVE || what == SUB;
    int64_t code = what == INSERT ? aug_insert(user, key) : what == REMOVE ? aug_remove(user, key, told) : what == PUT ? aug_put(user, key, n, told)
        : what == ADD ? aug_add(user, key, n, told) : aug_sub(user, key, n, told);
    w->inserts += code == 2 || (code == 1 && !takes_out);
    w->removals += code == 2 || (code == 1 && takes_out);
    w->operations++;
    return code;
}

/* What an update answers whose key nobody else changes, and what it makes of the weight. */
static int64_t model(enum update what, uint32_t key, uint32_t n, int64_t *weight) {
    int had = *weight != AUG_NONE;
    int64_t old = had ? *weight : 0;
    if (what >= ADD && !n) return 3;
    if (what == ADD && old + n > UINT32_MAX) return AUG_TOO_GREAT;
    if (what == SUB && n > old) return AUG_TOO_LITTLE;
    switch (what) {
        case INSERT: *weight = had ? old : key; return !had;
        case REMOVE: *weight = AUG_NONE; return had;
        case SUB: *weight = n == old ? AUG_NONE : old - n; return n == old ? 1 : 2;
        default: *weight = what == PUT ? n : old + n; return had ? 2 : 1;
    }
}

/* What an update tells agrees with its answer. One that was lost to another user's change left what it had found. */
static void check_told(enum update what, uint32_t key, uint32_t n, int64_t code, aug_told told) {
    int64_t now = told.before;
    if (code) MUST(model(what, key, n, &now), code);
    MUST(told.now, now);
}

/* All answers of a look agree with one another, and show all that the thread did, through this user or another one. */
static void check(struct worker *w, aug_user *user) {
    uint32_t *weights = malloc(PLACES * sizeof *weights), keys[KEYS], from = draw(w, KEYS), to = from + draw(w, KEYS), within = 0;
    uint64_t sum = 0, sum_within = 0, sum_before;
    aug_span all, some;
    int64_t size = aug_size(user);
    MUST(aug_list(user, 0, keys, weights, KEYS), size);
    MUST(aug_rank(user, KEYS), size);
    MUST(aug_select(user, (uint32_t)size), AUG_NONE);
    for (uint32_t i = 0; i < size; i++) {
        uint32_t key = keys[i];
        MUST(i > 0 && keys[i - 1] >= key, 0);
        MUST(owner(key) == SUMMED && weights[i] == 0, 0);
        sum_before = sum, sum += weights[i];
        if (from <= key && key < to) within++, sum_within += weights[i];
        if (draw(w, 8)) continue;
        if (weights[i]) MUST(aug_select_by_weight(user, sum_before), key);
        if (weights[i]) MUST(aug_select_by_weight(user, sum - 1), key);
        MUST(aug_has(user, key), 1);
        MUST(aug_weight(user, key), weights[i]);
        MUST(aug_rank(user, key), i);
        MUST(aug_select(user, i), key);
        MUST(aug_before(user, key), i ? (int64_t)keys[i - 1] : AUG_NONE);
        MUST(aug_after(user, key), i + 1 < size ? (int64_t)keys[i + 1] : AUG_NONE);
    }
    MUST(aug_select_by_weight(user, sum), AUG_NONE);
    MUST(aug_range(user, 0, KEYS, &all), size);
    MUST(all.count == size && all.sum == sum && all.least == (size ? keys[0] : 0) && all.greatest == (size ? keys[size - 1] : 0), 1);
    MUST(aug_first(user), size ? (int64_t)keys[0] : AUG_NONE);
    MUST(aug_last(user), size ? (int64_t)keys[size - 1] : AUG_NONE);
    MUST(aug_range(user, from, to, &some) == within && some.sum == sum_within, 1);
    for (uint32_t key = w->number; key < KEYS; key += OWNERS) MUST(aug_weight(user, key), w->weights[key]);
    w->looks++;
    free(weights);
}

/* Puts some own keys in beside the open look of their user, until that would have to wait, perhaps for this look. */
static void put_beside(struct worker *w, aug_user *user) {
    for (uint32_t left = draw(w, 16); left; left--) {
        uint32_t key = draw(w, KEYS / OWNERS) * OWNERS + w->number, weight = draw(w, 1000);
        aug_told told;
        int64_t code = aug_try_put(user, key, weight, &told);
        if (code == AUG_AGAIN || code == AUG_CLOSED) return;
        MUST(code, w->weights[key] == AUG_NONE ? 1 : 2);
        MUST(told.before, w->weights[key]);
        w->weights[key] = weight;
        w->inserts++, w->removals += code == 2, w->operations++;
    }
}

/* A look, which shows the same beside updates of its user, and is taken again. Answers whether the trie was closed: then it shows what it showed. */
static int look(struct worker *w, aug_user *user) {
    int64_t shown[KEYS], now[KEYS], code = aug_look(user);
    if (code == AUG_CLOSED) return 1;
    MUST(code, 0);
    check(w, user);
    memcpy(shown, w->weights, sizeof shown);
    put_beside(w, user);
    memcpy(now, w->weights, sizeof now);
    memcpy(w->weights, shown, sizeof shown);
    check(w, user);
    code = aug_look_again(user);
    MUST(code == 0 || code == 1 || code == AUG_CLOSED, 1);
    if (code != AUG_CLOSED) memcpy(w->weights, now, sizeof now);
    check(w, user);
    MUST(aug_look_done(user), 0);
    return code == AUG_CLOSED;
}

/* An update or a look. Answers whether the trie was closed. */
static int step(struct worker *w, aug_user *user) {
    if (!draw(w, 12)) return look(w, user);
    uint32_t key = draw(w, KEYS), whose = owner(key), n = draw(w, 16) ? draw(w, 1000) : UINT32_MAX - draw(w, 1000);
    enum update what = (enum update)draw(w, 5);
    if (whose < SUMMED) key = key - whose + w->number;
    if (whose == SUMMED) key = n % 4 ? SUMMED : key, what = what < ADD ? ADD + n % 2 : what;
    aug_told told;
    int64_t code = update(w, user, what, key, n, &told);
    if (code == AUG_CLOSED) return 1;
    if (what != INSERT) check_told(what, key, n, code, told);
    if (whose < SUMMED && what != INSERT) MUST(told.before, w->weights[key]);
    if (whose < SUMMED) MUST(code, model(what, key, n, &w->weights[key]));
    else MUST(code >= (what >= ADD) || code == (what == ADD ? AUG_TOO_GREAT : what == SUB ? AUG_TOO_LITTLE : 0), 1);
    if (whose == SUMMED && code > 0) w->weights[key] += what == ADD ? n : -(int64_t)n;
    return 0;
}

/* Opens a user, works and closes it, at times with its look, until all are stopped. */
static void *come_and_go(void *arg) {
    struct worker *w = arg;
    while (!stopped) {
        aug_user user = AUG_ZEROED;
        int64_t code = aug_user_open(&trie, &user);
        MUST(code == 0 || code == AUG_NO_USER, 1);
        for (uint32_t left = draw(w, 64); left && !code; left--) MUST(step(w, &user), 0);
        if (!code && !draw(w, 4)) MUST(aug_look(&user), 0);
        MUST(aug_user_close(&user), code ? AUG_CLOSED : 0);
        if (code) w->turned_away++, sched_yield();
    }
    return NULL;
}

/* Works until the trie is closed. Some close their users before. */
static void *work_until_closed(void *arg) {
    struct worker *w = arg;
    while (!step(w, &w->user)) if (w->number % 2 && !draw(w, 1000)) break;
    if (w->number % 2 == 0) {
        for (uint32_t key = 0; key < KEYS; key++) MUST(update(w, &w->user, (enum update)(key % 5), key, 1, NULL), AUG_CLOSED);
        MUST(aug_look(&w->user), AUG_CLOSED);
    }
    MUST(aug_user_close(&w->user), 0);
    return NULL;
}

/* Has threads work with a trie of so many users and bytes, or the least that these do with. It is closed once they are stopped, or amid their work. */
static void run(struct worker *all, uint32_t count, void *(*work)(void *), uint32_t users, uint64_t bytes, long nanoseconds) {
    static struct worker workers[THREADS];
    aug_user user = AUG_ZEROED;
    aug_report report;
    uint64_t inserts = 0, removals = 0;
    int64_t sums[KEYS] = {0};
    for (int64_t code; (code = aug_open(&trie, BITS, users, bytes)); bytes += bytes / 16) WANT(code, AUG_TOO_LARGE);
    stopped = 0;
    for (uint32_t i = 0; i < count; i++) {
        struct worker *w = &workers[i];
        *w = (struct worker){.number = i, .drawn = (uint32_t)all->operations + i};
        for (uint32_t key = 0; key < KEYS; key++) w->weights[key] = owner(key) == SUMMED ? 0 : AUG_NONE;
        if (work == work_until_closed) WANT(aug_user_open(&trie, &w->user), 0);
        WANT(pthread_create(&w->thread, NULL, work, w), 0);
    }
    nanosleep(&(struct timespec){0, nanoseconds}, NULL);
    stopped = 1;
    if (work == work_until_closed) WANT(aug_close(&trie, &report), 0);
    for (struct worker *w = workers; w < workers + count; w++) {
        WANT(pthread_join(w->thread, NULL), 0);
        inserts += w->inserts, removals += w->removals;
        all->operations += w->operations, all->looks += w->looks, all->turned_away += w->turned_away;
        for (uint32_t key = 0; key < KEYS; key++) sums[key] += w->weights[key];
    }
    if (work == come_and_go) {
        WANT(aug_user_open(&trie, &user), 0);
        WANT(aug_look(&user), 0);
        for (uint32_t i = 0; i < count; i++) check(&workers[i], &user);
        for (uint32_t key = SUMMED; key < KEYS; key++) if (owner(key) == SUMMED) WANT(aug_weight(&user, key), sums[key] ? sums[key] : AUG_NONE);
        WANT(aug_user_close(&user), 0);
        WANT(aug_close(&trie, &report), 0);
    }
    WANT(report.inserts == inserts && report.removals == removals && report.size == inserts - removals, 1);
}

int main(int argc, char **argv) {
    const time_t end = time(NULL) + (argc > 1 ? atoi(argv[1]) : 3);
    static struct worker all;
    do {
        for (uint32_t users = 2; users <= THREADS; users += 3) run(&all, THREADS, come_and_go, users, 1024u * users * users, 100000000);
        for (long i = 0; i < 5; i++) run(&all, WORKERS, work_until_closed, WORKERS, 1024, i * 1000000);
    } while (time(NULL) < end);
    WANT(all.turned_away > 0, 1);
    printf("ok: %llu operations, %llu looks\n", (unsigned long long)all.operations, (unsigned long long)all.looks);
    return 0;
}
