/* What others do while a call waits for them: the calls by which the library waits are those of this program, in which the others have their turn. An
   update that old looks hold up tells what it finds when it is made, an array that they hold up in its middle goes on from there, the end of a look
   leaves time to whoever waits, and a thread that is cancelled while its call waits ends after it. */
#define _POSIX_C_SOURCE 200809L
#include "augtrie.h"
#include "want.h"

#include <pthread.h>
#include <sched.h>
#include <time.h>

/* With so few bytes each of three users has 64 updates in a round. */
enum { BITS = 6, KEYS = 1 << BITS, BYTES = 149640, ROOM = 64, HALF = KEYS / 2 };

static aug_trie trie = AUG_ZEROED;
static aug_user works = AUG_ZEROED, looks = AUG_ZEROED, keeps = AUG_ZEROED;

/* What happens once while a call waits, how often the library slept, and how many keys the look shows that held the call up. */
static void (*others)(void);
static unsigned naps;
static int64_t held_up_at;

static void take_turn(void) {
    void (*turn)(void) = others;
    others = NULL;
    if (turn) turn();
}

int sched_yield(void) {
    take_turn();
    return 0;
}

/* A point at which a thread may be cancelled, as that of the C library is. */
int nanosleep(const struct timespec *time, struct timespec *left) {
    WANT(time->tv_sec == 0 && time->tv_nsec == 50000 && !left, 1);
    naps++;
    pthread_testcancel();
    take_turn();
    return 0;
}

static void end_look(void) {
    unsigned before = naps;
    WANT(aug_look_again(&looks), 1);
    held_up_at = aug_size(&looks);
    WANT(aug_look_done(&looks), AUG_OK);
    WANT(naps, before + 1);
}

/* Opens a trie with the member 0, of whose first round a look stays open. */
static void open_all(void) {
    WANT(aug_open(&trie, BITS, 3, BYTES), AUG_OK);
    WANT(aug_user_open(&trie, &works), AUG_OK);
    WANT(aug_user_open(&trie, &looks), AUG_OK);
    WANT(aug_user_open(&trie, &keeps), AUG_OK);
    WANT(aug_insert(&works, 0), 1);
    WANT(aug_look(&keeps), AUG_OK);
    for (int made = 0; made < ROOM; made++) WANT(aug_try_insert(&works, 0), 0);
}

static void close_all(aug_report *report) {
    WANT(aug_size(&keeps), 1);
    WANT(aug_close(&trie, report), AUG_OK);
    WANT(aug_user_close(&works), AUG_OK);
    WANT(aug_user_close(&looks), AUG_OK);
    WANT(aug_user_close(&keeps), AUG_OK);
}

/* Fills the round at work, in which 0 is a member, and the next one, while there is a look of each of two rounds. It ends when the next update waits. */
static void fill(void) {
    int made = 0;
    WANT(aug_look(&looks), AUG_OK);
    for (int64_t code = 0; code != AUG_AGAIN; code = aug_try_insert(&works, 0)) WANT(code == 0 && made++ <= 2 * ROOM, 1);
    others = end_look;
}

/* The update waited, and told the weight before and after it. */
static void check_told(const aug_told *told, int64_t before, int64_t now) {
    WANT(others == NULL, 1);
    WANT(told->before == before && told->now == now, 1);
}

static void updates_tell(void) {
    aug_told told = {77, 78};
    open_all();
    fill();
    WANT(aug_put(&works, 3, 7, &told), 1);
    check_told(&told, AUG_NONE, 7);
    fill();
    WANT(aug_add(&works, 3, 5, &told), 2);
    check_told(&told, 7, 12);
    fill();
    WANT(aug_sub(&works, 3, 10, &told), 2);
    check_told(&told, 12, 2);
    fill();
    WANT(aug_remove(&works, 3, &told), 1);
    check_told(&told, 2, AUG_NONE);
    close_all(NULL);
}

/* Makes updates that change nothing, in a round of which so many are left, down to as many. */
static void use_up(int64_t from, int64_t left) {
    while (from > left) {
        WANT(aug_insert(&works, 0), 0);
        WANT(aug_room(&works), --from);
    }
}

/* Begins a look, and then a round of which as many updates are left as half of the keys. So the look holds up an array of all keys. */
static void hold_up(void) {
    fill();
    use_up(ROOM, 0);
    WANT(others == NULL, 1);
    WANT(aug_look(&looks), AUG_OK);
    use_up(ROOM, HALF);
    others = end_look;
}

/* The array was held up in its middle. */
static void check_held_up(void) {
    WANT(others == NULL, 1);
    WANT(held_up_at, HALF);
}

static void arrays_go_on(void) {
    uint32_t keys[KEYS], weights[KEYS];
    aug_report report;
    for (uint32_t key = 0; key < KEYS; key++) keys[key] = key, weights[key] = 7;
    open_all();
    hold_up();
    WANT(aug_insert_all(&works, keys, KEYS), KEYS - 1);
    check_held_up();
    hold_up();
    WANT(aug_remove_all(&works, keys, KEYS), KEYS);
    check_held_up();
    WANT(aug_insert(&works, 0), 1);
    hold_up();
    WANT(aug_put_all(&works, keys, KEYS, weights, KEYS), KEYS);
    check_held_up();
    /* Nobody waits any more. */
    naps = 0;
    WANT(aug_look(&looks), AUG_OK);
    WANT(aug_look_done(&looks), AUG_OK);
    WANT(naps, 0);
    /* Each update was made once. */
    close_all(&report);
    WANT(report.size == KEYS && report.inserts == 2 * KEYS + 1 && report.removals == KEYS + 1, 1);
}

/* So long does this take that a call which waits then sleeps, and meanwhile the look ends. */
static void yield_long(void) {
    struct timespec begin, now;
    clock_gettime(CLOCK_MONOTONIC, &begin);
    do clock_gettime(CLOCK_MONOTONIC, &now); while ((now.tv_sec - begin.tv_sec) * 1000000000LL + now.tv_nsec - begin.tv_nsec < 1000000);
    others = end_look;
}

static void *insert_cancelled(void *answer) {
    WANT(pthread_cancel(pthread_self()), 0);
    *(int64_t *)answer = aug_insert(&works, 1);
    for (;;) pthread_testcancel();
}

/* The call goes on to its end, and nobody is waited for afterwards. */
static void is_cancelled_after_its_call(void) {
    pthread_t thread;
    int64_t answer = AUG_NONE;
    void *ended = NULL;
    open_all();
    fill();
    others = yield_long;
    naps = 0;
    WANT(pthread_create(&thread, NULL, insert_cancelled, &answer), 0);
    WANT(pthread_join(thread, &ended), 0);
    WANT(ended == PTHREAD_CANCELED && answer == 1 && others == NULL, 1);
    /* That of the call, and that at the end of the look. */
    WANT(naps, 2);
    WANT(aug_look(&looks), AUG_OK);
    WANT(aug_look_done(&looks), AUG_OK);
    WANT(naps, 2);
    close_all(NULL);
}

/* How often the end of a look sleeps: once, if somebody waits. */
static unsigned naps_of_a_look(void) {
    naps = 0;
    WANT(aug_look(&looks), AUG_OK);
    WANT(aug_look_done(&looks), AUG_OK);
    return naps;
}

/* Who says that he waits and is closed, or no longer waits, holds up nobody. */
static void who_waits(void) {
    WANT(aug_open(&trie, BITS, 3, BYTES), AUG_OK);
    WANT(aug_user_open(&trie, &looks), AUG_OK);
    WANT(aug_user_open(&trie, &works), AUG_OK);
    WANT(aug_wait_end(&works), AUG_OK);
    WANT(naps_of_a_look(), 0);
    for (int i = 0; i < 2; i++) WANT(aug_wait_begin(&works), AUG_OK);
    WANT(naps_of_a_look(), 1);
    for (int i = 0; i < 2; i++) WANT(aug_wait_end(&works), AUG_OK);
    WANT(naps_of_a_look(), 0);
    /* The next user with this place does not wait, until it says so. */
    for (int i = 0; i < 2; i++) {
        WANT(aug_wait_begin(&works), AUG_OK);
        WANT(naps_of_a_look(), 1);
        WANT(aug_user_close(&works), AUG_OK);
        WANT(naps_of_a_look(), 0);
        WANT(aug_user_open(&trie, &works), AUG_OK);
        WANT(naps_of_a_look(), 0);
    }
    WANT(aug_close(&trie, NULL), AUG_OK);
    WANT(aug_user_close(&works), AUG_OK);
    WANT(aug_user_close(&looks), AUG_OK);
}

int main(void) {
    who_waits();
    updates_tell();
    arrays_go_on();
    is_cancelled_after_its_call();
    printf("ok: %u answers\n", wanted);
    return 0;
}
