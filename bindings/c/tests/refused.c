/* Each request of aug_open and aug_user_open for memory, or for a lock, refused in turn, also while other threads open users and work: the answer is
   AUG_NO_MEMORY, nothing is lost, and the same call made again succeeds. No other call makes a request, however often the table is full. And aug_add
   calls again whenever it has to. */
#include "augtrie.h"
#include "want.h"

#include <errno.h>
#include <pthread.h>
#include <stdatomic.h>

enum { BITS = 6, KEYS = 1 << BITS, THREADS = 4, TRIES = 8, UPDATES = 1000, BYTES = 195744, ROOM = 64 };

/* Of this thread: whether it opens something, and how many requests are granted before one is refused, or -1. */
static _Thread_local int opens;
static _Thread_local long left = -1;
static atomic_ulong refused, unasked;

static int refuses(void) {
    unasked += !opens;
    if (left < 0 || left--) return 0;
    refused++;
    return 1;
}

void *__real_malloc(size_t);
void *__wrap_malloc(size_t n) { return refuses() ? NULL : __real_malloc(n); }
void *__real_calloc(size_t, size_t); /* which a compiler makes of malloc and memset */
void *__wrap_calloc(size_t count, size_t n) { return refuses() ? NULL : __real_calloc(count, n); }
void *__real_realloc(void *, size_t);
void *__wrap_realloc(void *at, size_t n) { return refuses() ? NULL : __real_realloc(at, n); }
int __real_pthread_mutex_init(pthread_mutex_t *, const pthread_mutexattr_t *);
int __wrap_pthread_mutex_init(pthread_mutex_t *lock, const pthread_mutexattr_t *how) {
    return refuses() ? ENOMEM : __real_pthread_mutex_init(lock, how);
}

/* At times another user is said to have changed the key, and then another thread to be waited for. */
int64_t __real_aug_try_add(aug_user *, uint32_t, uint32_t, aug_told *);
int64_t __wrap_aug_try_add(aug_user *user, uint32_t key, uint32_t amount, aug_told *told) {
    static _Thread_local unsigned turn;
    if (++turn % 50 == 1) return AUG_AGAIN;
    if (turn % 50) return __real_aug_try_add(user, key, amount, told);
    *told = (aug_told){amount + 1, amount + 1};
    return 0;
}

/* Refuses the first request of a call, then the second, until the call makes no more of them. Counts them in `requests`. */
#define REFUSED_EACH(call) do { \
    int is_done_; \
    for (requests = 0, is_done_ = 0; !is_done_; requests += !is_done_) { \
        opens = 1, left = requests; \
        int64_t code_ = (call); \
        opens = 0, is_done_ = left != -1, left = -1; \
        MUST(code_, is_done_ ? AUG_OK : AUG_NO_MEMORY); \
    } \
} while (0)

static aug_trie trie = AUG_ZEROED;

/* Goes through many rounds of the table, with a user after another. */
static void *work(void *unused) {
    (void)unused;
    for (int i = 0; i < 2; i++) {
        aug_user user = AUG_ZEROED;
        aug_told told;
        long requests;
        REFUSED_EACH(aug_user_open(&trie, &user));
        for (uint32_t n = 0; n < UPDATES; n++) {
            if (n / KEYS % 2) {
                MUST(aug_remove(&user, n % KEYS, NULL) >= 0, 1);
            } else {
                MUST(aug_add(&user, n % KEYS, n, &told) > 0, 1);
                MUST(told.now, n && told.before == AUG_NONE ? n : told.before + n);
            }
            if (n % 100) continue;
            MUST(aug_look(&user), 0);
            MUST(aug_look_again(&user) >= 0, 1);
            MUST(aug_size(&user) <= KEYS, 1);
            MUST(aug_look_done(&user), 0);
        }
        MUST(aug_user_close(&user), 0);
    }
    return NULL;
}

/* How many updates a user has room for in three rounds: looks of the first two keep the table from being given a fourth. */
static uint32_t room(void) {
    aug_user user = AUG_ZEROED, looks = AUG_ZEROED, other = AUG_ZEROED;
    aug_told told;
    uint32_t made = 0;
    long requests;
    REFUSED_EACH(aug_user_open(&trie, &looks));
    WANT(requests > 0, 1);
    REFUSED_EACH(aug_user_open(&trie, &other));
    REFUSED_EACH(aug_user_open(&trie, &user));
    WANT(aug_look(&looks), 0);
    WANT(aug_room(&user), ROOM);
    for (int64_t code; made <= 3 * ROOM && (code = aug_try_put(&user, made % KEYS, made, &told)) != AUG_AGAIN; made++) {
        WANT(code > 0, 1);
        if (made == ROOM) WANT(aug_look(&other), 0);
    }
    WANT(aug_user_close(&looks), 0);
    WANT(aug_user_close(&other), 0);
    /* The place of a user that was closed takes no memory. */
    REFUSED_EACH(aug_user_open(&trie, &looks));
    WANT(requests, 0);
    WANT(aug_user_close(&looks), 0);
    WANT(aug_user_close(&user), 0);
    return made;
}

int main(void) {
    pthread_t threads[THREADS];
    long requests;
    for (int i = 0; i < TRIES; i++) {
        REFUSED_EACH(aug_open(&trie, BITS, THREADS, BYTES));
        WANT(requests > 2, 1);
        if (i % 2) WANT(room(), 3 * ROOM);
        for (int j = 0; j < THREADS; j++) WANT(pthread_create(&threads[j], NULL, work, NULL), 0);
        for (int j = 0; j < THREADS; j++) WANT(pthread_join(threads[j], NULL), 0);
        /* All places are left. */
        aug_user users[THREADS + 1] = {AUG_ZEROED};
        opens = 1;
        for (int j = 0; j <= THREADS; j++) WANT(aug_user_open(&trie, &users[j]), j < THREADS ? 0 : AUG_NO_USER);
        opens = 0;
        for (int j = 0; j <= THREADS; j++) WANT(aug_user_close(&users[j]), j < THREADS ? 0 : AUG_CLOSED);
        WANT(aug_close(&trie, NULL), 0);
    }
    WANT(unasked, 0);
    printf("ok: %lu refused\n", refused);
    return 0;
}
