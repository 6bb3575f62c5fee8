/* What the library has beside the proved object: its version, what its codes say, tests for null and of lengths, the calls that call again
   until they are done, and the part of a trie that its users share. */
#define _POSIX_C_SOURCE 200809L
#include "augtrie.h"

#include <pthread.h>
#include <sched.h>
#include <stdatomic.h>
#include <stdlib.h>
#include <string.h>
#include <time.h>

/* ---- The proved calls that the header does not show ---- */

struct handle {
    uint64_t tag;
    void *at;
};

int64_t aug_try_open(struct handle *trie, uint32_t bits, uint32_t users, uint64_t bytes);
int64_t aug_try_user_open(struct handle *trie, aug_user *user);
int64_t aug_try_tend(struct handle *trie);
int64_t aug_try_close(struct handle *trie, aug_report *report);
int64_t aug_user_free(aug_user *user);
int64_t aug_try_look_done(aug_user *user);
int64_t aug_try_has(aug_user *user, uint32_t key);
int64_t aug_try_weight(aug_user *user, uint32_t key);
int64_t aug_try_size(aug_user *user);
int64_t aug_try_rank(aug_user *user, uint32_t key);
int64_t aug_try_select(aug_user *user, uint32_t index);
int64_t aug_try_select_by_weight(aug_user *user, uint64_t sum);
int64_t aug_try_before(aug_user *user, uint32_t key);
int64_t aug_try_after(aug_user *user, uint32_t key);
int64_t aug_try_first(aug_user *user);
int64_t aug_try_last(aug_user *user);
int64_t aug_try_range(aug_user *user, uint32_t from, uint32_t to, aug_span *span);
int64_t aug_try_rank_all(aug_user *user, const uint32_t *keys, size_t n, uint32_t *out, size_t room);
int64_t aug_try_has_all(aug_user *user, const uint32_t *keys, size_t n, uint8_t *out, size_t room);
int64_t aug_try_weight_all(aug_user *user, const uint32_t *keys, size_t n, int64_t *out, size_t room);
int64_t aug_try_keys(aug_user *user, uint32_t from, uint32_t *out, size_t room);
int64_t aug_try_list(aug_user *user, uint32_t from, uint32_t *keys, size_t room, uint32_t *weights, size_t weight_room);
int64_t aug_try_list_back(aug_user *user, uint32_t below, uint32_t *keys, size_t room, uint32_t *weights, size_t weight_room);
int64_t aug_try_changes(aug_user *user, uint32_t from, aug_change *out, size_t room);
int64_t aug_try_changes_since(aug_user *user, const uint32_t *keys, size_t n, const uint32_t *weights, size_t weight_count, uint32_t from, aug_change *out, size_t room);

/* ---- Version and texts ---- */

const char *aug_version(void) {
    return AUG_VERSION;
}

const char *aug_error_text(int64_t code) {
    switch (code) {
        case AUG_NONE: return "there is no such member";
        case AUG_CLOSED: return "the trie or the user is not open";
        case AUG_BAD_KEY: return "a key is not below 2^bits, or, of a list, not above the one before it";
        case AUG_AGAIN: return "the call would have waited for another thread";
        case AUG_NO_MEMORY: return "a request for memory was refused";
        case AUG_BAD_BITS: return "the bits are outside 1 to 16";
        case AUG_BAD_USERS: return "the users are outside 1 to 64";
        case AUG_TOO_LARGE: return "the bytes are fewer than aug_least_bytes tells, or more than 3 * 2^29";
        case AUG_NO_USER: return "all users of the trie are open";
        case AUG_OPEN: return "the handle is open already";
        case AUG_BAD_LENGTH: return "an array is missing or too short, or longer than there are keys or than memory";
        case AUG_LOOKING: return "the user has a look already";
        case AUG_NOT_LOOKING: return "the user has no look";
        case AUG_TOO_GREAT: return "the weight and the amount together are no weight of 32 bits";
        case AUG_TOO_LITTLE: return "the key is no member, or weighs less than the amount";
        default: return code < 0 ? "no code of this library" : "no refusal";
    }
}

/* ---- A trie, which its users share ---- */

struct shared {
    pthread_mutex_t lock;          /* held by whoever reads or writes what follows */
    struct handle trie;            /* as the proved calls have it: closed once aug_close is done */
    struct handle idle[AUG_MOST_USERS]; /* the handles of users that were closed, for those that are opened next */
    unsigned idle_count;
    unsigned owners;               /* the trie's handle and each open user */
    uint32_t bits;                 /* of its keys; never changed */
    atomic_uint waiting;           /* how many calls, and users by aug_wait_begin, wait until others have ended their calls, or old looks */
};

/* What an open handle of a trie begins with, and what that of a user does. The proved calls have the same marks, so they open nothing over
   either. They are never given a caller's handle of a trie as one of theirs, since it leads to what its users share. */
static const uint64_t TRIE = 0x656972745f677561, USER = 0x726573755f677561;

static struct shared *shared_of(const aug_trie *trie) {
    return trie && trie->tag == TRIE ? trie->at : NULL;
}

/* Lets the lock go, and the memory with the last owner. */
static void leave(struct shared *s) {
    unsigned left = --s->owners;
    pthread_mutex_unlock(&s->lock);
    if (left) return;
    pthread_mutex_destroy(&s->lock);
    free(s);
}

/* How often whoever waits yields before it sleeps: for longer than several pieces of the next round take to lay out. */
enum { YIELDS = 1024 };

/* For how many nanoseconds it sleeps. */
enum { PAUSE = 50000 };

/* Nothing else in this file is a point at which a thread may be cancelled. If one were here, it would leave a count of those that wait, or an owner. */
static void sleep_a_little(void) {
    const struct timespec pause = {0, PAUSE};
    int state;
    pthread_setcancelstate(PTHREAD_CANCEL_DISABLE, &state);
    nanosleep(&pause, NULL);
    pthread_setcancelstate(state, &state);
}

static int64_t nanoseconds_now(void) {
    struct timespec now;
    clock_gettime(CLOCK_MONOTONIC, &now);
    return now.tv_sec * (int64_t)1000000000 + now.tv_nsec;
}

/* Yields, or in a long wait sleeps. Gives the next turn: where a yield takes longer than a sleep, processors are busy, and each further one might
   last until all their other threads have run. */
static unsigned wait_a_little(unsigned turn) {
    if (turn >= YIELDS) {
        sleep_a_little();
        return turn;
    }
    int64_t begin = nanoseconds_now();
    sched_yield();
    return nanoseconds_now() - begin > PAUSE ? YIELDS : turn + 1;
}

/* Has an open user counted among those that wait, or no longer. */
static int64_t count_as_waiting(aug_user *user, uint64_t waits) {
    if (!user || user->tag != USER) return AUG_CLOSED;
    atomic_uint *waiting = &((struct shared *)user->of)->waiting;
    if (waits > user->waits) atomic_fetch_add(waiting, 1);
    if (waits < user->waits) atomic_fetch_sub(waiting, 1);
    user->waits = waits;
    return AUG_OK;
}

int64_t aug_wait_begin(aug_user *user) { return count_as_waiting(user, 1); }
int64_t aug_wait_end(aug_user *user) { return count_as_waiting(user, 0); }

/* Calls again as long as another thread is waited for. */
#define CALLS_AGAIN(code, of, call) do { \
    if ((code = (call)) == AUG_AGAIN) { \
        struct shared *of_ = (of); \
        atomic_fetch_add(&of_->waiting, 1); \
        for (unsigned turn_ = 0; code == AUG_AGAIN; code = (call)) turn_ = wait_a_little(turn_); \
        atomic_fetch_sub(&of_->waiting, 1); \
    } \
} while (0)

/* The part of an open trie that its users share, or NULL for want of memory. */
static struct shared *share(struct handle trie, uint32_t bits) {
    struct shared *s = malloc(sizeof *s);
    if (!s) return NULL;
    memset(s, 0, sizeof *s);
    if (pthread_mutex_init(&s->lock, NULL)) {
        free(s);
        return NULL;
    }
    s->trie = trie;
    s->owners = 1;
    s->bits = bits;
    return s;
}

int64_t aug_open(aug_trie *trie, uint32_t bits, uint32_t users, uint64_t bytes) {
    if (!trie) return AUG_CLOSED;
    if (trie->tag == TRIE) return AUG_OPEN;
    /* What lies there: over an open user the proved call answers AUG_CLOSED. */
    struct handle opened = {trie->tag, trie->at};
    int64_t code = aug_try_open(&opened, bits, users, bytes);
    if (code != AUG_OK) return code;
    struct shared *s = share(opened, bits);
    if (!s) {
        aug_report unwanted;
        aug_try_close(&opened, &unwanted);
        return AUG_NO_MEMORY;
    }
    *trie = (aug_trie){TRIE, s};
    return AUG_OK;
}

int64_t aug_least_bytes(uint32_t bits, uint32_t users) {
    if (bits < 1 || bits > 16) return AUG_BAD_BITS;
    if (users < 1 || users > AUG_MOST_USERS) return AUG_BAD_USERS;
    /* Words of a part of the table: of the trie with its first records, and of each user, with the records of so many updates. */
    const int64_t record_words = 5, updates = 64;
    const int64_t trie = (((int64_t)1 << bits) - 1) * (record_words + 2) + 1 + record_words * bits;
    const int64_t each_user = 1 + updates * record_words * bits;
    /* Three parts, in words of 8 bytes. */
    return 3 * 8 * (trie + users * each_user);
}

int64_t aug_user_open(aug_trie *trie, aug_user *user) {
    struct shared *s = shared_of(trie);
    if (!s || !user) return AUG_CLOSED;
    if (user->tag == USER) return AUG_OPEN;
    int64_t code = AUG_OK;
    pthread_mutex_lock(&s->lock);
    /* The proved call answers AUG_CLOSED over an open trie. The handle of a user that was closed is given on without it. */
    if (s->idle_count && user->tag != TRIE) {
        struct handle idle = s->idle[--s->idle_count];
        *user = (aug_user){.tag = idle.tag, .at = idle.at};
    } else {
        code = aug_try_user_open(&s->trie, user);
    }
    if (code == AUG_OK) {
        user->of = s;
        user->waits = 0;
        s->owners++;
    }
    pthread_mutex_unlock(&s->lock);
    return code;
}

int64_t aug_user_close(aug_user *user) {
    aug_wait_end(user);
    int64_t ended = aug_look_done(user);
    if (ended != AUG_OK && ended != AUG_NOT_LOOKING) return ended;
    struct shared *s = user->of;
    pthread_mutex_lock(&s->lock);
    if (s->trie.tag) s->idle[s->idle_count++] = (struct handle){user->tag, user->at};
    else aug_user_free(user);
    *user = (aug_user){.tag = 0};
    leave(s);
    return AUG_OK;
}

int64_t aug_tend(aug_trie *trie) {
    struct shared *s = shared_of(trie);
    if (!s) return AUG_CLOSED;
    pthread_mutex_lock(&s->lock);
    int64_t code = aug_try_tend(&s->trie);
    pthread_mutex_unlock(&s->lock);
    return code;
}

/* Closes the trie with the lock held, unless a user is in a call. */
static int64_t try_close(struct shared *s, aug_report *report) {
    pthread_mutex_lock(&s->lock);
    int64_t code = aug_try_close(&s->trie, report);
    if (code != AUG_OK) {
        pthread_mutex_unlock(&s->lock);
        return code;
    }
    while (s->idle_count) {
        struct handle idle = s->idle[--s->idle_count];
        aug_user user = {.tag = idle.tag, .at = idle.at};
        aug_user_free(&user);
    }
    leave(s);
    return code;
}

int64_t aug_close(aug_trie *trie, aug_report *report) {
    struct shared *s = shared_of(trie);
    aug_report unwanted;
    int64_t code;
    if (!s) return AUG_CLOSED;
    /* This call is an owner too, until it waits no more. */
    pthread_mutex_lock(&s->lock);
    s->owners++;
    pthread_mutex_unlock(&s->lock);
    CALLS_AGAIN(code, s, try_close(s, report ? report : &unwanted));
    pthread_mutex_lock(&s->lock);
    leave(s);
    *trie = (aug_trie){0, NULL};
    return code;
}

/* ---- Calls of a user ---- */

/* What is seldom done stands out of line, so that a call keeps few registers. */
#if defined(__GNUC__)
#define SELDOM __attribute__((noinline, cold))
#else
#define SELDOM
#endif

static SELDOM int64_t slept(void) {
    sleep_a_little();
    return AUG_OK;
}

int64_t aug_look_done(aug_user *user) {
    if (!user) return AUG_CLOSED;
    int64_t code = aug_try_look_done(user);
    /* Whoever waits may wait for this look, and goes on before this thread does. */
    if (code == AUG_OK && atomic_load(&((struct shared *)user->of)->waiting)) return slept();
    return code;
}

/* A call of a user, which is made again, by at_last, until it is done. */
#define OF_USER(call, at_last) do { if (!user) return AUG_CLOSED; int64_t code_ = (call); return code_ == AUG_AGAIN ? (at_last) : code_; } while (0)
#define AT_LAST(call) do { int64_t code_; CALLS_AGAIN(code_, user->of, call); return code_; } while (0)

static SELDOM int64_t insert_at_last(aug_user *user, uint32_t key) { AT_LAST(aug_try_insert(user, key)); }
static SELDOM int64_t remove_at_last(aug_user *user, uint32_t key, aug_told *told) { AT_LAST(aug_try_remove(user, key, told)); }
static SELDOM int64_t put_at_last(aug_user *user, uint32_t key, uint32_t weight, aug_told *told) { AT_LAST(aug_try_put(user, key, weight, told)); }
static SELDOM int64_t room_at_last(aug_user *user) { AT_LAST(aug_try_room(user)); }
static SELDOM int64_t look_at_last(aug_user *user) { AT_LAST(aug_try_look(user)); }
static SELDOM int64_t look_again_at_last(aug_user *user) { AT_LAST(aug_try_look_again(user)); }

int64_t aug_insert(aug_user *user, uint32_t key) { OF_USER(aug_try_insert(user, key), insert_at_last(user, key)); }
int64_t aug_room(aug_user *user) { OF_USER(aug_try_room(user), room_at_last(user)); }
int64_t aug_look(aug_user *user) { OF_USER(aug_try_look(user), look_at_last(user)); }
int64_t aug_look_again(aug_user *user) { OF_USER(aug_try_look_again(user), look_again_at_last(user)); }

int64_t aug_remove(aug_user *user, uint32_t key, aug_told *told) {
    aug_told unwanted;
    if (!told) told = &unwanted;
    OF_USER(aug_try_remove(user, key, told), remove_at_last(user, key, told));
}

int64_t aug_put(aug_user *user, uint32_t key, uint32_t weight, aug_told *told) {
    aug_told unwanted;
    if (!told) told = &unwanted;
    OF_USER(aug_try_put(user, key, weight, told), put_at_last(user, key, weight, told));
}

/* A change of what is there, which is made again too if another user changed the key in between. Nobody is waited for then. */
#define OF_CHANGE(call) do { \
    int64_t code_; \
    if (!user) return AUG_CLOSED; \
    do CALLS_AGAIN(code_, user->of, call); while (!code_); \
    return code_; \
} while (0)

int64_t aug_add(aug_user *user, uint32_t key, uint32_t amount, aug_told *told) {
    aug_told unwanted;
    OF_CHANGE(aug_try_add(user, key, amount, told ? told : &unwanted));
}

int64_t aug_sub(aug_user *user, uint32_t key, uint32_t amount, aug_told *told) {
    aug_told unwanted;
    OF_CHANGE(aug_try_sub(user, key, amount, told ? told : &unwanted));
}

int64_t aug_pop_first(aug_user *user, aug_member *member) {
    aug_member unwanted;
    OF_CHANGE(aug_try_pop_first(user, member ? member : &unwanted));
}

int64_t aug_pop_last(aug_user *user, aug_member *member) {
    aug_member unwanted;
    OF_CHANGE(aug_try_pop_last(user, member ? member : &unwanted));
}

int64_t aug_has(aug_user *user, uint32_t key) { return user ? aug_try_has(user, key) : AUG_CLOSED; }
int64_t aug_weight(aug_user *user, uint32_t key) { return user ? aug_try_weight(user, key) : AUG_CLOSED; }
int64_t aug_size(aug_user *user) { return user ? aug_try_size(user) : AUG_CLOSED; }
int64_t aug_rank(aug_user *user, uint32_t key) { return user ? aug_try_rank(user, key) : AUG_CLOSED; }
int64_t aug_select(aug_user *user, uint32_t index) { return user ? aug_try_select(user, index) : AUG_CLOSED; }
int64_t aug_select_by_weight(aug_user *user, uint64_t sum) { return user ? aug_try_select_by_weight(user, sum) : AUG_CLOSED; }
int64_t aug_before(aug_user *user, uint32_t key) { return user ? aug_try_before(user, key) : AUG_CLOSED; }
int64_t aug_after(aug_user *user, uint32_t key) { return user ? aug_try_after(user, key) : AUG_CLOSED; }
int64_t aug_first(aug_user *user) { return user ? aug_try_first(user) : AUG_CLOSED; }
int64_t aug_last(aug_user *user) { return user ? aug_try_last(user) : AUG_CLOSED; }

int64_t aug_range(aug_user *user, uint32_t from, uint32_t to, aug_span *span) {
    aug_span unwanted;
    return user ? aug_try_range(user, from, to, span ? span : &unwanted) : AUG_CLOSED;
}

/* ---- Calls of a user for arrays ---- */

/* How many keys there are, or 0 if the user is not open. The handle of a trie is shorter, and has nothing behind what the proved calls read. */
static size_t universe(aug_user *user) {
    if (aug_size(user) == AUG_CLOSED) return 0;
    const struct shared *s = user->of;
    return (size_t)1 << s->bits;
}

/* Why n keys that may not be read, or so many places that may not be written, are refused, or 0. */
static int64_t refuses(aug_user *user, const void *keys, size_t n, const void *out, size_t room) {
    size_t key_count = universe(user);
    if (!key_count) return AUG_CLOSED;
    return n > key_count || (n && !keys) || room > SIZE_MAX / 16 || (room && !out) || room < n ? AUG_BAD_LENGTH : AUG_OK;
}

/* An array for a proved call, which takes none that is null: one of no places may be anywhere. */
static uint64_t nowhere;
#define ARRAY(places) ((places) ? (places) : (void *)&nowhere)

/* What an update of no keys answers: that is no call on the trie, so another one says if the trie is closed. */
static int64_t of_no_keys(aug_user *user) {
    int64_t left = aug_room(user);
    return left < 0 ? left : AUG_OK;
}

/* A call for an array that is made again, and goes on from where it came to, until all is done. */
#define OF_KEYS(call) do { \
    aug_progress so_far = {0, 0}; \
    int64_t code_ = refuses(user, keys, n, keys, n); \
    if (code_ == AUG_OK) CALLS_AGAIN(code_, user->of, call); \
    if (code_ == AUG_OK && !n) code_ = of_no_keys(user); \
    return code_ == AUG_OK ? (int64_t)so_far.changed : code_; \
} while (0)

int64_t aug_insert_all(aug_user *user, const uint32_t *keys, size_t n) { OF_KEYS(aug_try_insert_all(user, ARRAY(keys), n, &so_far)); }
int64_t aug_remove_all(aug_user *user, const uint32_t *keys, size_t n) { OF_KEYS(aug_try_remove_all(user, ARRAY(keys), n, &so_far)); }
int64_t aug_put_all(aug_user *user, const uint32_t *keys, size_t n, const uint32_t *weights, size_t weight_count) {
    int64_t refused = refuses(user, weights, weight_count, weights, weight_count);
    if (refused != AUG_OK) return refused;
    OF_KEYS(aug_try_put_all(user, ARRAY(keys), n, ARRAY(weights), weight_count, &so_far));
}

/* A query for an array, unless its lengths are refused. */
#define OF_PLACES(keys, n, call) do { int64_t code_ = refuses(user, keys, n, out, room); return code_ == AUG_OK ? (call) : code_; } while (0)

int64_t aug_rank_all(aug_user *user, const uint32_t *keys, size_t n, uint32_t *out, size_t room) {
    OF_PLACES(keys, n, aug_try_rank_all(user, ARRAY(keys), n, ARRAY(out), room));
}

int64_t aug_has_all(aug_user *user, const uint32_t *keys, size_t n, uint8_t *out, size_t room) {
    OF_PLACES(keys, n, aug_try_has_all(user, ARRAY(keys), n, ARRAY(out), room));
}

int64_t aug_weight_all(aug_user *user, const uint32_t *keys, size_t n, int64_t *out, size_t room) {
    OF_PLACES(keys, n, aug_try_weight_all(user, ARRAY(keys), n, ARRAY(out), room));
}

int64_t aug_keys(aug_user *user, uint32_t from, uint32_t *out, size_t room) {
    OF_PLACES(NULL, 0, aug_try_keys(user, from, ARRAY(out), room));
}

/* The same for two arrays. */
#define OF_BOTH(call) do { \
    int64_t code_ = refuses(user, NULL, 0, keys, room); \
    if (code_ == AUG_OK) code_ = refuses(user, NULL, 0, weights, room); \
    return code_ == AUG_OK ? (call) : code_; \
} while (0)

int64_t aug_list(aug_user *user, uint32_t from, uint32_t *keys, uint32_t *weights, size_t room) {
    OF_BOTH(aug_try_list(user, from, ARRAY(keys), room, ARRAY(weights), room));
}

int64_t aug_list_back(aug_user *user, uint32_t below, uint32_t *keys, uint32_t *weights, size_t room) {
    OF_BOTH(aug_try_list_back(user, below, ARRAY(keys), room, ARRAY(weights), room));
}

/* How many changes aug_try_changes writes at most: it writes fewer only if no more come. */
enum { PAGE = 32 };

int64_t aug_changes(aug_user *user, uint32_t from, aug_change *out, size_t room) {
    int64_t refused = refuses(user, NULL, 0, out, room);
    if (refused != AUG_OK) return refused;
    aug_change *next = ARRAY(out);
    size_t left = room;
    for (;;) {
        const size_t places = left < PAGE ? left : PAGE;
        int64_t code = aug_try_changes(user, from, next, places);
        if (code < 0) return code;
        next += code;
        left -= (size_t)code;
        if (code < PAGE || !left) return (int64_t)(room - left);
        from = next[-1].key + 1;
    }
}

int64_t aug_changes_since(aug_user *user, const uint32_t *keys, const uint32_t *weights, size_t n, uint32_t from, aug_change *out, size_t room) {
    int64_t refused = refuses(user, keys, n, keys, n);
    if (refused == AUG_OK) refused = refuses(user, weights, n, weights, n);
    if (refused == AUG_OK) refused = refuses(user, NULL, 0, out, room);
    if (refused != AUG_OK) return refused;
    const size_t key_count = universe(user);
    /* The proved call refuses keys that do not rise. */
    if (n && keys[n - 1] >= key_count) return AUG_BAD_KEY;
    /* No more changes come than there are keys. */
    return aug_try_changes_since(user, ARRAY(keys), n, ARRAY(weights), n, from, ARRAY(out), room < key_count ? room : key_count);
}
