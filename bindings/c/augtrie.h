/*
 * augtrie: a set of whole numbers with weights that threads share, for C and C++.
 *
 * Keys are the numbers below 2^bits, with 1 to 16 bits. Each member has a weight of 32 bits. A trie is opened for up to 64 users,
 * and stays open for as many updates as they like.
 *
 *   aug_trie t = AUG_ZEROED;                                         // the handle of a trie
 *   aug_user u = AUG_ZEROED;                                         // a user, for one thread at a time
 *   if (aug_open(&t, 12, 4, 1 << 21)) return 1;                      // the empty trie for keys below 4096 and 4 users, in at most 2^21 bytes
 *   if (aug_user_open(&t, &u)) return 1;
 *   if (aug_insert(&u, 7) < 0 || aug_look(&u) < 0) return 1;         // a code of the list below, as all answers below 0
 *   printf("%d of the members are below 9\n", (int)aug_rank(&u, 9));
 *   aug_look_done(&u);
 *   aug_user_close(&u);
 *   aug_close(&t, NULL);
 *
 * What a user sees of others. All updates of a trie are in one order. A look shows the set after a part of them: after its user's own so
 * far, and all that this user has seen before, so that no look goes back. That the updates of different users have one order, and that those
 * which have returned are in each later look, is proved on paper for the algorithm, and tested, but not proved of this code. A look stays as it
 * is until it is done or taken again, while its user and others update, over new rounds, and after aug_close.
 * What waits for whom. Most calls wait for nobody. When a user's part of the table is full, its next update waits for whoever takes a further
 * part or lays a piece of the next round out, and so may its next look. When the table is full, an update begins a new round of it, which waits
 * for the call that each other user is in; updates and new looks wait for that. So a thread that stands still in an update or a new look
 * (suspended, or debugged) stops all others of these once the table is full, which two threads that only update fill within a second; and while
 * it takes a part or lays a piece out, it stops those whose parts are full. Nobody waits for a look, with one exception: the table has three parts, each for a
 * round, and a look keeps the part of its round. So while looks of two different earlier rounds are open, the round at work is the last: when
 * that is full, updates wait until the looks of one of the two are done or taken again. Two users that update beside such looks of their own
 * may wait for one another, so take a look again from time to time if you keep it while you update. The calls aug_try_.. never wait, and
 * answer AUG_AGAIN where the others would; these call again, and yield or sleep in between. aug_close waits for calls too. A user that is in
 * no call holds nobody up, nor does one whose thread ended so, but for an old look. aug_user_open, aug_user_close, aug_tend and aug_close of
 * a trie wait for one another.
 *
 * What you owe. Zero a handle before you open it, and never copy or change an open one. Give a user to one call at a time; it may go
 * from thread to thread, if that is ordered by a lock, by starting or joining a thread, or by a sequentially consistent atomic. aug_close
 * is the last call on its trie, after those of other threads, while its users may be in calls; close them too, now or later. Pass arrays
 * that are as long as you say, and results that overlap with nothing else that you pass. One allocator is behind malloc and free. No
 * call from a signal handler, or from a forked child of a process with threads. A thread is not cancelled in a call, however long that waits, but
 * at the next cancellation point after it; asynchronous cancellation has to be off.
 *
 * Answers. Each call answers a number that is 0 or more, or one of the codes below. A call that answers a code has changed nothing of the
 * set, except one for an array that answers AUG_CLOSED or AUG_AGAIN. A handle that is null, zeroed, closed, or of the other kind is
 * answered AUG_CLOSED. aug_open and aug_user_open open a zeroed or closed one, and leave an open one of either kind as it was. Only these
 * two take memory. The calls aug_try_.. are proved to do what they answer, but not to answer AUG_AGAIN or AUG_NO_MEMORY only where they have
 * to; the others, which call these again, are not proved.
 */
#ifndef AUGTRIE_H
#define AUGTRIE_H

#include <stddef.h>
#include <stdint.h>

/* The version of this header; aug_version() is that of the library. Everything else that has a version takes it from these three lines. */
#define AUG_VERSION_MAJOR 0
#define AUG_VERSION_MINOR 1
#define AUG_VERSION_PATCH 0
#define AUG_TEXT_(number) #number
#define AUG_DOTTED_(major, minor, patch) AUG_TEXT_(major) "." AUG_TEXT_(minor) "." AUG_TEXT_(patch)
#define AUG_VERSION AUG_DOTTED_(AUG_VERSION_MAJOR, AUG_VERSION_MINOR, AUG_VERSION_PATCH)

/* An answer that has to be looked at: the call may have done nothing. */
#if defined(__cplusplus) && __cplusplus >= 201703L || defined(__STDC_VERSION__) && __STDC_VERSION__ >= 202311L
#define AUG_NODISCARD [[nodiscard]]
#elif defined(__GNUC__)
#define AUG_NODISCARD __attribute__((warn_unused_result))
#else
#define AUG_NODISCARD
#endif

/* No trie has more keys, and no array of keys may be longer. */
#define AUG_MOST_KEYS 65536u

/* No trie has more users. */
#define AUG_MOST_USERS 64u

/* No table may take more bytes. */
#define AUG_MOST_BYTES (UINT64_C(3) << 29)

#ifdef __cplusplus
extern "C" {
#endif

/* A trie. Its fields are the library's own. */
typedef struct aug_trie {
    uint64_t tag;
    void *at;
} aug_trie;

/* A user of a trie. Its fields are the library's own. */
typedef struct aug_user {
    uint64_t tag;
    void *at;
    void *of;
    uint64_t waits;
} aug_user;

/* A handle before it is opened: all zeros. */
#ifdef __cplusplus
#define AUG_ZEROED {}
#else
#define AUG_ZEROED {0}
#endif

/* A member: a key, and what it weighs. */
typedef struct aug_member {
    uint32_t key;
    uint32_t weight;
} aug_member;

/* A key whose weight differs between two snapshots, and its weight in each: AUG_NONE where it is no member. */
typedef struct aug_change {
    uint32_t key;
    int64_t before; /* in the earlier one */
    int64_t now;    /* in the later one */
} aug_change;

/* What a key weighed before an update, and what it weighs after it: AUG_NONE where it is no member. If nothing was stored, both are what the
   update found. No update was made if the answer is AUG_CLOSED, AUG_BAD_KEY or AUG_AGAIN; then all stays as it was. */
typedef struct aug_told {
    int64_t before;
    int64_t now;
} aug_told;

/* What the members of an interval come to. Of no members, the least and the greatest are 0. */
typedef struct aug_span {
    uint64_t sum;      /* the sum of their weights, modulo 2^64 */
    uint32_t count;    /* how many they are */
    uint32_t least;    /* the least key */
    uint32_t greatest; /* the greatest key */
} aug_span;

/* What the life of a trie came to. A weight that was replaced counts as an insertion and a removal. */
typedef struct aug_report {
    uint64_t inserts;  /* how many keys were put in */
    uint64_t removals; /* how many keys were taken out */
    uint32_t size;     /* how many members there were at the end */
} aug_report;

/* How far a call for an array has come: zero it before the first call. */
typedef struct aug_progress {
    uint32_t made;    /* for how many of the keys an update was made */
    uint32_t changed; /* how many of these changed the set */
} aug_progress;

enum {
    AUG_OK = 0,            /* done; a call that counts may answer more */
    AUG_NONE = -1,         /* there is no such member */
    AUG_CLOSED = -2,       /* the trie was closed, or the handle is not open, or is no handle of this kind */
    AUG_BAD_KEY = -3,      /* a key is not below 2^bits, or, of a list, not above the one before it */
    AUG_AGAIN = -4,        /* the call would have waited for another thread */
    AUG_NO_MEMORY = -5,    /* a request for memory was refused */
    AUG_BAD_BITS = -6,     /* the bits are outside 1 to 16 */
    AUG_BAD_USERS = -7,    /* the users are outside 1 to 64 */
    AUG_TOO_LARGE = -8,    /* the bytes are fewer than aug_least_bytes tells, or more than 3 * 2^29 */
    AUG_NO_USER = -9,      /* all users of the trie are open */
    AUG_OPEN = -10,        /* the handle is open already */
    AUG_BAD_LENGTH = -11,  /* an array is missing or too short, or longer than there are keys or than memory */
    AUG_LOOKING = -12,     /* the user has a look already */
    AUG_NOT_LOOKING = -13, /* the user has no look */
    AUG_TOO_GREAT = -14,   /* the weight and the amount together are no weight of 32 bits */
    AUG_TOO_LITTLE = -15   /* the key is no member, or weighs less than the amount */
};

/* The version of the library, as "0.1.0". */
const char *aug_version(void);

/* What an answer below 0 says, as the comments above have it. Of other numbers it says that they are no refusal. Never null. */
const char *aug_error_text(int64_t code);

/* ---- The trie ---- */

/* Opens the empty trie for keys of so many bits, 1 to 16, and so many users, 1 to 64, whose table takes at most so many bytes: twice as
   many while it is opened. With more bytes it is full less often: 168 bytes go to each key below 2^bits, and each update takes 120 * bits of the
   others until it is full. For as many updates as there are keys, 2^22 are enough with 11 bits, and 2^26 with 15; with 16 bits and 4 users, 2^26
   give each user some 7,000 updates. Fewer bytes than aug_least_bytes tells are AUG_TOO_LARGE, and so are more than AUG_MOST_BYTES. Answers
   0, or AUG_OPEN, AUG_CLOSED, AUG_BAD_BITS, AUG_BAD_USERS, AUG_TOO_LARGE, AUG_NO_MEMORY. */
AUG_NODISCARD int64_t aug_open(aug_trie *trie, uint32_t bits, uint32_t users, uint64_t bytes);

/* The fewest bytes that aug_open takes for so many bits and users: with these, each user has 64 updates until the table is full. Answers
   that, or AUG_BAD_BITS, AUG_BAD_USERS. */
AUG_NODISCARD int64_t aug_least_bytes(uint32_t bits, uint32_t users);

/* Opens a user of the trie. Answers 0, or AUG_OPEN, AUG_CLOSED, AUG_NO_USER, AUG_NO_MEMORY. */
AUG_NODISCARD int64_t aug_user_open(aug_trie *trie, aug_user *user);

/* Closes a user, and ends its look. Its place is free for another one, which knows what this one knew. Answers 0 or AUG_CLOSED. */
int64_t aug_user_close(aug_user *user);

/* Lays a piece of the next round out, once the table is nearly full, in some microseconds. Updates do the same in between; a thread that has a
   processor to spare takes that work off them if it calls this again and again. It waits for aug_user_open, aug_user_close, aug_close and itself in other
   threads alone. Answers 1 if there is more to do now, 0 if there is not or somebody else is at it, so that it may sleep a little, or AUG_CLOSED. */
int64_t aug_tend(aug_trie *trie);

/* Closes the trie. Updates and new looks of its users answer AUG_CLOSED from then on, but a look that is open is asked as before. `report` may be null.
   Answers 0 or AUG_CLOSED. */
int64_t aug_close(aug_trie *trie, aug_report *report);

/* ---- Updates. A user makes them beside its look too, which shows what it showed. `told` may be null. ---- */

/* Puts a key in, with the key itself as its weight. Answers 1 if it was not there, 0 if it was, or AUG_CLOSED, AUG_BAD_KEY. */
AUG_NODISCARD int64_t aug_insert(aug_user *user, uint32_t key);

/* Takes a key out. Answers 1 if it was there, 0 if it was not, or as aug_insert. Also 0 if another user changed the key meanwhile and nothing
   was stored: `told` has the weight that was found then, and not AUG_NONE. */
AUG_NODISCARD int64_t aug_remove(aug_user *user, uint32_t key, aug_told *told);

/* Puts a key in with a weight, or gives a member this weight. Answers 1 if it was not there, 2 if it was, 0 if another user changed the
   key meanwhile and nothing was stored, or as aug_insert. */
AUG_NODISCARD int64_t aug_put(aug_user *user, uint32_t key, uint32_t weight, aug_told *told);

/* Adds an amount to a key's weight. A key that is not there goes in with it. Answers 1 if it was not there, 2 if it was, 3 if the amount
   is 0 and nothing changed, AUG_TOO_GREAT, or as aug_insert. It is made again if another user changed the key meanwhile, so no amount is
   lost, and somebody's update succeeds in each turn. `told` is that of the last turn. */
AUG_NODISCARD int64_t aug_add(aug_user *user, uint32_t key, uint32_t amount, aug_told *told);

/* Takes an amount from a key's weight, as aug_add. A key of whose weight nothing is left goes out. Answers 1 if it went out, 2 if it is
   still there, 3 if the amount is 0, AUG_TOO_LITTLE, or as aug_insert. */
AUG_NODISCARD int64_t aug_sub(aug_user *user, uint32_t key, uint32_t amount, aug_told *told);

/* Takes out the member with the least key, or the greatest, and writes it to `member`, which may be null. Answers 1, or AUG_NONE if there is
   none, or AUG_CLOSED. Each member comes to one caller. The call is made again as aug_add is. */
AUG_NODISCARD int64_t aug_pop_first(aug_user *user, aug_member *member);
AUG_NODISCARD int64_t aug_pop_last(aug_user *user, aug_member *member);

/* Puts n keys in, each by an update of its own, in their order. Answers how many were not there, or as aug_insert; or AUG_BAD_LENGTH if n
   is more than 2^bits. Except after AUG_CLOSED, no update was made then. Keys that rise take least. */
AUG_NODISCARD int64_t aug_insert_all(aug_user *user, const uint32_t *keys, size_t n);

/* Takes n keys out. Answers how many it took out, not those that another user changed meanwhile, or as aug_insert_all. */
AUG_NODISCARD int64_t aug_remove_all(aug_user *user, const uint32_t *keys, size_t n);

/* Puts n keys in, each with the weight that has its index, or gives a member this weight. Answers how many of the updates changed the
   set, or as aug_insert_all; or AUG_BAD_LENGTH if there are not as many weights as keys. A key that another user changed meanwhile stays as that
   left it, as by aug_put. */
AUG_NODISCARD int64_t aug_put_all(aug_user *user, const uint32_t *keys, size_t n, const uint32_t *weights, size_t weight_count);

/* How many updates are left to the user in its part of the table, and makes none. The next one after these takes a part that is spare, or begins
   a new round of the table, if none is; a refused update counts as well. Answers that, or AUG_CLOSED. While a new round is begun, it waits for
   that. */
AUG_NODISCARD int64_t aug_room(aug_user *user);

/* ---- Looks ---- */

/* Takes a snapshot, which the queries below are answered from. A user has one look at a time. Answers 0, or AUG_CLOSED, or AUG_LOOKING if it has one.
   It waits while a new round is begun, and, if its user's part was full since the look before, for whoever takes a part or lays a piece out. */
AUG_NODISCARD int64_t aug_look(aug_user *user);

/* Takes a newer snapshot in the same look. Answers 0 if it is of the same round as the one before: then aug_changes tells what is new in it. Answers 1
   if a new round began in between: then aug_changes has nothing to compare it with, and answers 0 as where nothing changed, but aug_changes_since
   tells what did. So whoever follows a trie looks at this answer. Or it answers AUG_CLOSED, AUG_NOT_LOOKING, and the look shows what it showed. It
   waits as aug_look does. */
AUG_NODISCARD int64_t aug_look_again(aug_user *user);

/* Ends the look, and sleeps for some 50 microseconds if a user waits. Answers 0, or AUG_CLOSED, AUG_NOT_LOOKING. */
int64_t aug_look_done(aug_user *user);

/* ---- Queries. Each may answer AUG_CLOSED too, and AUG_NOT_LOOKING. Any key may be asked for. ---- */

/* Whether the snapshot has the key, 1 or 0. */
int64_t aug_has(aug_user *user, uint32_t key);

/* The weight of a member, or AUG_NONE. */
int64_t aug_weight(aug_user *user, uint32_t key);

/* How many members there are. */
int64_t aug_size(aug_user *user);

/* How many members are below the key. */
int64_t aug_rank(aug_user *user, uint32_t key);

/* The member with exactly so many members below it, or AUG_NONE. */
int64_t aug_select(aug_user *user, uint32_t index);

/* The member up to which the weights, added up from the least member on, first come to more than `sum`, or AUG_NONE if all of them do not: of 5,
   which weighs 70, and 9, which weighs 30, it is 5 for 0 to 69, and 9 for 70 to 99. A member that weighs 0 is never the answer. No sum wraps:
   all weights of a trie come to less than 2^48. */
int64_t aug_select_by_weight(aug_user *user, uint64_t sum);

/* The greatest member below the key, or AUG_NONE. */
int64_t aug_before(aug_user *user, uint32_t key);

/* The least member above the key, or AUG_NONE. */
int64_t aug_after(aug_user *user, uint32_t key);

/* The least member, and the greatest, or AUG_NONE. */
int64_t aug_first(aug_user *user);
int64_t aug_last(aug_user *user);

/* What the members from `from` on that are below `to` come to. `span` may be null. Answers how many they are. */
AUG_NODISCARD int64_t aug_range(aug_user *user, uint32_t from, uint32_t to, aug_span *span);

/* Writes how many members are below each of n keys to the place of `out` with its index. The keys stand in any order. Answers 0; or
   AUG_BAD_LENGTH if `out` has fewer places than n, or n is more than 2^bits. Then nothing is written. */
AUG_NODISCARD int64_t aug_rank_all(aug_user *user, const uint32_t *keys, size_t n, uint32_t *out, size_t room);

/* The same of whether the snapshot has each key, 1 or 0. */
AUG_NODISCARD int64_t aug_has_all(aug_user *user, const uint32_t *keys, size_t n, uint8_t *out, size_t room);

/* The same of the weight of each key, or AUG_NONE. */
AUG_NODISCARD int64_t aug_weight_all(aug_user *user, const uint32_t *keys, size_t n, int64_t *out, size_t room);

/* Writes the least members from `from` on, rising, as many as there are, and at most `room`. Answers how many. To list all members, begin
   with 0, and go on from the last one plus 1 as long as the answer is `room`. */
AUG_NODISCARD int64_t aug_keys(aug_user *user, uint32_t from, uint32_t *out, size_t room);

/* The same, with the weight of each member at the place of `weights` with its index. Both arrays have `room` places. */
AUG_NODISCARD int64_t aug_list(aug_user *user, uint32_t from, uint32_t *keys, uint32_t *weights, size_t room);

/* The same of the greatest members below `below`, falling. To list all, begin with AUG_MOST_KEYS, and go on from the last one. */
AUG_NODISCARD int64_t aug_list_back(aug_user *user, uint32_t below, uint32_t *keys, uint32_t *weights, size_t room);

/* Writes the first changes from `from` on, with rising keys, as many as there are, and at most `room`: the keys whose weights differ between
   the snapshot that the last aug_look_again took and the one that the look showed before. There are none if the look was not taken again, or a new
   round began before it was, and a key that went out and came back with the same weight is none. Answers how many. To list all, begin with 0, and
   go on from the last key plus 1 as long as the answer is `room`. What no update has touched in between is passed over, and nobody is waited for. */
AUG_NODISCARD int64_t aug_changes(aug_user *user, uint32_t from, aug_change *out, size_t room);

/* The same between a set that you listed and the snapshot: n keys that rise, each with the weight that has its index, as aug_list wrote them. So what
   changed over a roll-over is told too, or since a look that has ended. Answers as aug_changes; AUG_BAD_KEY if the keys do not rise, or one is not below
   2^bits; or AUG_BAD_LENGTH if n is more than 2^bits. Then nothing is written. Each call goes over the whole list, and over all members of both from `from` on, however few of them changed: so
   give it room for many changes at a time. */
AUG_NODISCARD int64_t aug_changes_since(aug_user *user, const uint32_t *keys, const uint32_t *weights, size_t n, uint32_t from, aug_change *out, size_t room);

/* ---- The calls that never wait: what they may answer beside that is AUG_AGAIN. No handle, array or result may be null. ---- */

AUG_NODISCARD int64_t aug_try_insert(aug_user *user, uint32_t key);
AUG_NODISCARD int64_t aug_try_remove(aug_user *user, uint32_t key, aug_told *told);
AUG_NODISCARD int64_t aug_try_put(aug_user *user, uint32_t key, uint32_t weight, aug_told *told);
AUG_NODISCARD int64_t aug_try_room(aug_user *user);
AUG_NODISCARD int64_t aug_try_look(aug_user *user);
AUG_NODISCARD int64_t aug_try_look_again(aug_user *user);

/* These are not made again either if another user changed the key meanwhile, and answer 0 then. */
AUG_NODISCARD int64_t aug_try_add(aug_user *user, uint32_t key, uint32_t amount, aug_told *told);
AUG_NODISCARD int64_t aug_try_sub(aug_user *user, uint32_t key, uint32_t amount, aug_told *told);
AUG_NODISCARD int64_t aug_try_pop_first(aug_user *user, aug_member *member);
AUG_NODISCARD int64_t aug_try_pop_last(aug_user *user, aug_member *member);

/* These go on from where the one before came to, and answer 0 once an update was made for each key: of no keys, also if the trie is closed.
   A progress that is none of a call for so many keys is AUG_BAD_LENGTH. Each call looks at all keys, and answers AUG_BAD_KEY before it makes
   an update. */
AUG_NODISCARD int64_t aug_try_insert_all(aug_user *user, const uint32_t *keys, size_t n, aug_progress *progress);
AUG_NODISCARD int64_t aug_try_remove_all(aug_user *user, const uint32_t *keys, size_t n, aug_progress *progress);
AUG_NODISCARD int64_t aug_try_put_all(aug_user *user, const uint32_t *keys, size_t n, const uint32_t *weights, size_t weight_count, aug_progress *progress);

/* Say that a user waits, since its call answered AUG_AGAIN and is going to be made again, and that it waits no more. In between, the end of
   a look gives way to it, as aug_look_done says. Said twice, each counts once, and aug_user_close says the second one too. Both answer 0,
   or AUG_CLOSED, and wait for nobody. */
int64_t aug_wait_begin(aug_user *user);
int64_t aug_wait_end(aug_user *user);

#ifdef __cplusplus
}
#endif
#endif
