/* What only C lets through: null, handles of the other kind, closed ones and what is none, arrays that are missing or too short, lengths that no array has, and
   progress that is none of its array; and the texts. All that rows can say is in tests/rows. */
#include "augtrie.h"
#include "want.h"

#include <string.h>

enum { KEYS = 1 << 4, LONG = KEYS + 1, UNWRITTEN = 123456 };

/* A length that no array has. */
#define ENDLESS ((size_t)-1)

static aug_trie trie = AUG_ZEROED;
static aug_user user = AUG_ZEROED;

/* What calls may write. */
static aug_told told;
static aug_member member;
static aug_span span;
static aug_change changes[LONG];
static uint32_t places[LONG], more[LONG];
static uint8_t bits[LONG];
static int64_t weighs[LONG];

static const uint32_t some[LONG] = {1, 3, 15}, heavy[LONG] = {7, 7, 7};

static void clear(void) {
    told = (aug_told){UNWRITTEN, UNWRITTEN}, member = (aug_member){UNWRITTEN, UNWRITTEN}, span = (aug_span){UNWRITTEN, 0, 0, 0};
    for (int i = 0; i < LONG; i++) {
        places[i] = more[i] = UNWRITTEN, weighs[i] = UNWRITTEN, bits[i] = 99;
        changes[i] = (aug_change){UNWRITTEN, 0, 0};
    }
}

static void nothing_was_written(void) {
    WANT(told.before == UNWRITTEN && told.now == UNWRITTEN && member.key == UNWRITTEN && span.sum == UNWRITTEN, 1);
    for (int i = 0; i < LONG; i++)
        MUST(places[i] == UNWRITTEN && more[i] == UNWRITTEN && weighs[i] == UNWRITTEN && bits[i] == 99 && changes[i].key == UNWRITTEN, 1);
}

/* Each of some calls answers this code. */
#define EACH(code, ...) do { \
    const int64_t each_[] = {__VA_ARGS__}; \
    for (size_t i_ = 0; i_ < sizeof each_ / sizeof *each_; i_++) WANT(each_[i_], code); \
} while (0)

/* Each call of a user answers one code, and those of its look another one. */
static void each_call(aug_user *of, int64_t code, int64_t of_looks) {
    clear();
    EACH(code, aug_insert(of, 1), aug_remove(of, 1, &told), aug_put(of, 1, 1, &told), aug_add(of, 1, 1, &told), aug_sub(of, 1, 1, &told), aug_room(of),
        aug_pop_first(of, &member), aug_pop_last(of, &member), aug_insert_all(of, some, 3), aug_remove_all(of, some, 3), aug_put_all(of, some, 3, heavy, 3),
        aug_insert_all(of, NULL, 0), aug_remove_all(of, NULL, 0), aug_put_all(of, NULL, 0, NULL, 0), aug_look(of));
    EACH(of_looks, aug_look_again(of), aug_look_done(of), aug_has(of, 1), aug_weight(of, 1), aug_size(of), aug_rank(of, 1), aug_select(of, 0),
        aug_select_by_weight(of, 0), aug_before(of, 1), aug_after(of, 1), aug_first(of), aug_last(of), aug_range(of, 0, 9, &span),
        aug_rank_all(of, some, 3, places, 3), aug_has_all(of, some, 3, bits, 3), aug_weight_all(of, some, 3, weighs, 3), aug_keys(of, 0, places, LONG),
        aug_list(of, 0, places, more, LONG), aug_list_back(of, 9, places, more, LONG), aug_changes(of, 0, changes, LONG), aug_changes(of, 0, NULL, 0),
        aug_changes_since(of, some, heavy, 3, 0, changes, LONG));
    nothing_was_written();
}

/* The same of those that never wait, which take no null. */
static void each_try(aug_user *of, int64_t code, int64_t of_looks) {
    aug_progress so_far = {0, 0};
    EACH(code, aug_try_insert(of, 1), aug_try_remove(of, 1, &told), aug_try_put(of, 1, 1, &told), aug_try_add(of, 1, 1, &told), aug_try_sub(of, 1, 1, &told),
        aug_try_pop_first(of, &member), aug_try_pop_last(of, &member), aug_try_room(of), aug_try_look(of), aug_try_insert_all(of, some, 3, &so_far),
        aug_try_remove_all(of, some, 3, &so_far), aug_try_put_all(of, some, 3, heavy, 3, &so_far));
    EACH(of_looks, aug_try_look_again(of));
    WANT(so_far.made == 0 && so_far.changed == 0, 1);
    nothing_was_written();
}

/* What is no user: nothing behind it is read. */
static void no_users(void) {
    aug_user wild = {.tag = 0x1234, .at = (void *)8, .of = (void *)8}, *kinds[] = {&user, &wild, (aug_user *)&trie};
    each_call(NULL, AUG_CLOSED, AUG_CLOSED);
    WANT(aug_user_close(NULL), AUG_CLOSED);
    WANT(aug_wait_begin(NULL), AUG_CLOSED);
    WANT(aug_wait_end(NULL), AUG_CLOSED);
    for (int i = 0; i < 4; i++) {
        aug_user *of = kinds[i < 3 ? i : 2];
        if (i == 3) WANT(aug_open(&trie, 4, 2, 1 << 20), AUG_OK);
        each_call(of, AUG_CLOSED, AUG_CLOSED);
        each_try(of, AUG_CLOSED, AUG_CLOSED);
        WANT(aug_user_close(of), AUG_CLOSED);
        WANT(aug_wait_begin(of), AUG_CLOSED);
        WANT(aug_wait_end(of), AUG_CLOSED);
    }
    WANT(aug_close(&trie, NULL), AUG_OK);
}

/* What is no trie, and what nothing is opened over. */
static void no_tries(void) {
    aug_trie third = AUG_ZEROED, wild = {.tag = 0x1234, .at = (void *)8};
    aug_user one = AUG_ZEROED, more_users = AUG_ZEROED;
    WANT(aug_open(NULL, 4, 1, 1 << 20), AUG_CLOSED);
    WANT(aug_tend(NULL), AUG_CLOSED);
    WANT(aug_close(NULL, NULL), AUG_CLOSED);
    WANT(aug_close(&wild, NULL), AUG_CLOSED);
    WANT(aug_tend(&wild), AUG_CLOSED);
    WANT(aug_user_open(&wild, &one), AUG_CLOSED);
    WANT(aug_user_open(NULL, &one), AUG_CLOSED);
    WANT(aug_open(&trie, 4, 2, 1 << 20), AUG_OK);
    WANT(aug_user_open(&trie, NULL), AUG_CLOSED);
    WANT(aug_user_open(&trie, &one), AUG_OK);
    /* Nothing is opened over an open handle of the other kind, which stays open. */
    WANT(aug_open(&third, 4, 1, 1 << 20), AUG_OK);
    WANT(aug_user_open(&third, (aug_user *)&trie), AUG_CLOSED);
    WANT(aug_user_open(&third, (aug_user *)&third), AUG_CLOSED);
    WANT(aug_open((aug_trie *)&one, 4, 1, 1 << 20), AUG_CLOSED);
    WANT(aug_user_open((aug_trie *)&one, &more_users), AUG_CLOSED);
    WANT(aug_close((aug_trie *)&one, NULL), AUG_CLOSED);
    WANT(aug_tend((aug_trie *)&one), AUG_CLOSED);
    /* Nor is the place of a user that was closed given to one. */
    WANT(aug_user_open(&third, &more_users), AUG_OK);
    WANT(aug_user_close(&more_users), AUG_OK);
    WANT(aug_user_open(&third, (aug_user *)&trie), AUG_CLOSED);
    WANT(aug_close(&third, NULL), AUG_OK);
    WANT(aug_insert(&one, 1), 1);
    WANT(aug_user_close(&one), AUG_OK);
    WANT(aug_close(&trie, NULL), AUG_OK);
}

/* Lengths are refused before anything is read, and an array of no keys may be anywhere. */
static void updates_of_lengths(void) {
    EACH(AUG_BAD_LENGTH, aug_insert_all(&user, NULL, 1), aug_insert_all(&user, some, ENDLESS), aug_insert_all(&user, some, LONG),
        aug_remove_all(&user, some, AUG_MOST_KEYS + 1), aug_put_all(&user, some, 1, heavy, 2), aug_put_all(&user, some, 2, heavy, 1),
        aug_put_all(&user, some, 1, NULL, 1), aug_put_all(&user, some, ENDLESS - 1, heavy, ENDLESS - 1), aug_put_all(&user, some, 2, heavy, ENDLESS - 1));
    EACH(0, aug_insert_all(&user, some, 0), aug_insert_all(&user, NULL, 0), aug_remove_all(&user, NULL, 0), aug_put_all(&user, NULL, 0, NULL, 0));
}

static void queries_of_lengths(void) {
    clear();
    EACH(AUG_BAD_LENGTH, aug_rank_all(&user, some, 3, places, 2), aug_rank_all(&user, some, 3, NULL, 3), aug_rank_all(&user, NULL, 3, places, 3),
        aug_rank_all(&user, some, LONG, places, LONG), aug_rank_all(&user, some, ENDLESS, places, ENDLESS), aug_rank_all(&user, some, 3, places, ENDLESS),
        aug_has_all(&user, some, 3, bits, 2), aug_has_all(&user, some, 3, NULL, 3), aug_has_all(&user, some, AUG_MOST_KEYS + 1, bits, 4),
        aug_weight_all(&user, some, 3, weighs, 2), aug_weight_all(&user, some, 3, NULL, 3), aug_weight_all(&user, NULL, 3, weighs, 4),
        aug_weight_all(&user, some, LONG, weighs, LONG), aug_keys(&user, 0, NULL, 4), aug_keys(&user, 0, places, ENDLESS),
        aug_list(&user, 0, places, NULL, 4), aug_list_back(&user, 9, NULL, more, 4), aug_list_back(&user, 9, places, more, ENDLESS));
    EACH(AUG_BAD_LENGTH, aug_changes(&user, 0, NULL, 1), aug_changes(&user, 0, changes, ENDLESS), aug_changes_since(&user, some, heavy, LONG, 0, changes, 1),
        aug_changes_since(&user, NULL, heavy, 3, 0, changes, 1), aug_changes_since(&user, some, NULL, 3, 0, changes, 1),
        aug_changes_since(&user, some, heavy, 3, 0, NULL, 1), aug_changes_since(&user, some, heavy, 3, 0, changes, ENDLESS));
    nothing_was_written();
}

/* Arrays of no places may be anywhere, and more places than a trie has keys are no fault. What is beside the answers is as it was. */
static void other_lengths(void) {
    EACH(0, aug_rank_all(&user, NULL, 0, NULL, 0), aug_has_all(&user, NULL, 0, NULL, 0), aug_weight_all(&user, NULL, 0, NULL, 0), aug_keys(&user, 0, NULL, 0),
        aug_list(&user, 0, NULL, NULL, 0), aug_list_back(&user, 9, NULL, NULL, 0), aug_changes(&user, 0, NULL, 0),
        aug_changes_since(&user, NULL, NULL, 0, 0, NULL, 0), aug_changes_since(&user, some, heavy, 3, 0, NULL, 0), aug_range(&user, 7, 7, NULL));
    WANT(aug_range(&user, 1, 3, NULL), 2);
    WANT(aug_rank_all(&user, some, 3, places, LONG), 0);
    WANT(places[0] == 0 && places[1] == 2 && places[2] == 3 && places[3] == UNWRITTEN, 1);
    uint32_t *all = malloc(100000 * sizeof *all);
    if (!all) exit(1);
    WANT(aug_keys(&user, 0, all, 100000), 3);
    WANT(all[0] == 1 && all[1] == 2 && all[2] == 5, 1);
    free(all);
}

/* A call goes on from where its progress is, and leaves a progress as it is that is none of its array. 7 goes in and out again. */
static void go_on(void) {
    const uint32_t in[] = {5, 5, 7, 1}, out[] = {7, 9}, bad[] = {16, 3}, weights[] = {30, 40, 50, 60}, long_one[LONG] = {0};
    aug_progress beyond = {5, 0}, changed = {1, 2}, half = {2, 1}, none = {0, 0}, all = {4, 4}, behind = {1, 1};
    WANT(aug_try_insert_all(&user, in, 4, &beyond), AUG_BAD_LENGTH);
    WANT(beyond.made == 5 && beyond.changed == 0, 1);
    WANT(aug_try_insert_all(&user, in, 4, &changed), AUG_BAD_LENGTH);
    WANT(changed.made == 1 && changed.changed == 2, 1);
    WANT(aug_try_insert_all(&user, long_one, LONG, &none), AUG_BAD_LENGTH);
    WANT(aug_try_put_all(&user, in, 4, weights, 3, &none), AUG_BAD_LENGTH);
    WANT(aug_try_remove_all(&user, bad, 2, &none), AUG_BAD_KEY);
    WANT(none.made == 0 && none.changed == 0, 1);
    WANT(aug_try_insert_all(&user, bad, 2, &behind), AUG_BAD_KEY);
    WANT(behind.made == 1 && behind.changed == 1, 1);
    WANT(aug_try_insert_all(&user, in, 4, &all), 0);
    WANT(all.made == 4 && all.changed == 4, 1);
    WANT(aug_try_insert_all(&user, in, 4, &half), 0);
    WANT(half.made == 4 && half.changed == 2, 1);
    WANT(aug_try_remove_all(&user, out, 2, &none), 0);
    WANT(none.made == 2 && none.changed == 1, 1);
    half = (aug_progress){3, 0};
    WANT(aug_try_put_all(&user, in, 4, weights, 4, &half), 0);
    WANT(half.made == 4 && half.changed == 1, 1);
    /* Of no keys it is done, also if the trie is closed. */
    none = (aug_progress){0, 0};
    WANT(aug_try_insert_all(&user, in, 0, &none), 0);
}

/* Looks of two different earlier rounds hold up an array in its middle, and who calls again goes on from there. */
static void go_on_later(void) {
    enum { SOME = 100, ROOM = 64 };
    aug_user looks = AUG_ZEROED, other = AUG_ZEROED;
    aug_progress so_far = {0, 0};
    uint32_t keys[SOME];
    for (uint32_t k = 0; k < SOME; k++) keys[k] = k;
    WANT(aug_open(&trie, 7, 3, 183552), AUG_OK);
    WANT(aug_user_open(&trie, &user), AUG_OK);
    WANT(aug_user_open(&trie, &looks), AUG_OK);
    WANT(aug_user_open(&trie, &other), AUG_OK);
    for (int made = 0; made < 2 * ROOM; made++) {
        WANT(aug_try_insert(&user, 127), !made);
        if (made % ROOM == 0) WANT(aug_look(made ? &other : &looks), AUG_OK);
    }
    /* All of the third round, and none of the next. */
    WANT(aug_try_insert_all(&user, keys, SOME, &so_far), AUG_AGAIN);
    WANT(so_far.made == ROOM && so_far.changed == ROOM, 1);
    WANT(aug_try_insert_all(&user, keys, SOME, &so_far), AUG_AGAIN);
    WANT(so_far.made == ROOM && so_far.changed == ROOM, 1);
    WANT(aug_size(&looks), 1);
    WANT(aug_try_look_again(&looks), 1);
    WANT(aug_size(&looks), ROOM + 1);
    WANT(aug_try_insert_all(&user, keys, SOME, &so_far), 0);
    WANT(so_far.made == SOME && so_far.changed == SOME, 1);
    WANT(aug_size(&looks), ROOM + 1);
    WANT(aug_size(&other), 1);
    WANT(aug_close(&trie, NULL), AUG_OK);
    WANT(aug_try_remove_all(&user, keys, 0, &(aug_progress){0, 0}), 0);
    WANT(aug_user_close(&looks), AUG_OK);
    WANT(aug_user_close(&other), AUG_OK);
    WANT(aug_user_close(&user), AUG_OK);
}

/* Each code has a text of its own, and no other number has one of them. */
static void read_texts(void) {
    for (int64_t code = AUG_TOO_LITTLE; code <= AUG_NONE; code++)
        for (int64_t other = AUG_TOO_LITTLE - 1; other <= AUG_OK; other++)
            WANT(!strcmp(aug_error_text(code), aug_error_text(other)), code == other);
    WANT(strcmp(aug_error_text(AUG_NO_USER), "all users of the trie are open"), 0);
    WANT(strcmp(aug_error_text(AUG_TOO_GREAT), "the weight and the amount together are no weight of 32 bits"), 0);
    WANT(strcmp(aug_error_text(INT64_MIN), aug_error_text(-1000)), 0);
    WANT(strcmp(aug_error_text(INT64_MAX), aug_error_text(AUG_OK)), 0);
    WANT(strcmp(aug_version(), AUG_VERSION), 0);
}

int main(void) {
    read_texts();
    no_users();
    no_tries();
    WANT(aug_open(&trie, 4, 1, 1 << 20), AUG_OK);
    WANT(aug_user_open(&trie, &user), AUG_OK);
    WANT(aug_insert_all(&user, (const uint32_t[]){5, 2, 1}, 3), 3);
    go_on();
    for (int i = 0; i < 2; i++) {
        updates_of_lengths();
        if (!i) WANT(aug_look(&user), AUG_OK);
    }
    queries_of_lengths();
    other_lengths();
    WANT(aug_look_done(&user), AUG_OK);
    WANT(aug_close(&trie, NULL), AUG_OK);
    each_call(&user, AUG_CLOSED, AUG_NOT_LOOKING);
    each_try(&user, AUG_CLOSED, AUG_NOT_LOOKING);
    WANT(aug_user_close(&user), AUG_OK);
    each_call(&user, AUG_CLOSED, AUG_CLOSED);
    go_on_later();
    printf("ok: %u answers\n", wanted);
    return 0;
}
