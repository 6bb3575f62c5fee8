// Makes one call of the library so many times, for a counter of instructions: `ops OPERATION TIMES` prints the sum of the answers.
// Half of the keys of 16 bits are members.
#include "augtrie.h"
#include <inttypes.h>
#include <stdio.h>
#include <stdlib.h>
#include <string.h>

// With so many bytes the table is not nearly full before all is done, so that no piece of the next round is laid out.
enum { KEYS = 65536, BYTES = 3 << 26 };

static uint32_t half(uint32_t i) { return i * 20011u % (KEYS / 2); }
static uint32_t key(uint32_t i) { return i * 40503u % KEYS; }

#define EACH(name, call) \
    if (!strcmp(operation, name)) { \
        is_known = 1; \
        for (uint32_t i = 0; i < times; i++) sum += (uint64_t)(call); \
    }

int main(int count, char **words) {
    if (count != 3) return 2;
    const char *operation = words[1];
    uint32_t times = (uint32_t)atoi(words[2]);
    int is_known = !strcmp(operation, "none");
    aug_trie trie = AUG_ZEROED;
    aug_user user = AUG_ZEROED;
    aug_span span;
    if (aug_open(&trie, 16, 1, BYTES) || aug_user_open(&trie, &user)) return 1;
    for (uint32_t i = 0; i < KEYS / 2; i++)
        if (aug_insert(&user, 2 * i) != 1) return 1;
    uint64_t sum = 0;
    EACH("insert_new", aug_insert(&user, 2 * half(i) + 1))
    EACH("insert_present", aug_insert(&user, 2 * half(i)))
    EACH("put", aug_put(&user, 2 * half(i), i, NULL))
    EACH("look", aug_look(&user) || aug_look_done(&user))
    if (aug_look(&user)) return 1;
    EACH("again", aug_look_again(&user))
    EACH("has", aug_has(&user, key(i)))
    EACH("rank", aug_rank(&user, key(i)))
    EACH("select", aug_select(&user, half(i)))
    EACH("before", aug_before(&user, key(i)))
    EACH("after", aug_after(&user, key(i)))
    EACH("range", aug_range(&user, half(i), KEYS / 2 + key(i) % (KEYS / 2), &span))
    EACH("size", aug_size(&user))
    if (!is_known) return 2;
    printf("%" PRIu64 "\n", sum);
    return 0;
}
