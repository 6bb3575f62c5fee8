#include <augtrie.h>
#include <stdio.h>

int main(void) {
    aug_trie trie = AUG_ZEROED;
    aug_user user = AUG_ZEROED;
    /* Keys below 2^12, one user, and a table of at most 2 MiB. */
    if (aug_open(&trie, 12, 1, 1 << 21) || aug_user_open(&trie, &user)) return 1;
    for (uint32_t key = 0; key < 1000; key++) {
        if (aug_insert(&user, key) < 0) return 1;
    }
    if (aug_look(&user)) return 1;
    printf("%d of %d are below 500\n", (int)aug_rank(&user, 500), (int)aug_size(&user));
    aug_look_done(&user);
    aug_user_close(&user);
    return aug_close(&trie, NULL) != 0;
}
