// The header as C++ sees it: two threads put keys in, and each answer is as it is in C.
#include "augtrie.h"
#include "want.h"

#include <cstdio>
#include <cstring>
#include <thread>
#include <type_traits>
#include <vector>

// Closes its trie, whatever happens.
struct Trie {
    aug_trie handle = AUG_ZEROED;
    ~Trie() { aug_close(&handle, nullptr); }
};

static_assert(std::is_trivial<aug_user>::value && std::is_standard_layout<aug_user>::value, "a handle is plain memory");

int main() {
    Trie trie;
    std::vector<aug_user> users(2);
    WANT(std::strcmp(aug_version(), AUG_VERSION), 0);
    WANT(std::strcmp(aug_error_text(AUG_LOOKING), "the user has a look already"), 0);
    WANT(aug_open(nullptr, 8, 1, 1 << 20), AUG_CLOSED);
    WANT(aug_open(&trie.handle, 8, 2, 1 << 20), AUG_OK);
    for (aug_user &user : users) WANT(aug_user_open(&trie.handle, &user), AUG_OK);

    std::vector<std::thread> threads;
    std::vector<std::int64_t> added(2);
    for (std::uint32_t i = 0; i < 2; i++)
        threads.emplace_back([&, i] {
            for (std::uint32_t k = 0; k < 64; k++) added[i] += aug_insert(&users[i], 2 * k + i);
        });
    for (std::thread &thread : threads) thread.join();
    WANT(added[0], 64);
    WANT(added[1], 64);

    aug_span span = {};
    std::vector<std::uint32_t> none, keys(200);
    WANT(aug_insert_all(&users[0], none.data(), none.size()), 0);
    WANT(aug_look(&users[0]), AUG_OK);
    WANT(aug_range(&users[0], 0, 4, &span), 4);
    WANT(span.sum, 0 + 1 + 2 + 3);
    WANT(aug_keys(&users[0], 0, keys.data(), keys.size()), 128);
    WANT(keys[127], 127);
    WANT(aug_look_done(&users[0]), AUG_OK);

    aug_change change = {};
    aug_told told = {};
    WANT(aug_look(&users[1]), AUG_OK);
    WANT(aug_put(&users[0], 7, 9, &told), 2);
    WANT(told.before == 7 && told.now == 9, 1);
    WANT(aug_look_again(&users[1]), AUG_OK);
    WANT(aug_changes(&users[1], 0, &change, 1), 1);
    WANT(change.key == 7 && change.before == 7 && change.now == 9, 1);
    for (aug_user &user : users) WANT(aug_user_close(&user), AUG_OK);

    aug_report report = {};
    WANT(aug_close(&trie.handle, &report), AUG_OK);
    WANT(report.size, 128);
    std::printf("ok: %u answers\n", wanted);
}
