/* Plays files of rows, tests/rows/WHAT.rows, whose form calls.rows has at its head: each row is a call and what it must answer. It plays each file with the
   calls that wait, and then with those that never do in their place. What no call may write is held to what was there before, and the handles of users lie in
   memory that only opening and closing them may write. */
#define _DEFAULT_SOURCE
#include "augtrie.h"

#include <stdarg.h>
#include <stdio.h>
#include <stdlib.h>
#include <string.h>
#include <sys/mman.h>

enum { HANDLES = 2048, LINES = 1 << 18, WORD = 32, UNWRITTEN = 123456, PLACES = AUG_MOST_KEYS + 2 };

/* The names of codes, which begin with that of 0. */
static const char *const CODES[] = {"ok", "none", "closed", "bad_key", "again", "no_memory", "bad_bits", "bad_users", "too_large", "no_user", "open", "bad_length",
    "looking", "not_looking", "too_great", "too_little"};
enum { CODE_COUNT = sizeof CODES / sizeof *CODES };

/* The handles of the rows, each with a place for either kind. */
static struct handle { char name[WORD]; aug_trie trie; } handles[HANDLES];
static size_t handle_count;
static aug_user *users;

/* The file, whether calls that never wait are played, the line that is, how many rows were, and the variables. */
static const char *file;
static char *lines[LINES];
static size_t line_count, line;
static int tries;
static unsigned long played;
static uint64_t variables[128];

static void fail(const char *form, ...) {
    va_list more;
    va_start(more, form);
    fprintf(stderr, "%s:%zu (%s): ", file, line + 1, tries ? "by tries" : "by calls that wait");
    vfprintf(stderr, form, more);
    fprintf(stderr, "\n    %s\n", lines[line]);
    exit(1);
}

static void want(const char *what, int64_t got, int64_t wanted) {
    if (got != wanted) fail("%s is %lld, and should be %lld", what, (long long)got, (long long)wanted);
}

/* ---- Reading ---- */

static const char *at;

static void skip(void) { at += strspn(at, " "); }

static int eat(const char *signs) {
    skip();
    const int is = !strncmp(at, signs, strlen(signs));
    at += is ? strlen(signs) : 0;
    return is;
}

/* The next word, until the one after it is read. */
static const char *word(void) {
    static char next[WORD];
    skip();
    size_t length = strspn(at, "ABCDEFGHIJKLMNOPQRSTUVWXYZ_abcdefghijklmnopqrstuvwxyz");
    if (length >= WORD) fail("what is '%s'?", at);
    memcpy(next, at, length);
    next[length] = 0;
    at += length;
    return next;
}

static uint64_t atom(void) {
    if (*at >= '0' && *at <= '9') return strtoull(at, (char **)&at, 10);
    const char *name = word();
    if (!strcmp(name, "all")) return AUG_MOST_KEYS;
    if (!strcmp(name, "most")) return UINT32_MAX;
    if (!strcmp(name, "none")) return (uint64_t)AUG_NONE;
    if (strlen(name) != 1) fail("no number: '%s' before '%s'", name, at);
    return variables[(unsigned char)*name];
}

/* Numbers and variables with signs in between, from left to right. */
static uint64_t term(void) {
    skip();
    uint64_t value = atom();
    while (*at && strchr("+-*/%", *at)) {
        const char sign = *at++;
        const uint64_t other = atom();
        value = sign == '+' ? value + other : sign == '-' ? value - other : sign == '*' ? value * other : sign == '/' ? value / other : value % other;
    }
    return value;
}

static uint32_t number(void) { return (uint32_t)term(); }

/* A list: its numbers, which are keys for most calls, and what stands behind each, or the number again. */
struct list { size_t count; uint32_t keys[PLACES], weights[PLACES]; int64_t columns[3][PLACES]; };
static struct list given, wanted;

/* Adds numbers to a list, each with what stands behind them, in which `k` is the number. */
static void add(struct list *list, uint64_t from, uint64_t step, uint64_t count) {
    const char *behind = at;
    for (uint64_t i = 0; i < count; i++) {
        const size_t place = list->count++;
        const uint64_t key = variables['k'] = from + i * step;
        if (place >= PLACES) fail("the list is too long");
        at = behind;
        list->columns[0][place] = (int64_t)key;
        list->columns[1][place] = *at == '=' ? (at++, (int64_t)term()) : (int64_t)key;
        list->columns[2][place] = *at == '>' ? (at++, (int64_t)term()) : 0;
        list->keys[place] = (uint32_t)key;
        list->weights[place] = (uint32_t)list->columns[1][place];
    }
    if (!count) at += strcspn(at, " ]");
}

/* What stands in brackets, of which the first was read: 3, 0..32:4, 9>5:2 and 7x40. */
static void read_list(struct list *list) {
    list->count = 0;
    while (!eat("]")) {
        const uint64_t from = term();
        const char kind = *at;
        at += kind == '.' ? 2 : kind == '>' || kind == 'x';
        const uint64_t end = kind && strchr(".>x", kind) ? term() : 0, step = *at == ':' ? (at++, term()) : 1;
        if (kind == 'x') add(list, from, 0, end);
        else if (kind == '.') add(list, from, step, end > from ? (end - from + step - 1) / step : 0);
        else if (kind == '>') add(list, from, 0 - step, end > from ? 0 : (from - end) / step + 1);
        else add(list, from, 0, 1);
    }
}

/* The place of a handle, which is new if none has its name. */
static size_t handle(void) {
    char name[2 * WORD];
    strcpy(name, word());
    if (!*name) fail("no handle before '%s'", at);
    if (*at == '#') at++, sprintf(name + strlen(name), "#%u", number());
    for (size_t i = 0; i < handle_count; i++) if (!strcmp(handles[i].name, name)) return i;
    if (handle_count == HANDLES || strlen(name) >= WORD) fail("there are too many handles");
    strcpy(handles[handle_count].name, name);
    return handle_count++;
}

/* ---- Answers ---- */

static int64_t answer(void) {
    const char *begin = (skip(), at), *name = word();
    for (int code = 0; code < CODE_COUNT; code++) if (!strcmp(name, CODES[code])) return -code;
    if (strlen(name) > 1 && strcmp(name, "most")) fail("there is no code '%s'", name);
    at = begin;
    return (int64_t)term();
}

/* Any of the answers that a row has is this one, or that of a row without one. */
static void answers(int64_t got) {
    int64_t one = AUG_OK;
    int is_it = 0;
    if (eat("=")) do is_it |= got == (one = answer()); while (eat("|"));
    else is_it = got == one;
    if (!is_it) want("the answer", got, one);
}

/* What the brackets have is what the call wrote. Without them, of a call that may not have written it, it is what was there before. */
static void wrote(const int64_t *got, size_t count, int may_write) {
    const int is_told = eat("(");
    for (size_t i = 0; i < count; i++) {
        if (is_told) want("what it wrote", got[i], (int64_t)term());
        else if (!may_write) want("what may not be written", got[i], UNWRITTEN);
    }
    if (is_told && !eat(")")) fail("what is '%s'?", at);
}

/* What a call wrote to so many places, and to one behind them. */
static size_t room;
static int64_t out[3][PLACES];

/* So many rows and columns of that are the list of the row, if it has one, and behind them nothing was written. */
static void lists(int64_t code, size_t count, int columns) {
    if (code < 0 || (eat("=") && !eat("["))) answers(code < 0 ? code : UNWRITTEN);
    else read_list(&wanted);
    if (code < 0) count = 0;
    else want("how many", (int64_t)count, (int64_t)wanted.count);
    for (int column = 0; column < columns; column++)
        for (size_t i = 0; i <= room; i++) want("of the list", out[column][i], i < count ? wanted.columns[column][i] : UNWRITTEN);
}

/* ---- Calls ---- */

static uint32_t keys[PLACES], weights[PLACES];
static uint8_t bits[PLACES];
static int64_t each[PLACES];
static aug_change changes[PLACES];

#define IS(name) (!strcmp(call, name))
#define EITHER(name, ...) (is_try ? aug_try_##name(__VA_ARGS__) : aug_##name(__VA_ARGS__))

/* Only a few calls may write the handle of a user. */
static int64_t protect(int how, int64_t code) {
    if (mprotect(users, HANDLES * sizeof *users, how)) fail("the memory cannot be protected");
    return code;
}
#define WRITING(call) (protect(PROT_READ | PROT_WRITE, 0), protect(PROT_READ, call))

static int of_trie(aug_trie *trie, const char *call) {
    if (IS("open")) {
        const uint32_t of_bits = number(), of_users = number();
        answers(aug_open(trie, of_bits, of_users, term()));
    } else if (IS("least_bytes")) {
        const uint32_t of_bits = number();
        answers(aug_least_bytes(of_bits, number()));
    } else if (IS("user")) {
        aug_user *user = &users[handle()];
        answers(WRITING(aug_user_open(trie, user)));
    } else if (IS("tend")) {
        answers(aug_tend(trie));
    } else if (IS("close")) {
        aug_report r = {UNWRITTEN, UNWRITTEN, UNWRITTEN};
        const int64_t code = aug_close(trie, &r);
        answers(code);
        wrote((int64_t[]){(int64_t)r.inserts, (int64_t)r.removals, r.size}, 3, code == AUG_OK);
    } else return 0;
    return 1;
}

/* An update. What it tells goes nowhere every other time, if the row has no brackets; the calls that never wait take no null. */
static int update(aug_user *user, const char *call, int is_try) {
    const int tells = is_try || strchr(at, '(') || played % 2;
    aug_told told = {UNWRITTEN, UNWRITTEN}, *to = tells ? &told : NULL;
    aug_member member = {UNWRITTEN, UNWRITTEN}, *out_of = tells ? &member : NULL;
    int64_t code;
    if (IS("pop_first") || IS("pop_last")) {
        code = IS("pop_first") ? EITHER(pop_first, user, out_of) : EITHER(pop_last, user, out_of);
        answers(code);
        wrote((int64_t[]){member.key, member.weight}, 2, code == 1);
        return 1;
    }
    if (!IS("remove") && !IS("put") && !IS("add") && !IS("sub")) return 0;
    const uint32_t key = number(), amount = IS("remove") ? 0 : number();
    code = IS("remove") ? EITHER(remove, user, key, to) : IS("put") ? EITHER(put, user, key, amount, to)
        : IS("add") ? EITHER(add, user, key, amount, to) : EITHER(sub, user, key, amount, to);
    answers(code);
    wrote((int64_t[]){told.before, told.now}, 2, code != AUG_CLOSED && code != AUG_BAD_KEY && code != AUG_AGAIN);
    return 1;
}

/* An update of each key of a list. The call that never waits tells how many changed, answers 0 when all are made, and of no keys says nothing of the trie. */
static int update_all(aug_user *user, const char *call, int is_try) {
    aug_progress so_far = {0, 0};
    if (!IS("insert_all") && !IS("remove_all") && !IS("put_all")) return 0;
    if (!eat("[")) fail("no list");
    read_list(&given);
    const size_t n = given.count;
    int64_t code;
    if (!is_try || !n) code = IS("insert_all") ? aug_insert_all(user, given.keys, n) : IS("remove_all") ? aug_remove_all(user, given.keys, n)
        : aug_put_all(user, given.keys, n, given.weights, n);
    else code = IS("insert_all") ? aug_try_insert_all(user, given.keys, n, &so_far) : IS("remove_all") ? aug_try_remove_all(user, given.keys, n, &so_far)
        : aug_try_put_all(user, given.keys, n, given.weights, n, &so_far);
    if (is_try && code == AUG_OK) want("how many were made", so_far.made, (int64_t)n);
    answers(is_try && code == AUG_OK ? so_far.changed : code);
    return 1;
}

/* What answers a number alone. */
static int simple(aug_user *user, const char *call, int is_try) {
    if (IS("insert")) answers(EITHER(insert, user, number()));
    else if (IS("room")) answers(EITHER(room, user));
    else if (IS("look")) answers(EITHER(look, user));
    else if (IS("look_again")) answers(EITHER(look_again, user));
    else if (IS("look_done")) answers(aug_look_done(user));
    else if (IS("close")) answers(WRITING(aug_user_close(user)));
    else if (IS("wait_begin")) answers(WRITING(aug_wait_begin(user)));
    else if (IS("wait_end")) answers(WRITING(aug_wait_end(user)));
    else if (IS("size")) answers(aug_size(user));
    else if (IS("has")) answers(aug_has(user, number()));
    else if (IS("weight")) answers(aug_weight(user, number()));
    else if (IS("rank")) answers(aug_rank(user, number()));
    else if (IS("select")) answers(aug_select(user, number()));
    else if (IS("select_by_weight")) answers(aug_select_by_weight(user, term()));
    else if (IS("before")) answers(aug_before(user, number()));
    else if (IS("after")) answers(aug_after(user, number()));
    else if (IS("first")) answers(aug_first(user));
    else if (IS("last")) answers(aug_last(user));
    else return 0;
    return 1;
}

/* A query for each key of a list. */
static int64_t query_all(aug_user *user, const char *call, const struct list *of) {
    const int ranks = IS("rank_all"), has = IS("has_all");
    const size_t n = room = of->count;
    for (size_t i = 0; i <= n; i++) keys[i] = each[i] = UNWRITTEN, bits[i] = 99;
    int64_t code = ranks ? aug_rank_all(user, of->keys, n, keys, n) : has ? aug_has_all(user, of->keys, n, bits, n) : aug_weight_all(user, of->keys, n, each, n);
    for (size_t i = 0; i <= n; i++) out[0][i] = ranks ? keys[i] : !has ? each[i] : bits[i] == 99 ? UNWRITTEN : bits[i];
    return code;
}

/* How many columns a call lists. */
static int columns_of(const char *call) {
    return IS("keys") ? 1 : IS("list") || IS("list_back") ? 2 : IS("changes") || IS("changes_since") ? 3 : 0;
}

/* Lists members, from a key on or below it, or what changed. */
static int64_t list(aug_user *user, const char *call, uint32_t from, size_t places) {
    const int of_changes = columns_of(call) == 3;
    room = places;
    for (size_t i = 0; i <= room; i++) keys[i] = weights[i] = UNWRITTEN, changes[i] = (aug_change){UNWRITTEN, UNWRITTEN, UNWRITTEN};
    int64_t code = IS("keys") ? aug_keys(user, from, keys, room) : IS("list") ? aug_list(user, from, keys, weights, room)
        : IS("list_back") ? aug_list_back(user, from, keys, weights, room) : IS("changes") ? aug_changes(user, from, changes, room)
        : aug_changes_since(user, given.keys, given.weights, given.count, from, changes, room);
    for (size_t i = 0; i <= room; i++) {
        out[0][i] = of_changes ? changes[i].key : keys[i];
        out[1][i] = of_changes ? changes[i].before : weights[i];
        out[2][i] = changes[i].now;
    }
    return code;
}

static int query(aug_user *user, const char *call) {
    if (IS("range")) {
        aug_span s = {UNWRITTEN, UNWRITTEN, UNWRITTEN, UNWRITTEN};
        const uint32_t from = number(), to = number();
        const int64_t code = aug_range(user, from, to, &s);
        answers(code);
        if (code >= 0) want("the count", s.count, code);
        wrote((int64_t[]){(int64_t)s.sum, s.least, s.greatest}, 3, code >= 0);
        return 1;
    }
    const int columns = columns_of(call);
    if (!columns && !IS("rank_all") && !IS("has_all") && !IS("weight_all")) return 0;
    if (eat("[")) read_list(&given);
    if (!columns) {
        const int64_t code = query_all(user, call, &given);
        lists(code, given.count, 1);
        return 1;
    }
    const uint32_t from = number(), places = number();
    if (places > AUG_MOST_KEYS) fail("no list is so long");
    const int64_t code = list(user, call, from, places);
    lists(code, code < 0 ? 0 : (size_t)code, columns);
    return 1;
}

/* ---- All that a look answers ---- */

/* The member with so many below it, or AUG_NONE. */
static int64_t member(size_t below) { return below < given.count ? (int64_t)given.keys[below] : AUG_NONE; }

static void shows_key(aug_user *user, uint32_t key, size_t below) {
    const int is = member(below) == key;
    want("has", aug_has(user, key), is);
    want("weight", aug_weight(user, key), is ? (int64_t)given.weights[below] : AUG_NONE);
    want("rank", aug_rank(user, key), (int64_t)below);
    want("before", aug_before(user, key), below ? member(below - 1) : AUG_NONE);
    want("after", aug_after(user, key), member(below + (size_t)is));
    want("select", aug_select(user, (uint32_t)below), member(below));
}

static void shows_part(aug_user *user, size_t from, size_t to) {
    aug_span span;
    uint64_t sum = 0;
    for (size_t i = from; i < to; i++) sum += given.weights[i];
    want("range", aug_range(user, (uint32_t)member(from), (uint32_t)member(to), &span), (int64_t)(to - from));
    want("what it comes to", span.sum == sum && span.count == to - from, 1);
    want("the least", span.least, to > from ? member(from) : 0);
    want("the greatest", span.greatest, to > from ? member(to - 1) : 0);
}

/* All members, listed with room for so many at a time. */
static void shows_pages(aug_user *user, const char *call, size_t places) {
    const int is_back = IS("list_back");
    size_t listed = 0;
    uint32_t from = is_back ? UINT32_MAX : 0;
    for (int64_t count = (int64_t)places; count == (int64_t)places;) {
        const size_t left = given.count - listed;
        count = list(user, call, from, places);
        want("how many are listed", count, (int64_t)(left < places ? left : places));
        for (int64_t i = 0; i < count; i++, listed++) {
            const size_t place = is_back ? given.count - 1 - listed : listed;
            want("a key", out[0][i], member(place));
            if (!IS("keys")) want("a weight", out[1][i], given.weights[place]);
        }
        want("what lies behind", out[0][count], UNWRITTEN);
        if (count) from = (uint32_t)out[0][count - 1] + !is_back;
    }
}

/* Holds each kind of query to the list, which has the whole set. */
static int shows(aug_user *user, const char *call) {
    static const char *const LISTS[] = {"keys", "list", "list_back"}, *const ALL[] = {"rank_all", "has_all", "weight_all"};
    static const size_t places[] = {7, 32, AUG_MOST_KEYS};
    if (!IS("shows") || !eat("[")) return 0;
    read_list(&given);
    const size_t n = given.count;
    uint64_t sum = 0;
    want("size", aug_size(user), (int64_t)n);
    want("first", aug_first(user), member(0));
    want("last", aug_last(user), member(n - 1));
    for (size_t i = 0; i < n; i++) {
        const uint32_t key = given.keys[i], weight = given.weights[i];
        shows_key(user, key, i);
        if (key && (!i || given.keys[i - 1] < key - 1)) shows_key(user, key - 1, i);
        if (member(i + 1) != (int64_t)key + 1) shows_key(user, key + 1, i + 1);
        if (weight) want("select_by_weight", aug_select_by_weight(user, sum), key);
        if (weight) want("select_by_weight", aug_select_by_weight(user, sum + weight / 2), key);
        sum += weight;
        if (weight) want("select_by_weight", aug_select_by_weight(user, sum - 1), key);
    }
    shows_key(user, UINT32_MAX, n);
    want("select_by_weight", aug_select_by_weight(user, sum), AUG_NONE);
    want("select_by_weight", aug_select_by_weight(user, UINT64_MAX), AUG_NONE);
    if (n) shows_part(user, 0, n), shows_part(user, n / 3, n * 2 / 3), shows_part(user, n / 2, n);
    for (int i = 0; i < 3; i++) {
        for (int j = 0; j < 3; j++) shows_pages(user, LISTS[i], places[j]);
        want(ALL[i], query_all(user, ALL[i], &given), AUG_OK);
        for (size_t place = 0; place < n; place++) want(ALL[i], out[0][place], i == 0 ? (int64_t)place : i == 1 ? 1 : given.weights[place]);
    }
    return 1;
}

/* ---- Files ---- */

static void row(void) {
    const int is_of_trie = *at >= 'A' && *at <= 'Z';
    const size_t place = handle();
    if (*at++ != '.') fail("no call");
    char name[WORD], *call = strcpy(name, word());
    aug_user *user = &users[place];
    const int is_try = !strncmp(call, "try_", 4);
    call += is_try ? 4 : 0;
    if (!(is_of_trie ? of_trie(&handles[place].trie, call) : simple(user, call, is_try || tries) || update(user, call, is_try || tries)
        || update_all(user, call, is_try || tries) || query(user, call) || shows(user, call))) fail("there is no call '%s'", call);
    skip();
    if (*at) fail("what is '%s'?", at);
    played++;
}

/* Plays lines up to the end of a block, or of the file, and stays there. */
static void play(size_t depth) {
    for (; line < line_count; line++) {
        at = lines[line];
        if (eat("}")) return;
        if (eat("repeat ")) {
            const size_t begin = line + 1;
            const uint64_t times = term();
            const unsigned char name = (unsigned char)*word();
            if (!eat("{") || *at || !times) fail("no block begins");
            for (uint64_t i = 0; i < times; i++) {
                variables[name] = i;
                line = begin;
                play(depth + 1);
            }
        } else if (*at) row();
    }
    if (depth) line--, fail("the block has no end");
}

static void read_file(const char *path) {
    static char text[1 << 24];
    FILE *in = fopen(path, "r");
    const size_t length = in ? fread(text, 1, sizeof text - 1, in) : 0;
    if (!length || length == sizeof text - 1) { fprintf(stderr, "%s cannot be read\n", path); exit(1); }
    fclose(in);
    text[length] = 0;
    file = path, line_count = line = 0;
    for (char *next = text, *end; *next && line_count < LINES; next = end) {
        lines[line_count++] = next;
        end = next + strcspn(next, "\n");
        if (*end) *end++ = 0;
        for (char *c = next; *c; c++) if (*c == '#' && (c == next || c[-1] == ' ')) *c = 0;
        for (size_t last = strlen(next); last && next[last - 1] == ' ';) next[--last] = 0;
    }
}

int main(int count, char **paths) {
    users = mmap(NULL, HANDLES * sizeof *users, PROT_READ, MAP_PRIVATE | MAP_ANONYMOUS, -1, 0);
    if (users == MAP_FAILED || count < 2) return 2;
    for (int i = 1; i < count; i++) {
        for (tries = 0; tries < 2; tries++) {
            const unsigned long before = played;
            read_file(paths[i]);
            play(0);
            if (line < line_count) fail("no block ends");
            if (played == before) { fprintf(stderr, "%s has no rows\n", paths[i]); return 1; }
            /* Closes what is left open. */
            for (size_t h = 0; h < handle_count; h++) WRITING(aug_user_close(&users[h])), aug_close(&handles[h].trie, NULL);
            memset(handles, 0, sizeof handles);
            handle_count = 0;
        }
    }
    printf("ok: %lu rows\n", played);
    return 0;
}
