/* A trie, and its updates. */
#include "module.h"

#include <string.h>

/* How many threads may call at a time if nobody says. With more of them each has fewer updates until the table is full. */
enum { USERS = 16 };

/* For no more keys than this other threads run, or signals and the end of the trie wait, at a time. */
enum { PART = 4096 };

/* Raises the exception of a trie that was not opened, with what was given for it. */
static void refuse_open(const Trie *trie, int64_t code, PyObject **given, uint64_t bytes) {
    const unsigned bits = trie->bits, users = trie->users;
    if (code == AUG_BAD_BITS) raise_text(code, "%S bits are outside 1 to 16", given[0]);
    else if (code == AUG_BAD_USERS) raise_text(code, "%S users are outside 1 to 64", given[1]);
    else if (code != AUG_TOO_LARGE || !given[2]) raise_code(code);
    else if (bytes > AUG_MOST_BYTES) raise_text(code, "%S bytes are more than 3 * 2^29", given[2]);
    else raise_text(code, "of %S bytes, %lld are needed for %u bits and %u users", given[2], (long long)aug_least_bytes(bits, users), bits, users);
}

static PyObject *trie_new(PyTypeObject *type, PyObject *args, PyObject *named) {
    static char *words[] = {"bits", "users", "bytes", NULL};
    PyObject *given[3] = {NULL, NULL, NULL};
    uint64_t numbers[3] = {0, USERS, 0};
    (void)type;
    if (!PyArg_ParseTupleAndKeywords(args, named, "O|OO:Trie", words, &given[0], &given[1], &given[2])) return NULL;
    if (given[2] == Py_None) given[2] = NULL;
    for (int i = 0; i < 3; i++) if (given[i] && read_wide(given[i], &numbers[i])) return NULL;
    for (int i = 0; i < 2; i++) if (numbers[i] > UINT32_MAX) numbers[i] = UINT32_MAX;
    if (!given[2]) numbers[2] = (6 << 20) + ((uint64_t)768 << (numbers[0] & 31));
    Trie *trie = PyObject_New(Trie, trie_type);
    if (!trie) return NULL;
    memset((char *)trie + sizeof(PyObject), 0, sizeof *trie - sizeof(PyObject));
    trie->bits = (uint32_t)numbers[0];
    trie->users = (uint32_t)numbers[1];
    int64_t code;
    Py_BEGIN_ALLOW_THREADS
    code = aug_open(&trie->handle, trie->bits, trie->users, numbers[2]);
    Py_END_ALLOW_THREADS
    if (code == AUG_OK) {
        enlist(trie);
    } else {
        refuse_open(trie, code, given, numbers[2]);
        Py_CLEAR(trie);
    }
    return (PyObject *)trie;
}

/* A trie that nobody has is in no call, and has no snapshot, since that would have it. */
static void trie_free(PyObject *self) {
    Trie *trie = (Trie *)self;
    if (trie->link && !trie->is_closed) shut(trie);
    if (trie->link) delist(trie);
    free_object(self);
}

/* Whether a call is on that has to end before the trie is closed: who asks a snapshot goes on. */
static int is_busy(const Trie *trie) {
    for (uint32_t i = 0; i < trie->users; i++) {
        const Seat *seat = &trie->seats[i];
        if (seat->is_busy && !(seat->is_busy == ASKS && seat->held)) return 1;
    }
    return 0;
}

static PyObject *trie_close(PyObject *self, PyObject *unused) {
    Trie *trie = (Trie *)self;
    (void)unused;
    if (!is_ours(trie)) return raise_code(AUG_CLOSED);
    for (unsigned turn = 0; !trie->is_closed && is_busy(trie); turn++) {
        trie->is_closing = 1;
        if (nap(turn) == 0) continue;
        trie->is_closing = 0;
        return NULL;
    }
    if (!trie->is_closed) shut(trie);
    const uint64_t fields[] = {trie->report.inserts, trie->report.removals, trie->report.size};
    return record_of(report_type, 3, fields);
}

/* A piece takes microseconds, so other threads need not run meanwhile, and the trie stays open. */
static PyObject *trie_tend(PyObject *self, PyObject *unused) {
    Trie *trie = (Trie *)self;
    (void)unused;
    int64_t more = is_open(trie) ? aug_tend(&trie->handle) : AUG_CLOSED;
    return more < 0 ? raise_code(more) : PyBool_FromLong(more == 1);
}

static PyObject *trie_enter(PyObject *self, PyObject *unused) {
    (void)unused;
    if (!is_open((Trie *)self)) return raise_code(AUG_CLOSED);
    Py_INCREF(self);
    return self;
}

static PyObject *trie_exit(PyObject *self, PyObject *args) {
    (void)args;
    PyObject *report = is_ours((Trie *)self) ? trie_close(self, NULL) : PyBool_FromLong(0);
    if (!report) return NULL;
    Py_DECREF(report);
    Py_RETURN_NONE;
}

static PyObject *trie_snapshot(PyObject *self, PyObject *unused) {
    Snapshot *snapshot = PyObject_New(Snapshot, snapshot_type);
    (void)unused;
    if (!snapshot) return NULL;
    Py_INCREF(self);
    snapshot->trie = (Trie *)self;
    snapshot->renewals = 0;
    snapshot->is_anew = 0;
    snapshot->seat = look(snapshot->trie);
    if (snapshot->seat) snapshot->seat->held = snapshot;
    else Py_CLEAR(snapshot);
    return (PyObject *)snapshot;
}

/* An update that does not wait, of a key with a number. It is made again if another user changed the key meanwhile. */
typedef int64_t (*Update)(aug_user *user, uint32_t key, uint32_t number, aug_told *told);

/* A member stays as it is, so this tells nothing, and is not made again. */
static int64_t insert(aug_user *user, uint32_t key, uint32_t unused, aug_told *told) {
    (void)unused, (void)told;
    return aug_try_insert(user, key);
}

/* What is no key of the trie is not in. */
static int64_t take_out(aug_user *user, uint32_t key, uint32_t unused, aug_told *told) {
    int64_t answer;
    (void)unused;
    do answer = aug_try_remove(user, key, told); while (answer == 0 && told->before != AUG_NONE);
    return answer == AUG_BAD_KEY ? 0 : answer;
}

#define MADE(call) do { int64_t answer_; while ((answer_ = (call)) == 0) {} return answer_; } while (0)

static int64_t put(aug_user *user, uint32_t key, uint32_t weight, aug_told *told) { MADE(aug_try_put(user, key, weight, told)); }
static int64_t increment(aug_user *user, uint32_t key, uint32_t amount, aug_told *told) { MADE(aug_try_add(user, key, amount, told)); }
static int64_t decrement(aug_user *user, uint32_t key, uint32_t amount, aug_told *told) { MADE(aug_try_sub(user, key, amount, told)); }

/* The same as put, for a caller that counts what changed. */
static int64_t put_or_replace(aug_user *user, uint32_t key, uint32_t weight, aug_told *told) {
    int64_t answer = put(user, key, weight, told);
    return answer == 2 ? 1 : answer;
}

/* Makes an update of each key with its number: how many answered 1, or -1 with an exception, which names `key`. What the last one told is in `told`. Other
   threads run while it waits. */
static Py_ssize_t change(PyObject *self, Update update, const uint32_t *keys, const uint32_t *numbers, size_t count, aug_told *told, PyObject *key) {
    Py_ssize_t changed = 0;
    unsigned turn = 0;
    for (size_t i = 0;;) {
        size_t stop = count - i > PART ? i + PART : count;
        int64_t answer = AUG_OK;
        /* A handler of a signal may have closed the trie meanwhile, or taken a snapshot. */
        Seat *seat = seat_of((Trie *)self);
        if (!seat) return -1;
        PyThreadState *others = let_others_run(seat, UPDATES, stop - i);
        for (; i < stop && (answer = update(&seat->handle, keys[i], numbers[i], told)) >= 0; i++) changed += answer == 1;
        run_alone(seat, others);
        if (answer == AUG_BAD_KEY && key) return raise_key(key, ((Trie *)self)->bits), -1;
        if (answer < 0 && answer != AUG_AGAIN) return raise_code(answer), -1;
        if (i == count) return changed;
        turn = answer < 0 ? turn + 1 : 0;
        if (answer < 0 ? wait_for_others((Trie *)self, turn) : nap(turn)) return -1;
    }
}

/* An update of one key: whether it answered 1, or -1 with an exception. */
static Py_ssize_t change_key(PyObject *self, PyObject *key, Update update, aug_told *told) {
    uint32_t at;
    return read_key(key, &at) ? -1 : change(self, update, &at, &at, 1, told, key);
}

static PyObject *trie_add(PyObject *self, PyObject *key) {
    aug_told unwanted;
    Py_ssize_t changed = change_key(self, key, insert, &unwanted);
    return changed < 0 ? NULL : PyBool_FromLong(changed);
}

static PyObject *trie_discard(PyObject *self, PyObject *key) {
    aug_told unwanted;
    Py_ssize_t changed = change_key(self, key, take_out, &unwanted);
    return changed < 0 ? NULL : PyBool_FromLong(changed);
}

static PyObject *trie_remove(PyObject *self, PyObject *key) {
    aug_told unwanted;
    Py_ssize_t changed = change_key(self, key, take_out, &unwanted);
    if (changed == 0) PyErr_SetObject(PyExc_KeyError, key);
    if (changed <= 0) return NULL;
    Py_RETURN_NONE;
}

static PyObject *trie_pop(PyObject *self, PyObject *args) {
    PyObject *key, *other = NULL;
    aug_told told;
    if (!PyArg_UnpackTuple(args, "pop", 1, 2, &key, &other)) return NULL;
    Py_ssize_t changed = change_key(self, key, take_out, &told);
    if (changed > 0) return PyLong_FromLongLong(told.before);
    if (changed == 0 && !other) PyErr_SetObject(PyExc_KeyError, key);
    if (changed < 0 || !other) return NULL;
    Py_INCREF(other);
    return other;
}

/* An update of a key with a number, which is 1 if it may be left out and is: 0, or -1 with an exception. */
static int change_by(PyObject *self, PyObject *args, PyObject *named, const char *format, char **words, Update update, aug_told *told) {
    PyObject *key, *number = NULL;
    uint32_t at, by = 1;
    if (!PyArg_ParseTupleAndKeywords(args, named, format, words, &key, &number)) return -1;
    if (read_key(key, &at) || (number && read_weight(number, &by))) return -1;
    return change(self, update, &at, &by, 1, told, key) < 0 ? -1 : 0;
}

/* The weight after an update, which is 0 of what is no member. */
static PyObject *weight_now(const aug_told *told) {
    return PyLong_FromLongLong(told->now == AUG_NONE ? 0 : told->now);
}

static char *key_and_weight[] = {"key", "weight", NULL}, *key_and_amount[] = {"key", "amount", NULL};

static PyObject *trie_put(PyObject *self, PyObject *args, PyObject *named) {
    aug_told told;
    return change_by(self, args, named, "OO:put", key_and_weight, put, &told) ? NULL : number_or_none(told.before);
}

static PyObject *trie_increment(PyObject *self, PyObject *args, PyObject *named) {
    aug_told told;
    return change_by(self, args, named, "O|O:increment", key_and_amount, increment, &told) ? NULL : weight_now(&told);
}

static PyObject *trie_decrement(PyObject *self, PyObject *args, PyObject *named) {
    aug_told told;
    return change_by(self, args, named, "O|O:decrement", key_and_amount, decrement, &told) ? NULL : weight_now(&told);
}

/* Takes out the first member or the last, by calls that are made again if another user changed that member meanwhile. */
static PyObject *trie_popitem(PyObject *self, PyObject *args, PyObject *named) {
    Py_ssize_t at = read_index(args, named, "|O:popitem");
    if (at == -1 && PyErr_Occurred()) return NULL;
    if (at != 0 && at != -1) {
        PyErr_SetString(PyExc_IndexError, "only the first member, 0, and the last, -1, are taken out by their index");
        return NULL;
    }
    for (unsigned turn = 0;; turn++) {
        aug_member member;
        int64_t answer;
        Seat *seat = seat_of((Trie *)self);
        if (!seat) return NULL;
        while ((answer = at ? aug_try_pop_last(&seat->handle, &member) : aug_try_pop_first(&seat->handle, &member)) == 0) {}
        if (answer == 1) return Py_BuildValue("kk", (unsigned long)member.key, (unsigned long)member.weight);
        if (answer == AUG_NONE) PyErr_SetString(PyExc_KeyError, "the set is empty");
        else if (answer != AUG_AGAIN) raise_code(answer);
        if (answer != AUG_AGAIN || wait_for_others((Trie *)self, turn)) return NULL;
    }
}

/* Refuses keys of which one is none of the trie. 0, or -1 with an exception. */
static int refuse_keys(PyObject *self, const Batch *batch) {
    const uint32_t bits = ((Trie *)self)->bits;
    for (size_t i = 0; i < batch->count; i++) {
        if (batch->keys[i] >> bits) return raise_key(PyTuple_GetItem(batch->items, (Py_ssize_t)i), bits), -1;
    }
    return 0;
}

/* Updates the keys of batches, each with its number if it has one: how many updates answered 1, or NULL with an exception. */
static PyObject *change_all(PyObject *self, Update update, Update weighs, const Batch *batches, Py_ssize_t count) {
    aug_told unwanted;
    Py_ssize_t changed = 0;
    for (Py_ssize_t i = 0; update != take_out && i < count; i++) if (refuse_keys(self, &batches[i])) return NULL;
    /* Of no batch too, a trie that is closed is refused. */
    Py_ssize_t some = change(self, update, NULL, NULL, 0, &unwanted, NULL);
    for (Py_ssize_t i = 0; some >= 0 && i < count; i++) {
        const Batch *batch = &batches[i];
        some = change(self, batch->numbers == batch->keys ? update : weighs, batch->keys, batch->numbers, batch->count, &unwanted, NULL);
        changed += some;
    }
    return some < 0 ? NULL : PyLong_FromSsize_t(changed);
}

/* The same for a tuple of iterables, which may be mappings if their keys are put in. */
static PyObject *change_each(PyObject *self, PyObject *iterables, Update update) {
    const Py_ssize_t count = PyTuple_Size(iterables);
    PyObject *changed = NULL;
    Py_ssize_t read = 0;
    Batch *batches = PyMem_Malloc((size_t)count * sizeof *batches);
    if (!batches) return PyErr_NoMemory();
    while (read < count && read_batch(PyTuple_GetItem(iterables, read), update == insert, &batches[read]) == 0) read++;
    if (read == count) changed = change_all(self, update, put, batches, count);
    while (read) free_batch(&batches[--read]);
    PyMem_Free(batches);
    return changed;
}

static PyObject *trie_update(PyObject *self, PyObject *iterables) { return change_each(self, iterables, insert); }
static PyObject *trie_difference_update(PyObject *self, PyObject *iterables) { return change_each(self, iterables, take_out); }

static PyObject *trie_put_all(PyObject *self, PyObject *args) {
    PyObject *keys, *weights, *changed = NULL;
    size_t count;
    Batch batch;
    if (!PyArg_UnpackTuple(args, "put_all", 2, 2, &keys, &weights) || read_batch(keys, 0, &batch)) return NULL;
    uint32_t *heavy = read_all(weights, &count, read_weight, NULL);
    if (heavy) {
        batch.numbers = heavy;
        if (count == batch.count) changed = change_all(self, insert, put_or_replace, &batch, 1);
        else raise_text(AUG_BAD_LENGTH, "there are %zu keys and %zu weights", batch.count, count);
    }
    free_batch(&batch);
    return changed;
}

/* How many updates are left to this thread. Other threads run while it waits. */
static PyObject *trie_room(PyObject *self, PyObject *unused) {
    (void)unused;
    for (unsigned turn = 0;; turn++) {
        Seat *seat = seat_of((Trie *)self);
        int64_t left = seat ? aug_try_room(&seat->handle) : AUG_CLOSED;
        if (!seat) return NULL;
        if (left != AUG_AGAIN) return told_number(left);
        if (wait_for_others((Trie *)self, turn)) return NULL;
    }
}

/* How many members there are, or a number below 0 where that would take a place of a trie that has none left, or a wait. */
static int64_t size_at_hand(Trie *trie) {
    if (trie->is_closed) return is_ours(trie) ? (int64_t)trie->report.size : AUG_CLOSED;
    Seat *seat = seat_at_hand(trie);
    if (!seat || aug_try_look(&seat->handle) != AUG_OK) return AUG_AGAIN;
    int64_t size = aug_size(&seat->handle);
    aug_look_done(&seat->handle);
    return size;
}

static PyObject *trie_repr(PyObject *self) {
    Trie *trie = (Trie *)self;
    const char *closed = is_open(trie) ? "" : " closed";
    const int64_t size = size_at_hand(trie);
    if (size < 0) return PyUnicode_FromFormat("<augtrie.Trie bits=%u users=%u%s>", (unsigned)trie->bits, (unsigned)trie->users, closed);
    return PyUnicode_FromFormat("<augtrie.Trie bits=%u users=%u size=%lld%s>", (unsigned)trie->bits, (unsigned)trie->users, (long long)size, closed);
}

static PyObject *trie_bits(PyObject *self, void *unused) {
    (void)unused;
    return PyLong_FromUnsignedLong(((Trie *)self)->bits);
}

#define WITH_WORDS(call) (PyCFunction)(void (*)(void))call, METH_VARARGS | METH_KEYWORDS

static PyMethodDef methods[] = {
    {"add", trie_add, METH_O, "add($self, key, /)\n--\n\nPuts a key in, with the key itself as its weight: True if it was not there."},
    {"discard", trie_discard, METH_O, "discard($self, key, /)\n--\n\nTakes a key out: True if it was there."},
    {"remove", trie_remove, METH_O, "remove($self, key, /)\n--\n\nTakes a key out. KeyError if it was not there."},
    {"pop", trie_pop, METH_VARARGS,
     "pop(key[, default])\n\nTakes a key out: the weight that it had. If it was not there, the default, or KeyError if none is given."},
    {"put", WITH_WORDS(trie_put),
     "put($self, /, key, weight)\n--\n\nPuts a key in with a weight, or gives a member this weight: the weight that it had, or None if it was not "
     "there."},
    {"increment", WITH_WORDS(trie_increment),
     "increment($self, /, key, amount=1)\n--\n\nAdds an amount to a key's weight: the weight that it has now. A key that is not there goes in with the "
     "amount. TooGreat if the sum does not fit 32 bits."},
    {"decrement", WITH_WORDS(trie_decrement),
     "decrement($self, /, key, amount=1)\n--\n\nTakes an amount from a key's weight: the weight that is left. A key of whose weight nothing is left goes "
     "out. TooLittle if the key is not there, or weighs less."},
    {"popitem", WITH_WORDS(trie_popitem),
     "popitem($self, /, index=-1)\n--\n\nTakes out the last member, or with 0 the first: its key and its weight. KeyError if there is none. Each member "
     "comes to one caller."},
    {"update", trie_update, METH_VARARGS,
     "update($self, /, *keys)\n--\n\nPuts the keys of some iterables in, each by an update of its own: how many were not there. A key that is there keeps its "
     "weight, but those of a mapping get the weights that it has. If one is no key of the trie, none goes in."},
    {"difference_update", trie_difference_update, METH_VARARGS,
     "difference_update($self, /, *keys)\n--\n\nTakes the keys of some iterables out, each by an update of its own: how many were there."},
    {"put_all", trie_put_all, METH_VARARGS,
     "put_all($self, keys, weights, /)\n--\n\nPuts keys in, each with the weight that has its index, or gives members these weights: how many updates changed "
     "the set, and these are all, since one before which another thread changed its key is made again. Refused as update is, and with BadLength if there are "
     "not as many weights as keys."},
    {"room", trie_room, METH_NOARGS,
     "room($self, /)\n--\n\nHow many updates are left to this thread until it takes a spare part of the table, or the table is full. None of them is made."},
    {"snapshot", trie_snapshot, METH_NOARGS,
     "snapshot($self, /)\n--\n\nA snapshot, which shows every update of this thread. Until it ends, this thread has no other, and asks it alone; but it may "
     "update."},
    {"tend", trie_tend, METH_NOARGS,
     "tend($self, /)\n--\n\nLays a piece of the next round out, once the table is nearly full: True if there is more to do now. Updates do the same in between."},
    {"close", trie_close, METH_NOARGS,
     "close($self, /)\n--\n\nCloses the trie: what its life came to. The same again if it is closed already. It waits for the calls of other threads. "
     "Snapshots that are open answer as before until they end."},
    {"__enter__", trie_enter, METH_NOARGS, "The trie."},
    {"__exit__", trie_exit, METH_VARARGS, "Closes the trie."},
    {NULL, NULL, 0, NULL},
};

static PyGetSetDef fields[] = {
    {"bits", trie_bits, NULL, "Keys are below 2^bits.", NULL},
    {NULL, NULL, NULL, NULL, NULL},
};

static PyType_Slot slots[] = {
    {Py_tp_doc,
     "Trie(bits, users=16, bytes=None)\n--\n\nThe empty set of keys below 2^bits, with 1 to 16 bits, for so many threads at a time, at most 64. Its "
     "table takes at most so many bytes, by default 6 MiB and 768 for each key below 2^bits. BadBytes if these are fewer than 64 updates of each thread "
     "take, or more than 3 * 2^29."},
    {Py_tp_new, trie_new},
    {Py_tp_dealloc, trie_free},
    {Py_tp_repr, trie_repr},
    {Py_tp_methods, methods},
    {Py_tp_getset, fields},
    {0, NULL},
};

PyType_Spec trie_spec = {"augtrie.Trie", sizeof(Trie), 0, Py_TPFLAGS_DEFAULT, slots};
