/* The queries, of a snapshot and of a trie, which takes a look for each; snapshots; and the iteration over members. Numbers of Python are read
   before a look is asked, and made after it, so that no code of Python runs on this thread while a handle is in use. */
#include "module.h"

/* For how many keys one call of the library asks at most. */
enum { PART = 256 };

/* Begins to ask a trie or snapshot: the seat to ask, or NULL with an exception. */
static Seat *begin(PyObject *self) {
    if (Py_TYPE(self) == trie_type) return look((Trie *)self);
    Snapshot *snapshot = (Snapshot *)self;
    for (unsigned turn = 0;; turn++) {
        if (!is_ours(snapshot->trie)) return raise_code(AUG_CLOSED);
        if (!snapshot->seat) return raise_code(AUG_NOT_LOOKING);
        if (!snapshot->seat->is_busy) return snapshot->seat;
        if (nap(turn)) return NULL;
    }
}

static void end(PyObject *self, Seat *seat) {
    if (Py_TYPE(self) == trie_type) aug_look_done(&seat->handle);
}

/* The same after a call that let other threads run meanwhile, if it did. */
static void end_among(PyObject *self, Seat *seat, PyThreadState *others) {
    run_alone(seat, others);
    end(self, seat);
    if (others && Py_TYPE(self) == trie_type) give_way((Trie *)self);
}

/* ---- One number ---- */

typedef int64_t (*Query)(aug_user *user, int64_t place);

static int64_t has(aug_user *user, int64_t place) { return place < 0 ? 0 : aug_has(user, (uint32_t)place); }
static int64_t weight(aug_user *user, int64_t place) { return place < 0 ? AUG_NONE : aug_weight(user, (uint32_t)place); }
static int64_t left(aug_user *user, int64_t place) { return place < 0 ? 0 : aug_rank(user, (uint32_t)place); }
static int64_t right(aug_user *user, int64_t place) { return left(user, place + 1); }

static int64_t place_of(aug_user *user, int64_t place) {
    int64_t is_in = has(user, place);
    return is_in == 1 ? left(user, place) : is_in < 0 ? is_in : AUG_NONE;
}

static int64_t before(aug_user *user, int64_t place) { return place < 0 ? AUG_NONE : aug_before(user, (uint32_t)place); }
static int64_t after(aug_user *user, int64_t place) { return place < 0 ? aug_first(user) : aug_after(user, (uint32_t)place); }
static int64_t by_weight(aug_user *user, int64_t sum) { return sum < 0 ? aug_first(user) : aug_select_by_weight(user, (uint64_t)sum); }

static int64_t size(aug_user *user, int64_t unused) {
    (void)unused;
    return aug_size(user);
}

/* The member at an index, which may be counted from the end. */
static int64_t item(aug_user *user, int64_t index) {
    if (index == 0) return aug_first(user);
    if (index == -1) return aug_last(user);
    int64_t place = index < 0 ? index + aug_size(user) : index;
    return place < 0 || place > UINT32_MAX ? AUG_NONE : aug_select(user, (uint32_t)place);
}

/* What a query answers: 0 and more, AUG_NONE, or another number below 0 with an exception. */
static int64_t answer_of(PyObject *self, Query query, int64_t place) {
    Seat *seat = begin(self);
    if (!seat) return AUG_CLOSED;
    int64_t answer = query(&seat->handle, place);
    end(self, seat);
    if (answer < 0 && answer != AUG_NONE) raise_code(answer);
    return answer;
}

/* The same as a number, or None. */
static PyObject *number_of(PyObject *self, Query query, int64_t place) {
    int64_t answer = answer_of(self, query, place);
    if (answer == AUG_NONE) Py_RETURN_NONE;
    return answer < 0 ? NULL : PyLong_FromLongLong(answer);
}

/* A query of a key: a number, or None. */
static PyObject *ask(PyObject *self, PyObject *key, Query query) {
    int64_t place;
    return read_place(key, &place) ? NULL : number_of(self, query, place);
}

static PyObject *get_weight(PyObject *self, PyObject *key) { return ask(self, key, weight); }
static PyObject *bisect_left(PyObject *self, PyObject *key) { return ask(self, key, left); }
static PyObject *bisect_right(PyObject *self, PyObject *key) { return ask(self, key, right); }
static PyObject *get_before(PyObject *self, PyObject *key) { return ask(self, key, before); }
static PyObject *get_after(PyObject *self, PyObject *key) { return ask(self, key, after); }

static PyObject *select_by_weight(PyObject *self, PyObject *number) {
    int64_t sum;
    return read_sum(number, &sum) ? NULL : number_of(self, by_weight, sum);
}

static PyObject *get_index(PyObject *self, PyObject *key) {
    PyObject *index = ask(self, key, place_of);
    if (index != Py_None) return index;
    Py_DECREF(index);
    return PyErr_Format(PyExc_ValueError, "%R is no member", key);
}

static int contains(PyObject *self, PyObject *key) {
    int64_t place;
    if (read_place(key, &place)) return -1;
    int64_t answer = answer_of(self, has, place);
    return answer < 0 ? -1 : (int)answer;
}

static Py_ssize_t length(PyObject *self) {
    int64_t answer = answer_of(self, size, 0);
    return answer < 0 ? -1 : (Py_ssize_t)answer;
}

/* ---- Spans ---- */

static int span_of(PyObject *self, PyObject *args, const char *name, aug_span *span) {
    PyObject *start, *stop;
    uint32_t from, to;
    if (!PyArg_UnpackTuple(args, name, 2, 2, &start, &stop) || read_bound(start, &from) || read_bound(stop, &to)) return -1;
    Seat *seat = begin(self);
    if (!seat) return -1;
    int64_t answer = aug_range(&seat->handle, from, to, span);
    end(self, seat);
    if (answer < 0) raise_code(answer);
    return answer < 0 ? -1 : 0;
}

static PyObject *get_span(PyObject *self, PyObject *args) {
    aug_span span;
    if (span_of(self, args, "span", &span)) return NULL;
    const uint64_t fields[] = {span.sum, span.count, span.least, span.greatest};
    return record_of(span_type, 4, fields);
}

static PyObject *get_total(PyObject *self, PyObject *args) {
    aug_span span;
    return span_of(self, args, "total", &span) ? NULL : PyLong_FromUnsignedLongLong(span.sum);
}

/* ---- Many keys ---- */

/* Asks for at most PART keys, and not more than the trie has. */
typedef int64_t (*Queries)(aug_user *user, const uint32_t *keys, size_t n, int64_t *answers);

static int64_t has_all(aug_user *user, const uint32_t *keys, size_t n, int64_t *answers) {
    uint8_t out[PART];
    int64_t code = aug_has_all(user, keys, n, out, PART);
    for (size_t i = 0; code == AUG_OK && i < n; i++) answers[i] = out[i];
    return code;
}

static int64_t rank_all(aug_user *user, const uint32_t *keys, size_t n, int64_t *answers) {
    uint32_t out[PART];
    int64_t code = aug_rank_all(user, keys, n, out, PART);
    for (size_t i = 0; code == AUG_OK && i < n; i++) answers[i] = out[i];
    return code;
}

static int64_t weight_all(aug_user *user, const uint32_t *keys, size_t n, int64_t *answers) {
    return aug_weight_all(user, keys, n, answers, n);
}

/* The members at indices that rise or fall by a step. */
static int64_t items_of(aug_user *user, Py_ssize_t start, Py_ssize_t step, size_t n, int64_t *answers) {
    for (size_t i = 0; i < n; i++) answers[i] = aug_select(user, (uint32_t)(start + (Py_ssize_t)i * step));
    return AUG_OK;
}

static PyObject *truth(int64_t answer) {
    return PyBool_FromLong(answer == 1);
}

/* A list of answers, which it frees, or NULL with the exception of a code. */
static PyObject *list_of(int64_t code, int64_t *answers, size_t count, PyObject *(*told)(int64_t)) {
    PyObject *list = code < 0 ? raise_code(code) : PyList_New((Py_ssize_t)count);
    for (size_t i = 0; list && i < count; i++) {
        PyObject *answer = told(answers[i]);
        if (!answer || PyList_SetItem(list, (Py_ssize_t)i, answer)) Py_CLEAR(list);
    }
    PyMem_Free(answers);
    return list;
}

static PyObject *ask_all(PyObject *self, PyObject *keys, int (*read)(PyObject *, uint32_t *), Queries queries, PyObject *(*told)(int64_t)) {
    size_t count;
    uint32_t bits = Py_TYPE(self) == trie_type ? ((Trie *)self)->bits : ((Snapshot *)self)->trie->bits;
    uint32_t *from = read_all(keys, &count, read, NULL);
    int64_t *answers = from ? PyMem_Malloc(count * sizeof *answers) : NULL;
    if (from && !answers) PyErr_NoMemory();
    Seat *seat = answers ? begin(self) : NULL;
    int64_t code = AUG_OK;
    if (seat) {
        const size_t most = bits < 8 ? (size_t)1 << bits : PART;
        PyThreadState *others = let_others_run(seat, ASKS, count);
        for (size_t i = 0; code == AUG_OK && i < count; i += most)
            code = queries(&seat->handle, from + i, count - i < most ? count - i : most, answers + i);
        end_among(self, seat, others);
    }
    PyMem_Free(from);
    if (seat) return list_of(code, answers, count, told);
    PyMem_Free(answers);
    return NULL;
}

static PyObject *get_has_all(PyObject *self, PyObject *keys) { return ask_all(self, keys, read_key, has_all, truth); }
static PyObject *get_rank_all(PyObject *self, PyObject *keys) { return ask_all(self, keys, read_bound, rank_all, told_number); }
static PyObject *get_weights(PyObject *self, PyObject *keys) { return ask_all(self, keys, read_key, weight_all, number_or_none); }

/* ---- Places ---- */

static PyObject *get_slice(PyObject *self, PyObject *slice) {
    Py_ssize_t start, stop, step;
    if (PySlice_Unpack(slice, &start, &stop, &step)) return NULL;
    Seat *seat = begin(self);
    if (!seat) return NULL;
    int64_t members = aug_size(&seat->handle);
    size_t count = (size_t)PySlice_AdjustIndices(members < 0 ? 0 : (Py_ssize_t)members, &start, &stop, step);
    int64_t *answers = PyMem_Malloc(count * sizeof *answers);
    PyThreadState *others = answers ? let_others_run(seat, ASKS, count) : NULL;
    if (answers) items_of(&seat->handle, start, step, count, answers);
    end_among(self, seat, others);
    return answers ? list_of(members, answers, count, told_number) : PyErr_NoMemory();
}

static PyObject *no_item(void) {
    PyErr_SetString(PyExc_IndexError, "there are not so many members");
    return NULL;
}

static PyObject *subscript(PyObject *self, PyObject *index) {
    if (PySlice_Check(index)) return get_slice(self, index);
    Py_ssize_t place = PyNumber_AsSsize_t(index, PyExc_IndexError);
    if (place == -1 && PyErr_Occurred()) return NULL;
    int64_t answer = answer_of(self, item, place);
    return answer == AUG_NONE ? no_item() : answer < 0 ? NULL : PyLong_FromLongLong(answer);
}

static PyObject *peekitem(PyObject *self, PyObject *args, PyObject *named) {
    Py_ssize_t place = read_index(args, named, "|O:peekitem");
    if (place == -1 && PyErr_Occurred()) return NULL;
    Seat *seat = begin(self);
    if (!seat) return NULL;
    int64_t key = item(&seat->handle, place), heavy = weight(&seat->handle, key);
    end(self, seat);
    if (key >= 0) return Py_BuildValue("(LL)", (long long)key, (long long)heavy);
    return key == AUG_NONE ? no_item() : raise_code(key);
}

/* ---- Iteration ---- */

typedef struct {
    PyObject_HEAD
    PyObject *source; /* a trie or a snapshot */
    uint32_t from, to; /* between these are the members that are not listed yet */
    int is_reverse, has_weights;
    size_t room;       /* how many to list next */
    size_t next, count;
    uint32_t keys[PART], weights[PART];
} Iterator;

static PyObject *iterator_of(PyObject *source, uint32_t from, uint32_t to, int is_reverse, int has_weights) {
    Iterator *iterator = PyObject_New(Iterator, iterator_type);
    if (!iterator) return NULL;
    Py_INCREF(source);
    iterator->source = source;
    iterator->from = from;
    iterator->to = to;
    iterator->is_reverse = is_reverse;
    iterator->has_weights = has_weights;
    iterator->room = 4;
    iterator->next = iterator->count = 0;
    return (PyObject *)iterator;
}

static void iterator_free(PyObject *self) {
    Py_DECREF(((Iterator *)self)->source);
    free_object(self);
}

/* Lists the next members. Answers how many, or a code. */
static int64_t list_next(Iterator *iterator, aug_user *user) {
    uint32_t *keys = iterator->keys, *weights = iterator->weights, from = iterator->from, to = iterator->to;
    size_t room = iterator->room;
    int64_t count = iterator->is_reverse ? aug_list_back(user, to, keys, weights, room)
        : iterator->has_weights ? aug_list(user, from, keys, weights, room) : aug_keys(user, from, keys, room);
    int more = count == (int64_t)room;
    for (; count > 0 && (keys[count - 1] < from || keys[count - 1] >= to); count--) more = 0;
    if (!more) iterator->from = to;
    else if (iterator->is_reverse) iterator->to = keys[count - 1];
    else iterator->from = keys[count - 1] + 1;
    iterator->next = 0;
    iterator->count = count > 0 ? (size_t)count : 0;
    if (iterator->room < PART) iterator->room *= 2;
    return count;
}

static PyObject *iterator_next(PyObject *self) {
    Iterator *iterator = (Iterator *)self;
    if (iterator->next == iterator->count && iterator->from < iterator->to) {
        int64_t answer = 0;
        Seat *seat = begin(iterator->source);
        if (!seat) return NULL;
        /* Another thread may have come first, if this one had to wait. */
        if (iterator->next == iterator->count && iterator->from < iterator->to) answer = list_next(iterator, &seat->handle);
        end(iterator->source, seat);
        if (answer < 0) return raise_code(answer);
    }
    if (iterator->next == iterator->count) return NULL;
    size_t at = iterator->next++;
    if (!iterator->has_weights) return PyLong_FromUnsignedLong(iterator->keys[at]);
    return Py_BuildValue("(kk)", (unsigned long)iterator->keys[at], (unsigned long)iterator->weights[at]);
}

static PyObject *iterate(PyObject *self) { return iterator_of(self, 0, AUG_MOST_KEYS, 0, 0); }

static PyObject *iterate_reversed(PyObject *self, PyObject *unused) {
    (void)unused;
    return iterator_of(self, 0, AUG_MOST_KEYS, 1, 0);
}

static PyObject *iterate_between(PyObject *self, PyObject *args, PyObject *named, const char *format, int has_weights) {
    static char *words[] = {"minimum", "maximum", "inclusive", "reverse", NULL};
    PyObject *minimum = Py_None, *maximum = Py_None;
    int has_minimum = 1, has_maximum = 1, is_reverse = 0;
    int64_t from = 0, to = AUG_MOST_KEYS - 1;
    if (!PyArg_ParseTupleAndKeywords(args, named, format, words, &minimum, &maximum, &has_minimum, &has_maximum, &is_reverse)) return NULL;
    if (minimum != Py_None && read_place(minimum, &from)) return NULL;
    if (maximum != Py_None && read_place(maximum, &to)) return NULL;
    from += minimum != Py_None && !has_minimum;
    to += maximum == Py_None || has_maximum;
    return iterator_of(self, from < 0 ? 0 : (uint32_t)from, to < 0 ? 0 : (uint32_t)to, is_reverse, has_weights);
}

static PyObject *irange(PyObject *self, PyObject *args, PyObject *named) { return iterate_between(self, args, named, "|OO(pp)p:irange", 0); }
static PyObject *items(PyObject *self, PyObject *args, PyObject *named) { return iterate_between(self, args, named, "|OO(pp)p:items", 1); }

static PyObject *refuse_copy(PyObject *self, PyObject *unused) {
    (void)self, (void)unused;
    PyErr_SetString(PyExc_TypeError, "tries and snapshots are neither copied nor pickled");
    return NULL;
}

#define WITH_WORDS(call) (PyCFunction)(void (*)(void))call, METH_VARARGS | METH_KEYWORDS

static PyMethodDef members_methods[] = {
    {"weight", get_weight, METH_O, "weight($self, key, /)\n--\n\nThe weight of a key, or None if it is no member."},
    {"weights", get_weights, METH_O, "weights($self, keys, /)\n--\n\nThe weight of each of some keys, or None, as a list."},
    {"bisect_left", bisect_left, METH_O, "bisect_left($self, key, /)\n--\n\nHow many members are below a key."},
    {"bisect_right", bisect_right, METH_O, "bisect_right($self, key, /)\n--\n\nHow many members are not above a key."},
    {"rank_all", get_rank_all, METH_O, "rank_all($self, keys, /)\n--\n\nHow many members are below each of some keys, as a list."},
    {"has_all", get_has_all, METH_O, "has_all($self, keys, /)\n--\n\nWhether each of some keys is a member, as a list."},
    {"index", get_index, METH_O, "index($self, key, /)\n--\n\nThe index of a member. ValueError if it is none."},
    {"before", get_before, METH_O, "before($self, key, /)\n--\n\nThe greatest member below a key, or None."},
    {"after", get_after, METH_O, "after($self, key, /)\n--\n\nThe least member above a key, or None."},
    {"select_by_weight", select_by_weight, METH_O,
     "select_by_weight($self, sum, /)\n--\n\nThe member up to which the weights, added up from the least member on, first come to more than a number, "
     "or None if all of them do not."},
    {"total", get_total, METH_VARARGS,
     "total($self, start, stop, /)\n--\n\nThe sum of the weights of the members from `start` on that are below `stop`."},
    {"span", get_span, METH_VARARGS,
     "span($self, start, stop, /)\n--\n\nWhat the members from `start` on that are below `stop` come to: sum, count, least and greatest."},
    {"peekitem", WITH_WORDS(peekitem), "peekitem($self, /, index=-1)\n--\n\nThe member at an index, and its weight. IndexError if there is none."},
    {"irange", WITH_WORDS(irange),
     "irange($self, /, minimum=None, maximum=None, inclusive=(True, True), reverse=False)\n--\n\nAn iterator over the members between two keys."},
    {"items", WITH_WORDS(items),
     "items($self, /, minimum=None, maximum=None, inclusive=(True, True), reverse=False)\n--\n\nThe same, with the weight of each."},
    {"__reversed__", iterate_reversed, METH_NOARGS, "An iterator over the members, falling."},
    {"__reduce__", refuse_copy, METH_NOARGS, "Refused."},
    {NULL, NULL, 0, NULL},
};

static PyType_Slot members_slots[] = {
    {Py_tp_doc, "What tries and snapshots have in common: they answer as a sorted list of their members."},
    {Py_tp_new, refuse_new},
    {Py_tp_dealloc, free_object},
    {Py_tp_methods, members_methods},
    {Py_tp_iter, iterate},
    {Py_sq_contains, contains},
    {Py_sq_length, length},
    {Py_mp_length, length},
    {Py_mp_subscript, subscript},
    {0, NULL},
};

PyType_Spec members_spec = {"augtrie.Members", sizeof(PyObject), 0, Py_TPFLAGS_DEFAULT | Py_TPFLAGS_BASETYPE, members_slots};

static PyMethodDef iterator_methods[] = {
    {"__reduce__", refuse_copy, METH_NOARGS, "Refused."},
    {NULL, NULL, 0, NULL},
};

static PyType_Slot iterator_slots[] = {
    {Py_tp_new, refuse_new},
    {Py_tp_dealloc, iterator_free},
    {Py_tp_methods, iterator_methods},
    {Py_tp_iter, PyObject_SelfIter},
    {Py_tp_iternext, iterator_next},
    {0, NULL},
};

PyType_Spec iterator_spec = {"augtrie.MemberIterator", sizeof(Iterator), 0, Py_TPFLAGS_DEFAULT, iterator_slots};

/* ---- What changed ---- */

/* How many changes are listed at first. Each further page is twice as long, since the library tests all of a list of members for each. */
enum { CHANGES = 32 };

typedef struct {
    PyObject_HEAD
    Snapshot *source;
    unsigned renewals;  /* of the source, when it began */
    uint32_t *members;  /* which the source is compared with, the keys and then the weights; NULL if it is what it showed before */
    size_t kept;        /* how many members these are */
    uint32_t from;      /* from here on changes are not listed yet */
    size_t next, count, places; /* a page that is not full is the last */
    aug_change *page;
} Changes;

/* It owns the members then, or frees them with an exception. */
static PyObject *changes_of(Snapshot *source, uint32_t *members, size_t kept) {
    aug_change *page = PyMem_Malloc(CHANGES * sizeof *page);
    Changes *changes = page ? PyObject_New(Changes, changes_type) : (Changes *)PyErr_NoMemory();
    if (!changes) {
        PyMem_Free(page);
        PyMem_Free(members);
        return NULL;
    }
    changes->page = page;
    changes->members = members;
    changes->kept = kept;
    Py_INCREF(source);
    changes->source = source;
    changes->renewals = source->renewals;
    changes->from = 0;
    changes->next = changes->count = changes->places = CHANGES;
    return (PyObject *)changes;
}

static void changes_free(PyObject *self) {
    PyMem_Free(((Changes *)self)->page);
    PyMem_Free(((Changes *)self)->members);
    Py_DECREF(((Changes *)self)->source);
    free_object(self);
}

/* What was listed before a renewal, and what is after it, belong to different snapshots. 0, or -1 with an exception. */
static int refuse_renewed(const Changes *changes) {
    if (changes->source->renewals == changes->renewals) return 0;
    PyErr_SetString(PyExc_RuntimeError, "the snapshot was renewed during iteration");
    return -1;
}

/* Writes the first changes since so many members, from a key on. */
static int64_t changes_since(Seat *seat, const uint32_t *members, size_t kept, uint32_t from, aug_change *page, size_t room) {
    return aug_changes_since(&seat->handle, members, members + kept, kept, from, page, room);
}

/* Lists the next changes. 0, or -1 with an exception. */
static int list_changes(Changes *changes) {
    Seat *seat = begin((PyObject *)changes->source);
    if (!seat || refuse_renewed(changes)) return -1;
    /* Another thread may have come first, if this one had to wait. */
    if (changes->next < changes->count || changes->count < changes->places) return 0;
    if (changes->from && changes->places < AUG_MOST_KEYS) {
        aug_change *longer = PyMem_Realloc(changes->page, 2 * changes->places * sizeof *longer);
        if (!longer) return PyErr_NoMemory(), -1;
        changes->page = longer;
        changes->next = changes->count = changes->places *= 2;
    }
    int64_t count = changes->members ? changes_since(seat, changes->members, changes->kept, changes->from, changes->page, changes->places)
                                     : aug_changes(&seat->handle, changes->from, changes->page, changes->places);
    if (count < 0) {
        raise_code(count);
        return -1;
    }
    changes->next = 0;
    changes->count = (size_t)count;
    if (changes->count == changes->places) changes->from = changes->page[changes->places - 1].key + 1;
    return 0;
}

static PyObject *changes_next(PyObject *self) {
    Changes *changes = (Changes *)self;
    if (changes->next == changes->count && changes->count == changes->places && list_changes(changes)) return NULL;
    if (changes->next == changes->count || refuse_renewed(changes)) return NULL;
    const aug_change change = changes->page[changes->next++];
    PyObject *before = number_or_none(change.before);
    PyObject *now = before ? number_or_none(change.now) : NULL;
    if (now) return Py_BuildValue("(kNN)", (unsigned long)change.key, before, now);
    Py_XDECREF(before);
    return NULL;
}

static PyMethodDef changes_methods[] = {
    {"__reduce__", refuse_copy, METH_NOARGS, "Refused."},
    {NULL, NULL, 0, NULL},
};

static PyType_Slot changes_slots[] = {
    {Py_tp_new, refuse_new},
    {Py_tp_dealloc, changes_free},
    {Py_tp_methods, changes_methods},
    {Py_tp_iter, PyObject_SelfIter},
    {Py_tp_iternext, changes_next},
    {0, NULL},
};

PyType_Spec changes_spec = {"augtrie.ChangeIterator", sizeof(Changes), 0, Py_TPFLAGS_DEFAULT, changes_slots};

/* ---- Snapshots ---- */

/* Ends a snapshot, unless it has ended. */
static void end_snapshot(Snapshot *snapshot) {
    if (!snapshot->seat) return;
    end_look(snapshot->seat);
    give_way(snapshot->trie);
}

static void snapshot_free(PyObject *self) {
    Snapshot *snapshot = (Snapshot *)self;
    end_snapshot(snapshot);
    Py_DECREF(snapshot->trie);
    free_object(self);
}

static PyObject *snapshot_renew(PyObject *self, PyObject *unused) {
    Snapshot *snapshot = (Snapshot *)self;
    (void)unused;
    for (unsigned turn = 0;; turn++) {
        Seat *seat = begin(self);
        if (!seat) return NULL;
        int64_t code = aug_try_look_again(&seat->handle);
        if (code >= 0) snapshot->renewals++, snapshot->is_anew = code != AUG_OK;
        if (code >= 0) return PyBool_FromLong(code == AUG_OK);
        if (code != AUG_AGAIN) return raise_code(code);
        if (wait_for_others(snapshot->trie, turn)) return NULL;
    }
}

static PyObject *snapshot_changes(PyObject *self, PyObject *unused) {
    (void)unused;
    if (!begin(self)) return NULL;
    if (!((Snapshot *)self)->is_anew) return changes_of((Snapshot *)self, NULL, 0);
    PyErr_SetString(nothing_to_compare, "a new round of the table began before the last renewal, so there is nothing to compare with: use changes_since");
    return NULL;
}

/* Reads a pair of a key and a weight. The key is below 2^bits, and not below the least. 0, or -1 with an exception. */
static int read_member(PyObject *from, uint32_t bits, uint32_t least, uint32_t *key, uint32_t *weight) {
    int read = -1;
    PyObject *pair = PySequence_Tuple(from);
    if (!pair) return -1;
    PyObject *first = PyTuple_Size(pair) == 2 ? PyTuple_GetItem(pair, 0) : NULL;
    if (!first) PyErr_SetString(PyExc_ValueError, "a member is a key and its weight");
    else if (read_key(first, key)) read = -1;
    else if (*key >> bits) raise_key(first, bits);
    else if (*key < least) raise_text(AUG_BAD_KEY, "key %S is not above the one before it in the list", first);
    else read = read_weight(PyTuple_GetItem(pair, 1), weight);
    Py_DECREF(pair);
    return read;
}

/* Reads the members of an iterable, the keys and then the weights, into memory for PyMem_Free, or answers NULL with an exception. */
static uint32_t *read_members(PyObject *from, uint32_t bits, size_t *count) {
    PyObject *items = PySequence_Tuple(from);
    if (!items) return NULL;
    *count = (size_t)PyTuple_Size(items);
    const int are_many = *count > (size_t)1 << bits;
    uint32_t *numbers = are_many ? NULL : PyMem_Malloc(2 * *count * sizeof *numbers);
    if (are_many) raise_text(AUG_BAD_LENGTH, "%zu members are more than there are keys below 2^%u", *count, (unsigned)bits);
    else if (!numbers) PyErr_NoMemory();
    for (size_t i = 0; numbers && i < *count; i++) {
        const uint32_t least = i ? numbers[i - 1] + 1 : 0;
        if (!read_member(PyTuple_GetItem(items, (Py_ssize_t)i), bits, least, &numbers[i], &numbers[*count + i])) continue;
        PyMem_Free(numbers);
        numbers = NULL;
    }
    Py_DECREF(items);
    return numbers;
}

static PyObject *snapshot_changes_since(PyObject *self, PyObject *from) {
    size_t kept;
    uint32_t *members = read_members(from, ((Snapshot *)self)->trie->bits, &kept);
    Seat *seat = members ? begin(self) : NULL;
    int64_t code = seat ? changes_since(seat, members, kept, 0, NULL, 0) : 0;
    if (seat && code == 0) return changes_of((Snapshot *)self, members, kept);
    PyMem_Free(members);
    return seat ? raise_code(code) : NULL;
}

static PyObject *snapshot_close(PyObject *self, PyObject *unused) {
    Snapshot *snapshot = (Snapshot *)self;
    (void)unused;
    for (unsigned turn = 0; is_ours(snapshot->trie) && snapshot->seat && snapshot->seat->is_busy; turn++) if (nap(turn)) return NULL;
    end_snapshot(snapshot);
    Py_RETURN_NONE;
}

static PyObject *snapshot_enter(PyObject *self, PyObject *unused) {
    (void)unused;
    if (!begin(self)) return NULL;
    Py_INCREF(self);
    return self;
}

static PyMethodDef snapshot_methods[] = {
    {"renew", snapshot_renew, METH_NOARGS,
     "renew($self, /)\n--\n\nShows the trie as it is now: True if `changes` tells what changed by that, and False if a new round of the table began in between. "
     "Then `changes` has nothing to compare with, and raises NothingToCompare, but `changes_since` tells it."},
    {"changes", snapshot_changes, METH_NOARGS,
     "changes($self, /)\n--\n\nAn iterator over what the last `renew` changed: keys, rising, each with its weight before and now, or None where it "
     "is no member. Nothing before the first one. NothingToCompare if it answered False. RuntimeError if the snapshot is renewed meanwhile."},
    {"changes_since", snapshot_changes_since, METH_O,
     "changes_since($self, members, /)\n--\n\nThe same since members that were listed, as `list(snapshot.items())` has them: pairs of a key and its weight, "
     "with rising keys. It goes over all members of both, however few of them changed."},
    {"close", snapshot_close, METH_NOARGS, "close($self, /)\n--\n\nEnds it, so that its thread may ask the trie, or take another. Nothing if it has ended."},
    {"__enter__", snapshot_enter, METH_NOARGS, "The snapshot."},
    {"__exit__", snapshot_close, METH_VARARGS, "Ends it."},
    {NULL, NULL, 0, NULL},
};

static PyType_Slot snapshot_slots[] = {
    {Py_tp_doc, "The set as it was at one moment, until `close`, or the end of its thread. Any thread may ask it, also once its trie is closed."},
    {Py_tp_new, refuse_new},
    {Py_tp_dealloc, snapshot_free},
    {Py_tp_methods, snapshot_methods},
    {0, NULL},
};

PyType_Spec snapshot_spec = {"augtrie.Snapshot", sizeof(Snapshot), 0, Py_TPFLAGS_DEFAULT, snapshot_slots};
