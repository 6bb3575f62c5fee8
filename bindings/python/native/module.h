/* What the files of the extension share. The interpreter's lock guards all that is declared here, and whoever has it may read and change it. */
#ifndef AUGTRIE_MODULE_H
#define AUGTRIE_MODULE_H

#define PY_SSIZE_T_CLEAN
/* The stable interface of Python 3.8: what is built once loads into that version and later ones. */
#define Py_LIMITED_API 0x03080000
#include <Python.h>

#include "augtrie.h"

typedef struct Snapshot Snapshot;

/* What a call does that lets other threads run. */
enum { UPDATES = 1, ASKS };

/* A user of a trie, for one thread after the other. */
typedef struct {
    aug_user handle;
    uint64_t thread; /* the number of its thread; 0 if it has none; ENDED if that has ended while another thread was in a call of it */
    Snapshot *held;  /* the snapshot whose look it has; borrowed */
    char is_open;
    char is_busy;    /* a call of it is on that lets other threads run, and does this: nobody else may use the handle */
    char is_over;    /* its look ends with that call */
} Seat;

typedef struct Trie {
    PyObject_HEAD
    aug_trie handle;
    struct Trie *next, **link; /* in the list of tries; the link is NULL before the trie is opened */
    uint32_t bits, users;
    unsigned forks;            /* how often the process had been forked when it was opened */
    int is_closing, is_closed;
    unsigned waiting, tries;   /* how many threads wait for others to end their calls, or old looks, and how often one of them has tried again */
    aug_report report;         /* once it is closed */
    Seat seats[AUG_MOST_USERS];
} Trie;

/* A look. It holds its trie, so what is collected has none. */
struct Snapshot {
    PyObject_HEAD
    Trie *trie;
    Seat *seat;        /* NULL once it has ended */
    unsigned renewals; /* how often it has been renewed */
    char is_anew;      /* the last time, in a new round: it has nothing to be compared with */
};

/* The types, which the module makes when it is loaded. */
extern PyTypeObject *members_type, *trie_type, *snapshot_type, *iterator_type, *changes_type, *stay_type, *report_type, *span_type;
extern PyType_Spec members_spec, trie_spec, snapshot_spec, iterator_spec, changes_spec, stay_spec;

/* The exception that all others are of, and that of a snapshot with nothing before it, which is no code. */
extern PyObject *any_error, *nothing_to_compare;

/* Raises the exception of a code, with the library's text, or with one that has numbers. NULL. */
void *raise_code(int64_t code);
void *raise_text(int64_t code, const char *format, ...);

/* Raises that of a key that is not below 2^bits. NULL. */
void *raise_key(PyObject *key, uint32_t bits);

/* The number that a call answered, or NULL with the exception of its code. */
PyObject *told_number(int64_t answer);

/* The same, but None for AUG_NONE. */
PyObject *number_or_none(int64_t answer);

/* A span or a report of its fields, or NULL with an exception. */
PyObject *record_of(PyTypeObject *type, Py_ssize_t count, const uint64_t *fields);

/* Frees an object of a type that the module made. */
void free_object(PyObject *self);

/* Refuses to make an object by its type. NULL. */
PyObject *refuse_new(PyTypeObject *type, PyObject *args, PyObject *named);

/* Read a number from what has __index__: 0, or -1 with an exception. No handle is in use meanwhile, since this may run any code of Python.
   A place is -1 for all numbers below 0, and AUG_MOST_KEYS, which is no key of any trie, for all that are above. */
int read_place(PyObject *from, int64_t *place);
/* A key, or AUG_MOST_KEYS for what is none; the least key that is not below a number, or AUG_MOST_KEYS; a weight or an amount. */
int read_key(PyObject *from, uint32_t *key);
int read_bound(PyObject *from, uint32_t *bound);
int read_weight(PyObject *from, uint32_t *weight);
/* A sum of weights: -1 for all numbers below 0. */
int read_sum(PyObject *from, int64_t *sum);
/* A number of a trie that is opened: one that is out of range is still out of range. */
int read_wide(PyObject *from, uint64_t *number);

/* Reads the numbers of an iterable into memory for PyMem_Free, or answers NULL with an exception. Bytes are no numbers. If `items` is no NULL, it gets
   a tuple of what was read. */
uint32_t *read_all(PyObject *from, size_t *count, int (*read)(PyObject *, uint32_t *), PyObject **items);

/* Keys that were read, and what they were read from; and the weights of a mapping, or the keys once more. */
typedef struct {
    uint32_t *keys, *numbers;
    size_t count;
    PyObject *items;
} Batch;

/* Reads the keys of an iterable, or, if these are asked for and it is a mapping, as dict.update has it, the keys and the weights. 0, or -1 with an
   exception, and then nothing is to be freed. */
int read_batch(PyObject *from, int has_weights, Batch *batch);
void free_batch(Batch *batch);

/* The index that a call may be given by its place or by name, or -1 for the last member; or -1 with an exception. */
Py_ssize_t read_index(PyObject *args, PyObject *named, const char *format);

/* Notices forks from now on. 0, or another number for want of memory. */
int watch_forks(void);

/* Whether this process opened the trie, and is no child of that; and whether calls of it may begin. */
int is_ours(const Trie *trie);
int is_open(const Trie *trie);

/* Enters a trie into the list of those that are there, and takes it out. */
void enlist(Trie *trie);
void delist(Trie *trie);

/* Closes a trie whose seats are not busy, but for those whose snapshots are asked. A seat that has a snapshot stays open until that ends. */
void shut(Trie *trie);

/* This thread's seat in a trie, which is not busy; or NULL with an exception. Other threads run while one of them asks this thread's snapshot. */
Seat *seat_of(Trie *trie);

/* This thread's seat, or one that nobody has, for as long as this thread keeps the interpreter's lock; or NULL, with no exception, where both have
   something to do. */
Seat *seat_at_hand(Trie *trie);

/* The same as seat_of, with a look that was taken for it. Other threads run while it waits. */
Seat *look(Trie *trie);

/* Ends the snapshot of a seat, if it has one: at the end of the call that is on, if the seat is busy. */
void end_look(Seat *seat);

/* Lets other threads run for a moment, and handles signals. 0, or -1 with the exception of a handler. */
int nap(unsigned turn);

/* The same until a call that answered AUG_AGAIN is made again, which has to follow at once. */
int wait_for_others(Trie *trie, unsigned turn);

/* If threads wait, gives them some 10 milliseconds at most until one has tried again. It follows a look that was open while others ran. */
void give_way(const Trie *trie);

/* Begin and end what lets other threads run, or nothing if it is short. No code of Python runs on this thread in between. */
PyThreadState *let_others_run(Seat *seat, int call, size_t keys);
void run_alone(Seat *seat, PyThreadState *others);

#endif
