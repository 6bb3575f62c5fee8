/* Which thread has which user of a trie. A user is given to a thread that calls, and is free again when the thread ends: a value in the
   thread's dictionary, which Python drops then, notices it. No call of the library that may wait is made with the interpreter's lock: what
   would wait is tried again and again, and other threads run in between. */
#define _POSIX_C_SOURCE 200809L
#include "module.h"

#include <pthread.h>
#include <sched.h>
#include <time.h>

/* A call for no more keys than this is done before another thread of Python would have begun to run. */
enum { FEW_KEYS = 64 };

/* How often whoever waits yields before it sleeps. */
enum { YIELDS = 32 };

/* The number of a thread that has ended. */
static const uint64_t ENDED = UINT64_MAX;

/* The tries that are open, or may have snapshots. */
static Trie *tries;

/* Numbers that tell threads apart. None is given twice. */
static uint64_t threads;
static _Thread_local uint64_t this_thread;

/* How many forks there were between the first process and this one. */
static unsigned forks;

static void count_fork(void) {
    forks++;
}

int watch_forks(void) {
    return pthread_atfork(NULL, NULL, count_fork);
}

int is_ours(const Trie *trie) {
    return trie->forks == forks;
}

int is_open(const Trie *trie) {
    return !trie->is_closed && !trie->is_closing && is_ours(trie);
}

void enlist(Trie *trie) {
    trie->forks = forks;
    trie->next = tries;
    trie->link = &tries;
    if (tries) tries->link = &trie->next;
    tries = trie;
}

void delist(Trie *trie) {
    *trie->link = trie->next;
    if (trie->next) trie->next->link = trie->link;
}

void shut(Trie *trie) {
    trie->is_closed = 1;
    if (!is_ours(trie)) return;
    for (uint32_t i = 0; i < trie->users; i++) if (!trie->seats[i].held) aug_user_close(&trie->seats[i].handle);
    /* Nobody is in a call, so this waits for nobody. */
    aug_close(&trie->handle, &trie->report);
}

void end_look(Seat *seat) {
    Snapshot *held = seat->held;
    if (!held) return;
    seat->held = NULL;
    held->seat = NULL;
    if (!is_ours(held->trie)) return;
    /* What asks the snapshot has it, so only an update may be on, and none of a closed trie. */
    if (held->trie->is_closed) aug_user_close(&seat->handle);
    else if (seat->is_busy) seat->is_over = 1;
    else aug_look_done(&seat->handle);
}

/* Takes a seat from a thread that has ended, or has it taken at the end of the call that is on. */
static void leave(Seat *seat) {
    if (!seat->is_busy) end_look(seat);
    seat->thread = seat->is_busy ? ENDED : 0;
}

/* A thread's life, as far as it uses tries. */
typedef struct {
    PyObject_HEAD
    uint64_t thread;
} Stay;

static void stay_free(PyObject *self) {
    uint64_t thread = ((Stay *)self)->thread;
    for (Trie *trie = tries; trie; trie = trie->next)
        for (uint32_t i = 0; i < trie->users; i++)
            if (trie->seats[i].thread == thread) leave(&trie->seats[i]);
    if (this_thread == thread) this_thread = 0;
    free_object(self);
}

static PyType_Slot slots[] = {
    {Py_tp_new, refuse_new},
    {Py_tp_dealloc, stay_free},
    {0, NULL},
};

PyType_Spec stay_spec = {"augtrie.Stay", sizeof(Stay), 0, Py_TPFLAGS_DEFAULT, slots};

/* The number of this thread, or 0 with an exception. */
static uint64_t number_of_thread(void) {
    if (this_thread) return this_thread;
    PyObject *dictionary = PyThreadState_GetDict();
    if (!dictionary) PyErr_NoMemory();
    PyObject *key = dictionary ? PyUnicode_FromString("augtrie") : NULL;
    Stay *stay = key ? PyObject_New(Stay, stay_type) : NULL;
    if (stay) {
        stay->thread = ++threads;
        /* Taking memory may have run a finalizer that came here first. */
        if (!this_thread && PyDict_SetItem(dictionary, key, (PyObject *)stay) == 0) this_thread = stay->thread;
    }
    Py_XDECREF(stay);
    Py_XDECREF(key);
    return this_thread;
}

/* Opens the user of a seat, if it is not open: a code. */
static int64_t open_seat(Trie *trie, Seat *seat) {
    int64_t code = seat->is_open ? AUG_OK : aug_user_open(&trie->handle, &seat->handle);
    if (code == AUG_OK) seat->is_open = 1;
    return code;
}

/* This thread's seat, or NULL with an exception. */
static Seat *find_seat(Trie *trie) {
    uint64_t thread = number_of_thread();
    Seat *free = NULL;
    if (!thread) return NULL;
    if (!is_open(trie)) return raise_code(AUG_CLOSED);
    for (uint32_t i = 0; i < trie->users; i++) {
        Seat *seat = &trie->seats[i];
        if (seat->thread == thread) return seat;
        if (!seat->thread && !free) free = seat;
    }
    if (!free) return raise_text(AUG_NO_USER, "all %u users of the trie are open", (unsigned)trie->users);
    int64_t code = open_seat(trie, free);
    if (code != AUG_OK) return raise_code(code);
    free->thread = thread;
    return free;
}

Seat *seat_at_hand(Trie *trie) {
    Seat *free = NULL;
    for (uint32_t i = 0; is_open(trie) && i < trie->users; i++) {
        Seat *seat = &trie->seats[i];
        if (seat->is_busy || seat->held) continue;
        if (this_thread && seat->thread == this_thread) return seat;
        if (!seat->thread && !free) free = seat;
    }
    return free && open_seat(trie, free) == AUG_OK ? free : NULL;
}

Seat *seat_of(Trie *trie) {
    for (unsigned turn = 0;; turn++) {
        Seat *seat = find_seat(trie);
        if (!seat || !seat->is_busy) return seat;
        if (nap(turn)) return NULL;
    }
}

Seat *look(Trie *trie) {
    for (unsigned turn = 0;; turn++) {
        /* A handler of a signal may have closed the trie meanwhile, or taken a snapshot. */
        Seat *seat = seat_of(trie);
        if (!seat) return NULL;
        int64_t code = aug_try_look(&seat->handle);
        if (code == AUG_OK) return seat;
        if (code != AUG_AGAIN) return raise_code(code);
        if (wait_for_others(trie, turn)) return NULL;
    }
}

/* Lets other threads run, and in a long wait sleeps. */
static void let_go(unsigned turn) {
    const struct timespec pause = {0, 50000};
    Py_BEGIN_ALLOW_THREADS
    if (turn < YIELDS) sched_yield();
    else nanosleep(&pause, NULL);
    Py_END_ALLOW_THREADS
}

int nap(unsigned turn) {
    let_go(turn);
    return PyErr_CheckSignals();
}

int wait_for_others(Trie *trie, unsigned turn) {
    /* Nobody sees the count but with the interpreter's lock, which this thread has until it tries again. */
    trie->waiting++;
    let_go(turn);
    trie->waiting--;
    trie->tries++;
    return PyErr_CheckSignals();
}

void give_way(const Trie *trie) {
    unsigned tries = trie->tries;
    for (unsigned turn = YIELDS; is_ours(trie) && trie->waiting && trie->tries == tries && turn < 100 + YIELDS; turn++) let_go(turn);
}

PyThreadState *let_others_run(Seat *seat, int call, size_t keys) {
    if (keys <= FEW_KEYS) return NULL;
    seat->is_busy = (char)call;
    return PyEval_SaveThread();
}

void run_alone(Seat *seat, PyThreadState *others) {
    if (!others) return;
    PyEval_RestoreThread(others);
    seat->is_busy = 0;
    if (seat->is_over) aug_look_done(&seat->handle);
    seat->is_over = 0;
    if (seat->thread == ENDED) leave(seat);
}
