/* The module: its types, its exceptions, and what objects of all types have in common. */
#include "module.h"

#include <stdarg.h>
#include <string.h>

PyTypeObject *members_type, *trie_type, *snapshot_type, *iterator_type, *changes_type, *stay_type, *report_type, *span_type;
PyObject *any_error, *nothing_to_compare;

/* The exceptions by the codes that they stand for, with the sign turned. */
enum { CODES = 16 };
static PyObject *errors[CODES];

static const struct {
    int64_t code;
    const char *name;
    PyObject **also;  /* the exception of Python that it is as well */
    const char *text; /* what it says where that is not what the library has of the code */
} kinds[] = {
    {AUG_CLOSED, "augtrie.Closed", NULL, NULL},
    {AUG_BAD_KEY, "augtrie.BadKey", &PyExc_ValueError, NULL},
    {AUG_AGAIN, "augtrie.Again", NULL, NULL},
    {AUG_NO_MEMORY, "augtrie.NoMemory", &PyExc_MemoryError, NULL},
    {AUG_BAD_BITS, "augtrie.BadBits", &PyExc_ValueError, NULL},
    {AUG_BAD_USERS, "augtrie.BadUsers", &PyExc_ValueError, NULL},
    {AUG_TOO_LARGE, "augtrie.BadBytes", &PyExc_ValueError, "the bytes are fewer than 64 updates of each thread take, or more than 3 * 2^29"},
    {AUG_NO_USER, "augtrie.NoUser", NULL, NULL},
    {AUG_OPEN, "augtrie.Open", NULL, NULL},
    {AUG_BAD_LENGTH, "augtrie.BadLength", &PyExc_ValueError, NULL},
    {AUG_LOOKING, "augtrie.Looking", NULL, "this thread has a snapshot, which has to be closed first"},
    {AUG_NOT_LOOKING, "augtrie.NotLooking", NULL, "the snapshot has ended"},
    {AUG_TOO_GREAT, "augtrie.TooGreat", &PyExc_OverflowError, NULL},
    {AUG_TOO_LITTLE, "augtrie.TooLittle", &PyExc_ValueError, NULL},
};

static const char *text_of(int64_t code) {
    for (size_t i = 0; i < sizeof kinds / sizeof *kinds; i++) if (kinds[i].code == code && kinds[i].text) return kinds[i].text;
    return aug_error_text(code);
}

static PyObject *error_of(int64_t code) {
    return code < 0 && -code < CODES && errors[-code] ? errors[-code] : any_error;
}

void *raise_code(int64_t code) {
    PyErr_SetString(error_of(code), text_of(code));
    return NULL;
}

void *raise_text(int64_t code, const char *format, ...) {
    va_list given;
    va_start(given, format);
    PyErr_FormatV(error_of(code), format, given);
    va_end(given);
    return NULL;
}

void *raise_key(PyObject *key, uint32_t bits) {
    return raise_text(AUG_BAD_KEY, "key %S is not below 2^%u", key, (unsigned)bits);
}

PyObject *told_number(int64_t answer) {
    return answer < 0 ? raise_code(answer) : PyLong_FromLongLong(answer);
}

PyObject *number_or_none(int64_t answer) {
    if (answer == AUG_NONE) Py_RETURN_NONE;
    return told_number(answer);
}

void free_object(PyObject *self) {
    PyTypeObject *type = Py_TYPE(self);
    PyObject_Free(self);
    Py_DECREF(type);
}

PyObject *refuse_new(PyTypeObject *type, PyObject *args, PyObject *named) {
    (void)type, (void)args, (void)named;
    PyErr_SetString(PyExc_TypeError, "only a trie is made by its type");
    return NULL;
}

static PyStructSequence_Field report_fields[] = {
    {"inserts", "how many keys were put in; a weight that was replaced counts here and below"},
    {"removals", "how many keys were taken out"},
    {"size", "how many members there were at the end"},
    {NULL, NULL},
};

static PyStructSequence_Desc report_description = {"augtrie.Report", "What the life of a trie came to.", report_fields, 3};

static PyStructSequence_Field span_fields[] = {
    {"sum", "the sum of their weights, modulo 2^64"},
    {"count", "how many they are"},
    {"least", "the least key, or 0 if there is none"},
    {"greatest", "the greatest key, or 0 if there is none"},
    {NULL, NULL},
};

static PyStructSequence_Desc span_description = {"augtrie.Span", "What the members of an interval come to.", span_fields, 4};

PyObject *record_of(PyTypeObject *type, Py_ssize_t count, const uint64_t *fields) {
    PyObject *result = PyStructSequence_New(type);
    for (Py_ssize_t i = 0; result && i < count; i++) {
        PyObject *number = PyLong_FromUnsignedLongLong(fields[i]);
        PyStructSequence_SetItem(result, i, number);
        if (!number) Py_CLEAR(result);
    }
    return result;
}

/* Puts an object into the module by its name behind the dot, and keeps a reference. 0, or -1 with an exception. */
static int add(PyObject *module, const char *name, PyObject *object) {
    if (!object) return -1;
    Py_INCREF(object);
    return PyModule_AddObject(module, strchr(name, '.') + 1, object);
}

static int add_errors(PyObject *module) {
    any_error = PyErr_NewExceptionWithDoc("augtrie.AugtrieError", "Why a call did nothing.", NULL, NULL);
    if (add(module, "augtrie.AugtrieError", any_error)) return -1;
    for (size_t i = 0; i < sizeof kinds / sizeof *kinds; i++) {
        PyObject *also = kinds[i].also ? *kinds[i].also : NULL;
        PyObject *bases = also ? PyTuple_Pack(2, any_error, also) : PyTuple_Pack(1, any_error);
        if (!bases) return -1;
        PyObject *error = PyErr_NewExceptionWithDoc(kinds[i].name, text_of(kinds[i].code), bases, NULL);
        Py_DECREF(bases);
        if (add(module, kinds[i].name, error)) return -1;
        errors[-kinds[i].code] = error;
    }
    const char *text = "a new round of the table began before the last renewal, so there is nothing to compare with: use changes_since";
    nothing_to_compare = PyErr_NewExceptionWithDoc("augtrie.NothingToCompare", text, any_error, NULL);
    return add(module, "augtrie.NothingToCompare", nothing_to_compare);
}

static int add_types(PyObject *module) {
    const struct {
        PyTypeObject **type;
        PyType_Spec *spec;
        PyTypeObject **base;
    } made[] = {{&members_type, &members_spec, NULL},
                {&trie_type, &trie_spec, &members_type},
                {&snapshot_type, &snapshot_spec, &members_type},
                {&iterator_type, &iterator_spec, NULL},
                {&changes_type, &changes_spec, NULL},
                {&stay_type, &stay_spec, NULL}};
    for (size_t i = 0; i < sizeof made / sizeof *made; i++) {
        PyObject *bases = made[i].base ? PyTuple_Pack(1, *made[i].base) : NULL;
        if (!PyErr_Occurred()) *made[i].type = (PyTypeObject *)PyType_FromSpecWithBases(made[i].spec, bases);
        Py_XDECREF(bases);
        if (add(module, made[i].spec->name, (PyObject *)*made[i].type)) return -1;
    }
    report_type = PyStructSequence_NewType(&report_description);
    span_type = PyStructSequence_NewType(&span_description);
    if (add(module, report_description.name, (PyObject *)report_type)) return -1;
    return add(module, span_description.name, (PyObject *)span_type);
}

static struct PyModuleDef definition = {PyModuleDef_HEAD_INIT, "_augtrie", NULL, -1, NULL, NULL, NULL, NULL, NULL};

/* The headers of Python 3.8 do not say so, and all else is hidden. */
__attribute__((visibility("default"))) PyMODINIT_FUNC PyInit__augtrie(void);

PyMODINIT_FUNC PyInit__augtrie(void) {
    PyObject *module = PyModule_Create(&definition);
    if (!module) return NULL;
    if (watch_forks()) PyErr_NoMemory();
    if (PyErr_Occurred() || add_errors(module) || add_types(module) || PyModule_AddStringConstant(module, "__version__", aug_version()))
        Py_CLEAR(module);
    return module;
}
