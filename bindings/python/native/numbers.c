/* Numbers of Python, read for the library. */
#include "module.h"

/* A number of 64 bits: 0, or 1 if it is above these, -1 if it is below, or -2 with an exception. */
static int read_number(PyObject *from, long long *number) {
    int is_over = 0;
    PyObject *index = PyNumber_Index(from);
    if (!index) return -2;
    *number = PyLong_AsLongLongAndOverflow(index, &is_over);
    Py_DECREF(index);
    return is_over;
}

int read_place(PyObject *from, int64_t *place) {
    long long number;
    int over = read_number(from, &number);
    *place = over > 0 || (!over && number > AUG_MOST_KEYS) ? AUG_MOST_KEYS : over || number < 0 ? -1 : number;
    return over == -2 ? -1 : 0;
}

int read_key(PyObject *from, uint32_t *key) {
    int64_t place;
    int read = read_place(from, &place);
    *key = place < 0 ? AUG_MOST_KEYS : (uint32_t)place;
    return read;
}

int read_bound(PyObject *from, uint32_t *bound) {
    int64_t place;
    int read = read_place(from, &place);
    *bound = place < 0 ? 0 : (uint32_t)place;
    return read;
}

int read_weight(PyObject *from, uint32_t *weight) {
    long long number;
    int over = read_number(from, &number);
    if (over == -2) return -1;
    *weight = (uint32_t)number;
    if (!over && number >= 0 && number <= UINT32_MAX) return 0;
    PyErr_Format(PyExc_ValueError, "a weight or an amount is a number of 32 bits, and %S is none", from);
    return -1;
}

int read_sum(PyObject *from, int64_t *sum) {
    long long number;
    int over = read_number(from, &number);
    *sum = over > 0 ? INT64_MAX : over || number < 0 ? -1 : number;
    return over == -2 ? -1 : 0;
}

int read_wide(PyObject *from, uint64_t *number) {
    long long read;
    int over = read_number(from, &read);
    *number = over > 0 ? UINT64_MAX : over || read < 0 ? 0 : (uint64_t)read;
    return over == -2 ? -1 : 0;
}

Py_ssize_t read_index(PyObject *args, PyObject *named, const char *format) {
    static char *words[] = {"index", NULL};
    PyObject *index = NULL;
    if (!PyArg_ParseTupleAndKeywords(args, named, format, words, &index)) return -1;
    return index ? PyNumber_AsSsize_t(index, PyExc_IndexError) : -1;
}

/* Raises a TypeError for bytes, or for a view of them. 0, or -1 with an exception. */
static int refuse_bytes(PyObject *from) {
    int is_bytes = PyBytes_Check(from) || PyByteArray_Check(from);
    if (PyMemoryView_Check(from)) {
        PyObject *size = PyObject_GetAttrString(from, "itemsize");
        if (!size) return -1;
        is_bytes = PyLong_AsLong(size) == 1;
        Py_DECREF(size);
    }
    if (is_bytes) PyErr_SetString(PyExc_TypeError, "bytes are no numbers");
    return PyErr_Occurred() ? -1 : 0;
}

uint32_t *read_all(PyObject *from, size_t *count, int (*read)(PyObject *, uint32_t *), PyObject **kept) {
    if (refuse_bytes(from)) return NULL;
    /* A tuple, since the __index__ of one number could change a list that has the next. */
    PyObject *items = PySequence_Tuple(from);
    if (!items) return NULL;
    Py_ssize_t length = PyTuple_Size(items), i = 0;
    uint32_t *numbers = PyMem_Malloc((size_t)length * sizeof *numbers);
    if (!numbers) PyErr_NoMemory();
    while (numbers && i < length) {
        if (read(PyTuple_GetItem(items, i), &numbers[i]) == 0) {
            i++;
        } else {
            PyMem_Free(numbers);
            numbers = NULL;
        }
    }
    if (numbers && kept) *kept = items;
    else Py_DECREF(items);
    *count = (size_t)length;
    return numbers;
}

/* Whether it has `keys`: 1 or 0, or -1 with an exception. */
static int is_mapping(PyObject *from) {
    PyObject *keys = PyObject_GetAttrString(from, "keys");
    if (!keys && !PyErr_ExceptionMatches(PyExc_AttributeError)) return -1;
    if (!keys) PyErr_Clear();
    Py_XDECREF(keys);
    return keys != NULL;
}

/* The value of each key of a mapping, as a list, or NULL with an exception. */
static PyObject *values_of(PyObject *mapping, PyObject *keys) {
    PyObject *values = PyList_New(0);
    for (Py_ssize_t i = 0; values && i < PyTuple_Size(keys); i++) {
        PyObject *value = PyObject_GetItem(mapping, PyTuple_GetItem(keys, i));
        if (!value || PyList_Append(values, value)) Py_CLEAR(values);
        Py_XDECREF(value);
    }
    return values;
}

void free_batch(Batch *batch) {
    if (batch->numbers != batch->keys) PyMem_Free(batch->numbers);
    PyMem_Free(batch->keys);
    Py_XDECREF(batch->items);
}

int read_batch(PyObject *from, int has_weights, Batch *batch) {
    int is_weighed = has_weights ? is_mapping(from) : 0;
    PyObject *keys = is_weighed > 0 ? PyMapping_Keys(from) : from;
    if (is_weighed < 0 || !keys) return -1;
    batch->keys = batch->numbers = read_all(keys, &batch->count, read_key, &batch->items);
    if (is_weighed) Py_DECREF(keys);
    if (!batch->keys) return -1;
    if (!is_weighed) return 0;
    size_t weight_count;
    PyObject *weights = values_of(from, batch->items);
    batch->numbers = weights ? read_all(weights, &weight_count, read_weight, NULL) : NULL;
    Py_XDECREF(weights);
    if (batch->numbers) return 0;
    free_batch(batch);
    return -1;
}
