/* The most frequent calls of boddurci.py in C: fetch, store, delete and run, without ctypes.
 *
 * This file makes plain calls: the keys and values are bytes or str, the database is open and not being saved, and no other thread holds
 * its lock. Any other call, and any call that the library refuses, goes to the method in Python, which begins the call again. So
 * boddurci.py alone defines the results of calls and how they wait.
 *
 * A plain call holds the interpreter lock from its check of the database to its end, and calls no Python code in between. So no other
 * thread, no signal and no fork can interrupt it, and it takes no other lock.
 *
 * This file is not linked with the library. boddurci.py finds and loads the library, and passes the addresses of its calls to `bind`. */
#ifndef Py_LIMITED_API
#define Py_LIMITED_API 0x03080000
#endif
#define PY_SSIZE_T_CLEAN
#include <Python.h>
#include <structmember.h>
#include "boddurci.h"

#ifdef Py_GIL_DISABLED
#error "it stands on the lock of the interpreter, which this one does without"
#endif

/* The version of the interface between boddurci.py and this file. Change it whenever `bind`, Lock or Calls changes. */
enum { FORM = 1 };

/* Not a status of the library: the call is not plain, so the method in Python makes it. */
#define LEFT UINT32_MAX

/* The calls of the library. */
static struct {
    __typeof__(boddurci_fetch) *fetch;
    __typeof__(boddurci_store) *store;
    __typeof__(boddurci_delete) *delete;
    __typeof__(boddurci_run) *run;
} library;

/* Objects of boddurci.py, and attribute names. */
static struct {
    PyObject *get_item, *set_item, *delete_item, *contains, *get, *run; /* the methods of the class in Python */
    PyObject *program, *ran;   /* the classes of programs and of the results of runs */
    PyObject *new_tuple;       /* tuple.__new__, which makes the result of a run */
    PyObject *clock, *seconds; /* the module time, and its function time */
    PyObject *name_of, *name_number, *name_time, *words[5]; /* `words` are the names of the arguments of a run */
} python;

static PyTypeObject *lock_type;

/* ---- the lock of a database */

/* A lock of the module threading, with its holder and the number of times that the holder has taken it. Threads and methods in Python
 * take it. */
typedef struct {
    PyObject_HEAD
    PyObject *inner;
    unsigned long holder;
    Py_ssize_t held;
} Lock;

static PyObject *lock_new(PyTypeObject *type, PyObject *words, PyObject *named)
{
    PyObject *inner;
    (void)named;
    if (!PyArg_ParseTuple(words, "O", &inner))
        return NULL;
    Lock *lock = (Lock *)((allocfunc)PyType_GetSlot(type, Py_tp_alloc))(type, 0);
    if (lock != NULL) {
        Py_INCREF(inner);
        lock->inner = inner;
    }
    return (PyObject *)lock;
}

static void lock_free(PyObject *self)
{
    PyTypeObject *type = Py_TYPE(self);
    Py_CLEAR(((Lock *)self)->inner);
    ((freefunc)PyType_GetSlot(type, Py_tp_free))(self);
    Py_DECREF(type);
}

static PyObject *lock_enter(PyObject *self, PyObject *none)
{
    Lock *lock = (Lock *)self;
    PyObject *told = PyObject_CallMethod(lock->inner, "acquire", NULL);
    (void)none;
    if (told != NULL) {
        lock->held++;
        lock->holder = PyThread_get_thread_ident();
    }
    return told;
}

static PyObject *lock_exit(PyObject *self, PyObject *fault)
{
    Lock *lock = (Lock *)self;
    PyObject *told = PyObject_CallMethod(lock->inner, "release", NULL);
    (void)fault;
    if (told != NULL)
        lock->held--;
    return told;
}

static PyMethodDef lock_methods[] = {
    {"__enter__", lock_enter, METH_NOARGS, "Waits for the lock."},
    {"__exit__", lock_exit, METH_VARARGS, "Lets it go."},
    {NULL, NULL, 0, NULL},
};

static PyType_Slot lock_slots[] = {
    {Py_tp_doc, "A lock of threading, of which it is known whether somebody has it."},
    {Py_tp_new, lock_new},
    {Py_tp_dealloc, lock_free},
    {Py_tp_methods, lock_methods},
    {0, NULL},
};

static PyType_Spec lock_spec = {"_boddurci.Lock", sizeof(Lock), 0, Py_TPFLAGS_DEFAULT, lock_slots};

/* ---- the arguments of a plain call */

/* A database object of boddurci.py. */
typedef struct {
    PyObject_HEAD
    boddurci *db; /* NULL if it is closed, and in a child of its process */
    Lock *lock;
    PyObject *alone, *beside; /* the same object, except during a save */
    PyObject *token;          /* identifies its programs */
    unsigned long long changes;
    char reads;
} Calls;

/* Returns whether a plain call is possible now. */
static int is_free(const Calls *calls)
{
    if (calls->db == NULL || calls->lock == NULL || calls->beside != calls->alone)
        return 0;
    return calls->lock->held == 0 || calls->lock->holder == PyThread_get_thread_ident();
}

/* Returns whether a plain call may change the database. If so, counts a change. */
static int may_change(Calls *calls)
{
    if (!is_free(calls) || calls->reads)
        return 0;
    calls->changes++;
    return 1;
}

/* The bytes of a key or value, and the object that owns them. */
struct text {
    const uint8_t *at;
    size_t length;
    PyObject *holder;
};

/* Returns whether a value is bytes or str. If so, sets *text, which the caller releases. */
static int has_text(PyObject *value, struct text *text)
{
    char *at;
    Py_ssize_t length;
    if (PyBytes_CheckExact(value)) {
        Py_INCREF(value);
        text->holder = value;
    } else if (PyUnicode_CheckExact(value)) {
        text->holder = PyUnicode_AsUTF8String(value);
    } else {
        return 0;
    }
    if (text->holder == NULL || PyBytes_AsStringAndSize(text->holder, &at, &length) != 0) {
        Py_XDECREF(text->holder);
        PyErr_Clear();
        return 0;
    }
    text->at = (const uint8_t *)at;
    text->length = (size_t)length;
    return 1;
}

static void let_go(struct text *text)
{
    Py_DECREF(text->holder);
}

/* Returns whether a value is an int from 0 to 2^64 - 1. If so, sets *number. */
static int has_number(PyObject *value, uint64_t *number)
{
    if (!PyLong_CheckExact(value))
        return 0;
    *number = PyLong_AsUnsignedLongLong(value);
    if (PyErr_Occurred() == NULL)
        return 1;
    PyErr_Clear();
    return 0;
}

/* ---- fetch, store, delete */

static uint32_t fetch(PyObject *self, PyObject *key, uint8_t room[BODDURCI_VALUE_MOST], size_t *length)
{
    Calls *calls = (Calls *)self;
    struct text name;
    uint32_t status = LEFT;
    if (!has_text(key, &name))
        return LEFT;
    if (is_free(calls))
        status = library.fetch(calls->db, name.at, name.length, room, BODDURCI_VALUE_MOST, length);
    let_go(&name);
    return status;
}

static PyObject *calls_get_item(PyObject *self, PyObject *key)
{
    uint8_t room[BODDURCI_VALUE_MOST];
    size_t length;
    uint32_t status = fetch(self, key, room, &length);
    if (status == BODDURCI_DONE)
        return PyBytes_FromStringAndSize((const char *)room, (Py_ssize_t)length);
    if (status != BODDURCI_MISSING)
        return PyObject_CallFunctionObjArgs(python.get_item, self, key, NULL);
    PyErr_SetObject(PyExc_KeyError, key);
    return NULL;
}

static int calls_contains(PyObject *self, PyObject *key)
{
    uint8_t room[BODDURCI_VALUE_MOST];
    size_t length;
    uint32_t status = fetch(self, key, room, &length);
    if (status == BODDURCI_DONE || status == BODDURCI_MISSING)
        return status == BODDURCI_DONE;
    PyObject *told = PyObject_CallFunctionObjArgs(python.contains, self, key, NULL);
    int is_there = told != NULL ? PyObject_IsTrue(told) : -1;
    Py_XDECREF(told);
    return is_there;
}

static uint32_t store(PyObject *self, PyObject *key, PyObject *value)
{
    Calls *calls = (Calls *)self;
    struct text name, text;
    uint32_t status = LEFT;
    if (!has_text(key, &name))
        return LEFT;
    if (has_text(value, &text)) {
        if (may_change(calls))
            status = library.store(calls->db, name.at, name.length, text.at, text.length, 1);
        let_go(&text);
    }
    let_go(&name);
    return status;
}

static uint32_t take_out(PyObject *self, PyObject *key)
{
    Calls *calls = (Calls *)self;
    struct text name;
    uint32_t status = LEFT;
    if (!has_text(key, &name))
        return LEFT;
    if (may_change(calls))
        status = library.delete(calls->db, name.at, name.length);
    let_go(&name);
    return status;
}

/* Stores a value, or deletes the key if the value is NULL. */
static int calls_set_item(PyObject *self, PyObject *key, PyObject *value)
{
    uint32_t status = value != NULL ? store(self, key, value) : take_out(self, key);
    if (status == BODDURCI_DONE)
        return 0;
    if (status == BODDURCI_MISSING) {
        PyErr_SetObject(PyExc_KeyError, key);
        return -1;
    }
    PyObject *method = value != NULL ? python.set_item : python.delete_item;
    PyObject *told = PyObject_CallFunctionObjArgs(method, self, key, value, NULL);
    Py_XDECREF(told);
    return told != NULL ? 0 : -1;
}

/* Calls the method in Python with the same arguments. */
static PyObject *leave(PyObject *method, PyObject *self, PyObject *words, PyObject *named)
{
    PyObject *first = PyTuple_Pack(1, self);
    PyObject *all = first != NULL ? PySequence_Concat(first, words) : NULL;
    PyObject *told = all != NULL ? PyObject_Call(method, all, named) : NULL;
    Py_XDECREF(first);
    Py_XDECREF(all);
    return told;
}

/* Returns whether a subclass has its own __getitem__, which `get` must then use. */
static int has_own_look(PyObject *self)
{
    return PyType_GetSlot(Py_TYPE(self), Py_mp_subscript) != (void *)(uintptr_t)calls_get_item;
}

static PyObject *calls_get(PyObject *self, PyObject *words, PyObject *named)
{
    uint8_t room[BODDURCI_VALUE_MOST];
    size_t length;
    Py_ssize_t count = PyTuple_Size(words);
    uint32_t status = LEFT;
    if (named == NULL && (count == 1 || count == 2) && !has_own_look(self))
        status = fetch(self, PyTuple_GetItem(words, 0), room, &length);
    if (status == BODDURCI_DONE)
        return PyBytes_FromStringAndSize((const char *)room, (Py_ssize_t)length);
    if (status != BODDURCI_MISSING)
        return leave(python.get, self, words, named);
    PyObject *told = count == 2 ? PyTuple_GetItem(words, 1) : Py_None;
    Py_INCREF(told);
    return told;
}

/* ---- run */

struct run {
    struct text key, arg;
    uint64_t number, blank, now, end, word;
    uint32_t has_blank;
};

/* Returns whether the value of an attribute is this object. */
static int is_attribute(PyObject *object, PyObject *name, PyObject *wanted)
{
    PyObject *value = PyObject_GetAttr(object, name);
    int is_wanted = value != NULL && value == wanted;
    Py_XDECREF(value);
    PyErr_Clear();
    return is_wanted;
}

/* Returns whether this database has accepted the program. If so, sets *number to its number. */
static int has_program(const Calls *calls, PyObject *program, uint64_t *number)
{
    if ((PyObject *)Py_TYPE(program) != python.program || !is_attribute(program, python.name_of, calls->token))
        return 0;
    PyObject *value = PyObject_GetAttr(program, python.name_number);
    int has = value != NULL && has_number(value, number);
    Py_XDECREF(value);
    PyErr_Clear();
    return has;
}

/* Sets *now to the system's time in seconds. Returns 0 if time.time has been replaced. */
static int has_seconds(uint64_t *now)
{
    if (!is_attribute(python.clock, python.name_time, python.seconds))
        return 0;
    PyObject *told = PyObject_CallObject(python.seconds, NULL);
    double seconds = told != NULL ? PyFloat_AsDouble(told) : -1;
    int has = seconds >= 0 && seconds < 1e18;
    Py_XDECREF(told);
    PyErr_Clear();
    *now = has ? (uint64_t)seconds : 0;
    return has;
}

static int has_numbers(PyObject *blank, PyObject *now, struct run *run)
{
    run->has_blank = blank != NULL && blank != Py_None;
    run->blank = 0;
    if (run->has_blank && !has_number(blank, &run->blank))
        return 0;
    return now == NULL || now == Py_None ? has_seconds(&run->now) : has_number(now, &run->now);
}

static uint32_t run_now(Calls *calls, struct run *run)
{
    if (!may_change(calls))
        return LEFT;
    return library.run(calls->db, (uint32_t)run->number, run->key.at, run->key.length, run->arg.at, run->arg.length, run->has_blank,
                       (size_t)run->blank, run->now, &run->end, &run->word);
}

static uint32_t run_on(PyObject *self, PyObject *key, PyObject *arg, struct run *run)
{
    uint32_t status = LEFT;
    if (!has_text(key, &run->key))
        return LEFT;
    if (arg == NULL) {
        run->arg = (struct text){(const uint8_t *)"", 0, NULL};
        status = run_now((Calls *)self, run);
    } else if (has_text(arg, &run->arg)) {
        status = run_now((Calls *)self, run);
        let_go(&run->arg);
    }
    let_go(&run->key);
    return status;
}

static PyObject *ran(const struct run *run)
{
    PyObject *end = PyLong_FromUnsignedLongLong(run->end), *word = PyLong_FromUnsignedLongLong(run->word);
    PyObject *pair = end != NULL && word != NULL ? PyTuple_Pack(2, end, word) : NULL;
    PyObject *told = pair != NULL ? PyObject_CallFunctionObjArgs(python.new_tuple, python.ran, pair, NULL) : NULL;
    Py_XDECREF(end);
    Py_XDECREF(word);
    Py_XDECREF(pair);
    return told;
}

enum { PROGRAM, KEY, ARG, BLANK, NOW, WORDS };
static const char *const run_words[WORDS] = {"program", "key", "arg", "blank", "now"};

/* Collects the arguments of a run, given by position or by name; a missing one is NULL. Returns 1 if program and key are given and there
 * are no unknown arguments. */
static int has_words(PyObject *words, PyObject *named, PyObject *given[WORDS])
{
    Py_ssize_t count = PyTuple_Size(words), left = named != NULL ? PyDict_Size(named) : 0;
    for (Py_ssize_t at = 0; at < WORDS; at++) {
        given[at] = at < count ? PyTuple_GetItem(words, at) : left > 0 ? PyDict_GetItem(named, python.words[at]) : NULL;
        left -= at >= count && given[at] != NULL;
    }
    return count <= WORDS && left == 0 && given[PROGRAM] != NULL && given[KEY] != NULL;
}

static PyObject *calls_run(PyObject *self, PyObject *words, PyObject *named)
{
    PyObject *given[WORDS];
    struct run run;
    uint32_t status = LEFT;
    if (has_words(words, named, given) && has_program((Calls *)self, given[PROGRAM], &run.number) &&
        has_numbers(given[BLANK], given[NOW], &run))
        status = run_on(self, given[KEY], given[ARG], &run);
    if (status == BODDURCI_DONE)
        return ran(&run);
    if (status != BODDURCI_MISSING)
        return leave(python.run, self, words, named);
    PyErr_SetObject(PyExc_KeyError, given[KEY]);
    return NULL;
}

/* ---- the class */

static PyObject *calls_db(PyObject *self, void *none)
{
    Calls *calls = (Calls *)self;
    (void)none;
    if (calls->db != NULL)
        return PyLong_FromVoidPtr(calls->db);
    Py_INCREF(Py_None);
    return Py_None;
}

static int calls_set_db(PyObject *self, PyObject *value, void *none)
{
    void *db = value != NULL && value != Py_None ? PyLong_AsVoidPtr(value) : NULL;
    (void)none;
    if (PyErr_Occurred() != NULL)
        return -1;
    ((Calls *)self)->db = db;
    return 0;
}

static PyObject *calls_lock(PyObject *self, void *none)
{
    PyObject *lock = (PyObject *)((Calls *)self)->lock;
    (void)none;
    if (lock == NULL)
        PyErr_SetString(PyExc_AttributeError, "_lock");
    Py_XINCREF(lock);
    return lock;
}

static int calls_set_lock(PyObject *self, PyObject *value, void *none)
{
    Calls *calls = (Calls *)self;
    PyObject *before = (PyObject *)calls->lock;
    (void)none;
    if (value == NULL || Py_TYPE(value) != lock_type) {
        PyErr_SetString(PyExc_TypeError, "a lock is a _boddurci.Lock");
        return -1;
    }
    Py_INCREF(value);
    calls->lock = (Lock *)value;
    Py_XDECREF(before);
    return 0;
}

static void calls_free(PyObject *self)
{
    Calls *calls = (Calls *)self;
    PyTypeObject *type = Py_TYPE(self);
    Py_CLEAR(calls->lock);
    Py_CLEAR(calls->alone);
    Py_CLEAR(calls->beside);
    Py_CLEAR(calls->token);
    ((freefunc)PyType_GetSlot(type, Py_tp_free))(self);
    Py_DECREF(type);
}

static PyGetSetDef calls_attributes[] = {
    {"_db", calls_db, calls_set_db, "The address of the handle, or None.", NULL},
    {"_lock", calls_lock, calls_set_lock, "What keeps threads apart.", NULL},
    {NULL, NULL, NULL, NULL, NULL},
};

static PyMemberDef calls_members[] = {
    {"_alone", T_OBJECT_EX, offsetof(Calls, alone), 0, NULL},
    {"_beside", T_OBJECT_EX, offsetof(Calls, beside), 0, NULL},
    {"_token", T_OBJECT_EX, offsetof(Calls, token), 0, NULL},
    {"_changes", T_ULONGLONG, offsetof(Calls, changes), 0, NULL},
    {"_reads", T_BOOL, offsetof(Calls, reads), 0, NULL},
    {NULL, 0, 0, 0, NULL},
};

#define GET_TEXT "get($self, key, default=None)\n--\n\nReturns the value of a key, or the default if the key is missing."
#define RUN_TEXT "run($self, program, key, arg=b'', blank=None, now=None)\n--\n\n" \
    "Runs a program on the record of a key, as one step. If the key is missing it runs on `blank` zeros; without `blank` that\n" \
    "is a KeyError. The program can read the time `now`, which is by default the system's in seconds: pass it if the program\n" \
    "counts in another unit."

static PyMethodDef calls_methods[] = {
    {"get", (PyCFunction)(void (*)(void))calls_get, METH_VARARGS | METH_KEYWORDS, GET_TEXT},
    {"run", (PyCFunction)(void (*)(void))calls_run, METH_VARARGS | METH_KEYWORDS, RUN_TEXT},
    {NULL, NULL, 0, NULL},
};

static PyType_Slot calls_slots[] = {
    {Py_tp_doc, "The calls of a database that are made most."},
    {Py_tp_dealloc, calls_free},
    {Py_tp_getset, calls_attributes},
    {Py_tp_members, calls_members},
    {Py_tp_methods, calls_methods},
    {Py_mp_subscript, calls_get_item},
    {Py_mp_ass_subscript, calls_set_item},
    {Py_sq_contains, calls_contains},
    {0, NULL},
};

/* Python 3.8 needs the version tag. Headers of 3.10 and later do not have it among the default flags. */
static PyType_Spec calls_spec = {
    "_boddurci.Calls", sizeof(Calls), 0, Py_TPFLAGS_DEFAULT | Py_TPFLAGS_BASETYPE | Py_TPFLAGS_HAVE_VERSION_TAG, calls_slots,
};

/* ---- the module */

/* Returns the address of a function of the library. On failure sets an exception and returns 0. */
static uintptr_t address(PyObject *addresses, const char *name)
{
    PyObject *value = PyMapping_GetItemString(addresses, name);
    void *at = value != NULL ? PyLong_AsVoidPtr(value) : NULL;
    Py_XDECREF(value);
    if (at == NULL && PyErr_Occurred() == NULL)
        PyErr_SetString(PyExc_ValueError, "an address is no zero");
    return (uintptr_t)at;
}

static int bind_library(PyObject *addresses)
{
    library.fetch = (__typeof__(library.fetch))address(addresses, "fetch");
    if (library.fetch != NULL)
        library.store = (__typeof__(library.store))address(addresses, "store");
    if (library.store != NULL)
        library.delete = (__typeof__(library.delete))address(addresses, "delete");
    if (library.delete != NULL)
        library.run = (__typeof__(library.run))address(addresses, "run");
    return library.run != NULL;
}

static int bind_methods(PyObject *plain)
{
    return (python.get_item = PyObject_GetAttrString(plain, "__getitem__")) != NULL &&
           (python.set_item = PyObject_GetAttrString(plain, "__setitem__")) != NULL &&
           (python.delete_item = PyObject_GetAttrString(plain, "__delitem__")) != NULL &&
           (python.contains = PyObject_GetAttrString(plain, "__contains__")) != NULL &&
           (python.get = PyObject_GetAttrString(plain, "get")) != NULL && (python.run = PyObject_GetAttrString(plain, "run")) != NULL;
}

static int bind_names(void)
{
    for (int at = 0; at < WORDS; at++)
        if ((python.words[at] = PyUnicode_InternFromString(run_words[at])) == NULL)
            return 0;
    return (python.new_tuple = PyObject_GetAttrString((PyObject *)&PyTuple_Type, "__new__")) != NULL &&
           (python.name_of = PyUnicode_InternFromString("_of")) != NULL &&
           (python.name_number = PyUnicode_InternFromString("number")) != NULL &&
           (python.name_time = PyUnicode_InternFromString("time")) != NULL &&
           (python.seconds = PyObject_GetAttr(python.clock, python.name_time)) != NULL;
}

#define BIND_TEXT "bind($module, addresses, plain, program, ran, clock, /)\n--\n\n" \
    "Returns the classes Calls and Lock. Calls makes the calls of the library at these addresses, and uses the methods of a class in\n" \
    "Python for all other calls. A later call in the process returns None: the classes belong to the interpreter that called first."

static PyObject *bind(PyObject *module, PyObject *words)
{
    static int is_bound;
    PyObject *addresses, *plain;
    (void)module;
    if (is_bound)
        Py_RETURN_NONE;
    if (!PyArg_ParseTuple(words, "OOOOO", &addresses, &plain, &python.program, &python.ran, &python.clock))
        return NULL;
    is_bound = 1;
    Py_INCREF(python.program);
    Py_INCREF(python.ran);
    Py_INCREF(python.clock);
    if (!bind_library(addresses) || !bind_methods(plain) || !bind_names())
        return NULL;
    PyObject *calls = PyType_FromSpec(&calls_spec), *lock = calls != NULL ? PyType_FromSpec(&lock_spec) : NULL;
    PyObject *classes = lock != NULL ? PyTuple_Pack(2, calls, lock) : NULL;
    Py_XDECREF(calls);
    lock_type = (PyTypeObject *)lock;
    return classes;
}

static PyMethodDef methods[] = {{"bind", bind, METH_VARARGS, BIND_TEXT}, {NULL, NULL, 0, NULL}};

static struct PyModuleDef definition = {
    PyModuleDef_HEAD_INIT, "_boddurci", "The calls of boddurci.py that are made most, without ctypes.", -1, methods, NULL, NULL, NULL, NULL,
};

PyMODINIT_FUNC PyInit__boddurci(void)
{
    PyObject *module = PyModule_Create(&definition);
    if (module == NULL)
        return NULL;
    if (PyModule_AddIntConstant(module, "FORM", FORM) != 0 || PyModule_AddStringConstant(module, "VERSION", BODDURCI_VERSION) != 0)
        Py_CLEAR(module);
    return module;
}
