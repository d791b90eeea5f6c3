/* globset._extension: what globset/_by_ctypes.py has, as an extension module over the limited API of Python 3.10. It is linked
 * with the static library, and calls the proved functions (`globset_raw_..`).
 *
 * Threads. The interpreter's lock is held in every function here, but where it says that it is released. A call on a set takes a
 * searcher that no other call uses out of the set's pool, and puts it back. Where other code of Python can run, nothing of an
 * object is half made: a path's `__fspath__`, an iterator, a finalizer or another thread may call anything. */
#define Py_LIMITED_API 0x030A0000
#define PY_SSIZE_T_CLEAN
#include <Python.h>

#include <stdint.h>
#include <stdlib.h>
#include <string.h>

#include <globset_raw.h>

/* How many paths are asked about without the lock before it is taken again. */
enum { BLOCK = 1024 };

/* ---- Statuses ---- */

static PyObject *raise_status(globset_status status) {
    if (status == GLOBSET_OUT_OF_MEMORY) return PyErr_NoMemory();
    if (status == GLOBSET_BAD_INDEX) return PyErr_Format(PyExc_IndexError, "there is no ignore file or line of this index");
    return PyErr_Format(PyExc_RuntimeError, "globset: a call returned the status %u", (unsigned int)status);
}

static PyObject *answer(globset_status status) {
    if (status == GLOBSET_YES) return Py_NewRef(Py_True);
    if (status == GLOBSET_NO) return Py_NewRef(Py_False);
    return raise_status(status);
}

/* ---- Paths ---- */

/* The bytes of a path. They are there as long as `holder` is, a `str` or `bytes`, to which this is a reference. */
struct path {
    PyObject *holder;
    const uint8_t *at;
    size_t length;
};

static int read_bytes(PyObject *bytes, struct path *path) {
    char *at;
    Py_ssize_t length;
    if (PyBytes_AsStringAndSize(bytes, &at, &length) < 0) return -1;
    *path = (struct path){Py_NewRef(bytes), (const uint8_t *)at, (size_t)length};
    return 0;
}

/* Encodes in UTF-8, as globs are encoded. What os.fsdecode made of bytes that are not UTF-8 becomes these bytes. */
static int read_text(PyObject *text, struct path *path) {
    Py_ssize_t length;
    const char *at = PyUnicode_AsUTF8AndSize(text, &length);
    if (at) {
        *path = (struct path){Py_NewRef(text), (const uint8_t *)at, (size_t)length};
        return 0;
    }
    if (!PyErr_ExceptionMatches(PyExc_UnicodeEncodeError)) return -1;
    PyErr_Clear();
    PyObject *bytes = PyUnicode_AsEncodedString(text, "utf-8", "surrogateescape");
    if (!bytes) return -1;
    int read = read_bytes(bytes, path);
    Py_DECREF(bytes);
    return read;
}

/* Reads a path. If it is neither `str` nor `bytes`, its `__fspath__` is called. */
static int read_path(PyObject *object, struct path *path) {
    if (PyUnicode_Check(object)) return read_text(object, path);
    if (PyBytes_Check(object)) return read_bytes(object, path);
    PyObject *plain = PyOS_FSPath(object);
    if (!plain) return -1;
    int read = PyUnicode_Check(plain) ? read_text(plain, path) : read_bytes(plain, path);
    Py_DECREF(plain);
    return read;
}

/* ---- Pools ---- */

/* Searchers of one set that no call uses. There is room for all that were made, so putting one back cannot fail. */
struct pool {
    globset_owned *unused;
    size_t count;
    size_t made;
};

/* Takes a searcher of the set. */
static int take(struct pool *pool, const globset_owned *set, globset_owned *out) {
    if (pool->count > 0) {
        *out = pool->unused[--pool->count];
        return 0;
    }
    globset_owned *unused = realloc(pool->unused, (pool->made + 1) * sizeof *unused);
    if (!unused) {
        PyErr_NoMemory();
        return -1;
    }
    pool->unused = unused;
    globset_lent lent = {set->at};
    globset_status status = globset_raw_searcher_new(&lent, out);
    if (status != GLOBSET_DONE) {
        raise_status(status);
        return -1;
    }
    pool->made++;
    return 0;
}

static void put_back(struct pool *pool, globset_owned searcher) { pool->unused[pool->count++] = searcher; }

static void free_pool(struct pool *pool) {
    while (pool->count > 0) globset_raw_free(pool->unused[--pool->count]);
    free(pool->unused);
}

/* ---- Many paths ---- */

/* Paths that are asked about at once, with the answers: `yes`, or the indexes, of which those of a path end at its `ends`. */
struct block {
    size_t count;
    PyObject *objects[BLOCK];
    struct path paths[BLOCK];
    uint8_t yes[BLOCK];
    size_t ends[BLOCK];
    size_t *indexes;
    size_t room;
};

/* Takes paths out of an iterator until it ends or the block is full. */
static int fill(struct block *block, PyObject *iterator) {
    while (block->count < BLOCK) {
        PyObject *object = PyIter_Next(iterator);
        if (!object) return PyErr_Occurred() ? -1 : 0;
        if (read_path(object, &block->paths[block->count]) < 0) {
            Py_DECREF(object);
            return -1;
        }
        block->objects[block->count++] = object;
    }
    return 0;
}

static void clear(struct block *block) {
    while (block->count > 0) {
        block->count--;
        Py_DECREF(block->paths[block->count].holder);
        Py_DECREF(block->objects[block->count]);
    }
}

/* Asks about the paths of a block, and adds what is wanted to a list. */
typedef int ask_block(PyObject *self, struct block *block);
typedef int add_block(PyObject *list, struct block *block);

static int add_answers(PyObject *list, struct block *block) {
    for (size_t i = 0; i < block->count; i++) {
        if (PyList_Append(list, block->yes[i] ? Py_True : Py_False) < 0) return -1;
    }
    return 0;
}

static int add_matching(PyObject *list, struct block *block) {
    for (size_t i = 0; i < block->count; i++) {
        if (block->yes[i] && PyList_Append(list, block->objects[i]) < 0) return -1;
    }
    return 0;
}

static PyObject *list_of(const size_t *indexes, size_t count) {
    PyObject *list = PyList_New((Py_ssize_t)count);
    for (size_t i = 0; list && i < count; i++) {
        PyObject *index = PyLong_FromSize_t(indexes[i]);
        if (!index || PyList_SetItem(list, (Py_ssize_t)i, index) < 0) Py_CLEAR(list);
    }
    return list;
}

static int add_indexes(PyObject *list, struct block *block) {
    size_t first = 0;
    for (size_t i = 0; i < block->count; i++) {
        PyObject *found = list_of(block->indexes + first, block->ends[i] - first);
        int added = found ? PyList_Append(list, found) : -1;
        Py_XDECREF(found);
        if (added < 0) return -1;
        first = block->ends[i];
    }
    return 0;
}

/* Asks about all paths of an iterator, a block at a time. */
static int ask_all(PyObject *self, PyObject *iterator, struct block *block, ask_block *ask, PyObject *list, add_block *add) {
    int is_full = 1, done = 0;
    while (is_full && done == 0) {
        if (fill(block, iterator) < 0 || (block->count > 0 && ask(self, block) < 0) || add(list, block) < 0) done = -1;
        is_full = block->count == BLOCK;
        clear(block);
        if (is_full && done == 0) done = PyErr_CheckSignals();
    }
    return done;
}

/* Paths are an iterable of them, which a single path is not. */
static int refuse_one(PyObject *paths) {
    if (!PyUnicode_Check(paths) && !PyBytes_Check(paths)) return 0;
    PyErr_Format(PyExc_TypeError, "paths are an iterable of them, not one %s", PyUnicode_Check(paths) ? "str" : "bytes");
    return -1;
}

static PyObject *ask_many(PyObject *self, PyObject *paths, ask_block *ask, add_block *add) {
    if (refuse_one(paths) < 0) return NULL;
    PyObject *iterator = PyObject_GetIter(paths);
    if (!iterator) return NULL;
    PyObject *list = PyList_New(0);
    struct block *block = list ? malloc(sizeof *block) : NULL;
    if (list && !block) {
        PyErr_NoMemory();
        Py_CLEAR(list);
    }
    if (block) {
        block->count = block->room = 0;
        block->indexes = NULL;
        if (ask_all(self, iterator, block, ask, list, add) < 0) Py_CLEAR(list);
        free(block->indexes);
        free(block);
    }
    Py_DECREF(iterator);
    return list;
}

/* ---- Texts ---- */

/* What a text is written of. */
struct source {
    const uint8_t *text;
    size_t length;
    const globset_error *error;
    globset_lent glob;
};

typedef globset_status write_text(struct source *source, uint8_t *room, size_t size, size_t *needed);

static globset_status write_error(struct source *source, uint8_t *room, size_t size, size_t *needed) {
    return globset_raw_error_text(source->error, source->text, source->length, room, size, needed);
}

static globset_status write_regex(struct source *source, uint8_t *room, size_t size, size_t *needed) {
    return globset_raw_glob_regex(&source->glob, room, size, needed);
}

static globset_status write_escaped(struct source *source, uint8_t *room, size_t size, size_t *needed) {
    return globset_raw_escape(source->text, source->length, room, size, needed);
}

static PyObject *text_of(write_text *write, struct source *source) {
    size_t needed = 256;
    for (;;) {
        size_t size = needed > 0 ? needed : 1;
        uint8_t *room = malloc(size);
        if (!room) return PyErr_NoMemory();
        globset_status status = write(source, room, size, &needed);
        PyObject *text = NULL;
        if (status == GLOBSET_DONE) text = PyUnicode_FromStringAndSize((const char *)room, (Py_ssize_t)needed);
        free(room);
        if (status == GLOBSET_DONE) return text;
        if (status != GLOBSET_TOO_SMALL) return raise_status(status);
    }
}

/* Raises the GlobError of a text. */
static void raise_rejected(PyObject *pattern, struct source *source) {
    const globset_error *error = source->error;
    PyObject *errors = PyImport_ImportModule("globset._errors");
    PyObject *message = errors ? text_of(write_error, source) : NULL;
    PyObject *raised = NULL;
    if (message) {
        raised = PyObject_CallMethod(errors, "glob_error", "OOIIIn", message, pattern, error->kind, error->start, error->end,
                                     (Py_ssize_t)error->offset);
    }
    if (raised) PyErr_SetObject((PyObject *)Py_TYPE(raised), raised);
    Py_XDECREF(raised);
    Py_XDECREF(message);
    Py_XDECREF(errors);
}

/* ---- Globs ---- */

/* A glob, and its matcher, which is made when it is first asked for. */
struct glob {
    PyObject_HEAD
    globset_owned glob;
    globset_owned matcher;
};

static PyObject *new_object(PyTypeObject *type) {
    allocfunc allocate = (allocfunc)PyType_GetSlot(type, Py_tp_alloc);
    return allocate(type, 0);
}

/* Ends an object whose members are freed. */
static void end_object(PyObject *self) {
    PyTypeObject *type = Py_TYPE(self);
    freefunc release = (freefunc)PyType_GetSlot(type, Py_tp_free);
    release(self);
    Py_DECREF(type);
}

static PyObject *glob_new(PyTypeObject *type, PyObject *arguments, PyObject *keywords) {
    static char *names[] = {"", "", NULL};
    PyObject *pattern;
    unsigned int options;
    if (!PyArg_ParseTupleAndKeywords(arguments, keywords, "UI:GlobBase", names, &pattern, &options)) return NULL;
    Py_ssize_t length;
    const char *text = PyUnicode_AsUTF8AndSize(pattern, &length);
    if (!text) return NULL;
    globset_error error;
    struct source source = {(const uint8_t *)text, (size_t)length, &error, {NULL}};
    globset_owned glob;
    globset_status status = globset_raw_glob_new(source.text, source.length, options, &error, &glob);
    if (status == GLOBSET_REJECTED) {
        raise_rejected(pattern, &source);
        return NULL;
    }
    if (status != GLOBSET_DONE) return raise_status(status);
    /* The object is made last: a finalizer of a class that is derived from this one, or another thread, may find it. */
    struct glob *self = (struct glob *)new_object(type);
    if (self) {
        self->glob = glob;
    } else {
        globset_raw_free(glob);
    }
    return (PyObject *)self;
}

static void glob_dealloc(PyObject *object) {
    struct glob *self = (struct glob *)object;
    if (self->matcher.at) globset_raw_free(self->matcher);
    if (self->glob.at) globset_raw_free(self->glob);
    end_object(object);
}

/* Makes the matcher if there is none. */
static int make_matcher(struct glob *self) {
    if (self->matcher.at) return 0;
    globset_lent lent = {self->glob.at};
    globset_owned matcher;
    globset_status status = globset_raw_matcher_new(&lent, &matcher);
    if (status != GLOBSET_DONE) {
        raise_status(status);
        return -1;
    }
    self->matcher = matcher;
    return 0;
}

static PyObject *glob_match(PyObject *object, PyObject *asked) {
    struct glob *self = (struct glob *)object;
    struct path path;
    if (read_path(asked, &path) < 0) return NULL;
    PyObject *result = NULL;
    if (make_matcher(self) == 0) {
        globset_lent matcher = {self->matcher.at};
        result = answer(globset_raw_matcher_is_match_plain(&matcher, path.at, path.length));
    }
    Py_DECREF(path.holder);
    return result;
}

/* Releases the lock. The caller has a reference to the glob, whose matcher does not change once it is there. */
static int glob_ask(PyObject *object, struct block *block) {
    struct glob *self = (struct glob *)object;
    if (make_matcher(self) < 0) return -1;
    globset_lent matcher = {self->matcher.at};
    globset_status status = GLOBSET_NO;
    Py_BEGIN_ALLOW_THREADS
    for (size_t i = 0; i < block->count && (status == GLOBSET_NO || status == GLOBSET_YES); i++) {
        status = globset_raw_matcher_is_match_plain(&matcher, block->paths[i].at, block->paths[i].length);
        block->yes[i] = status == GLOBSET_YES;
    }
    Py_END_ALLOW_THREADS
    if (status == GLOBSET_NO || status == GLOBSET_YES) return 0;
    raise_status(status);
    return -1;
}

static PyObject *glob_match_many(PyObject *self, PyObject *paths) { return ask_many(self, paths, glob_ask, add_answers); }

static PyObject *glob_filter(PyObject *self, PyObject *paths) { return ask_many(self, paths, glob_ask, add_matching); }

static PyObject *glob_regex(PyObject *object, void *unused) {
    (void)unused;
    struct source source = {NULL, 0, NULL, {((struct glob *)object)->glob.at}};
    return text_of(write_regex, &source);
}

/* ---- Sets ---- */

struct set {
    PyObject_HEAD
    globset_owned set;
    struct pool searchers;
};

static struct PyModuleDef definition;

/* The class GlobBase of the module, which has this class or one of those that it is derived from. A class that another module
 * in C derives from GlobSetBase has that module. */
static PyTypeObject *glob_type_of(PyTypeObject *type) {
    PyObject *module = NULL;
    while (type && !module) {
        module = PyType_GetModule(type);
        type = (PyTypeObject *)PyType_GetSlot(type, Py_tp_base);
        if (!module && type) PyErr_Clear();
        if (module && PyModule_GetDef(module) != &definition) module = NULL;
    }
    PyTypeObject **glob_type = module ? PyModule_GetState(module) : NULL;
    if (glob_type && *glob_type) return *glob_type;
    if (!PyErr_Occurred()) PyErr_SetString(PyExc_RuntimeError, "the module globset has ended");
    return NULL;
}

/* Globs that are lent to one call. The caller of the call has a reference to each. */
struct lents {
    globset_lent *at;
    size_t count;
};

/* Makes handles of a tuple of globs. There is room for one more, since no array may be null. */
static int lend_globs(PyTypeObject *glob_type, PyObject *globs, struct lents *lents) {
    lents->count = (size_t)PyTuple_Size(globs);
    lents->at = malloc((lents->count + 1) * sizeof *lents->at);
    if (!lents->at) {
        PyErr_NoMemory();
        return -1;
    }
    for (size_t i = 0; i < lents->count; i++) {
        PyObject *glob = PyTuple_GetItem(globs, (Py_ssize_t)i);
        if (!glob || !PyObject_TypeCheck(glob, glob_type)) {
            if (glob) PyErr_SetString(PyExc_TypeError, "globs are a tuple of Glob");
            free(lents->at);
            return -1;
        }
        lents->at[i].at = ((struct glob *)glob)->glob.at;
    }
    return 0;
}

/* Makes the library's set of lent globs. */
static globset_status build(const struct lents *lents, Py_ssize_t limit, globset_owned *out) {
    if (limit < 0) return globset_raw_set_of_globs(lents->at, lents->count, out);
    globset_owned builder;
    globset_status status = globset_raw_builder_new(&builder);
    if (status != GLOBSET_DONE) return status;
    status = globset_raw_builder_set_dfa_size_limit(&builder, (size_t)limit);
    for (size_t i = 0; i < lents->count && status == GLOBSET_DONE; i++) {
        status = globset_raw_builder_add(&builder, &lents->at[i]);
    }
    if (status == GLOBSET_DONE) status = globset_raw_builder_build(&builder, out);
    globset_raw_free(builder);
    return status;
}

/* Releases the lock while the set is made. The tuple has references to the globs. */
static PyObject *set_new(PyTypeObject *type, PyObject *arguments, PyObject *keywords) {
    static char *names[] = {"", "", NULL};
    PyObject *globs;
    Py_ssize_t limit;
    if (!PyArg_ParseTupleAndKeywords(arguments, keywords, "O!n:GlobSetBase", names, &PyTuple_Type, &globs, &limit)) return NULL;
    PyTypeObject *glob_type = glob_type_of(type);
    struct lents lents;
    if (!glob_type || lend_globs(glob_type, globs, &lents) < 0) return NULL;
    globset_owned built;
    globset_status status;
    Py_BEGIN_ALLOW_THREADS
    status = build(&lents, limit, &built);
    Py_END_ALLOW_THREADS
    free(lents.at);
    if (status != GLOBSET_DONE) return raise_status(status);
    /* It is made last, as a glob is. */
    struct set *self = (struct set *)new_object(type);
    if (self) {
        self->set = built;
    } else {
        globset_raw_free(built);
    }
    return (PyObject *)self;
}

static void set_dealloc(PyObject *object) {
    struct set *self = (struct set *)object;
    free_pool(&self->searchers);
    if (self->set.at) globset_raw_free(self->set);
    end_object(object);
}

typedef globset_status ask_searcher(globset_owned *searcher, const uint8_t *path, size_t length);

static PyObject *set_ask(PyObject *object, PyObject *asked, ask_searcher *ask) {
    struct set *self = (struct set *)object;
    struct path path;
    globset_owned searcher;
    if (read_path(asked, &path) < 0) return NULL;
    PyObject *result = NULL;
    if (take(&self->searchers, &self->set, &searcher) == 0) {
        globset_status status = ask(&searcher, path.at, path.length);
        put_back(&self->searchers, searcher);
        result = answer(status);
    }
    Py_DECREF(path.holder);
    return result;
}

static PyObject *set_match(PyObject *self, PyObject *path) { return set_ask(self, path, globset_raw_searcher_is_match); }

static PyObject *set_matches_all(PyObject *self, PyObject *path) {
    return set_ask(self, path, globset_raw_searcher_matches_all);
}

static PyObject *set_can_match_below(PyObject *self, PyObject *folder) {
    return set_ask(self, folder, globset_raw_searcher_can_match_below);
}

/* Finds the indexes for a path, which the searcher lends until its next call. */
static globset_status find(globset_owned *searcher, const struct path *path, globset_indexes *found) {
    static const size_t none[1] = {0};
    size_t count = 0;
    *found = (globset_indexes){none, 0};
    globset_status status = globset_raw_searcher_find(searcher, path->at, path->length, &count);
    return status == GLOBSET_DONE && count > 0 ? globset_raw_searcher_found(searcher, found) : status;
}

static PyObject *set_matches(PyObject *object, PyObject *asked) {
    struct set *self = (struct set *)object;
    struct path path;
    globset_owned searcher;
    if (read_path(asked, &path) < 0) return NULL;
    PyObject *result = NULL;
    if (take(&self->searchers, &self->set, &searcher) == 0) {
        globset_indexes found;
        globset_status status = find(&searcher, &path, &found);
        result = status == GLOBSET_DONE ? list_of(found.at, found.count) : raise_status(status);
        put_back(&self->searchers, searcher);
    }
    Py_DECREF(path.holder);
    return result;
}

/* Releases the lock. The caller has a reference to the set, and the searcher is in no other call. */
static int set_ask_block(PyObject *object, struct block *block) {
    struct set *self = (struct set *)object;
    globset_owned searcher;
    if (take(&self->searchers, &self->set, &searcher) < 0) return -1;
    globset_status status = GLOBSET_NO;
    Py_BEGIN_ALLOW_THREADS
    for (size_t i = 0; i < block->count && (status == GLOBSET_NO || status == GLOBSET_YES); i++) {
        status = globset_raw_searcher_is_match(&searcher, block->paths[i].at, block->paths[i].length);
        block->yes[i] = status == GLOBSET_YES;
    }
    Py_END_ALLOW_THREADS
    put_back(&self->searchers, searcher);
    if (status == GLOBSET_NO || status == GLOBSET_YES) return 0;
    raise_status(status);
    return -1;
}

/* Copies the indexes for path number `number` behind those of the paths before it. */
static globset_status copy_indexes(struct block *block, size_t number, const globset_indexes *found) {
    size_t first = number > 0 ? block->ends[number - 1] : 0;
    if (found->count > block->room - first) {
        size_t room = 2 * block->room + found->count + 64;
        size_t *indexes = realloc(block->indexes, room * sizeof *indexes);
        if (!indexes) return GLOBSET_OUT_OF_MEMORY;
        block->indexes = indexes;
        block->room = room;
    }
    if (found->count > 0) memcpy(block->indexes + first, found->at, found->count * sizeof *found->at);
    block->ends[number] = first + found->count;
    return GLOBSET_DONE;
}

/* Releases the lock, as set_ask_block does. */
static int set_find_block(PyObject *object, struct block *block) {
    struct set *self = (struct set *)object;
    globset_owned searcher;
    if (take(&self->searchers, &self->set, &searcher) < 0) return -1;
    globset_status status = GLOBSET_DONE;
    Py_BEGIN_ALLOW_THREADS
    for (size_t i = 0; i < block->count && status == GLOBSET_DONE; i++) {
        globset_indexes found;
        status = find(&searcher, &block->paths[i], &found);
        if (status == GLOBSET_DONE) status = copy_indexes(block, i, &found);
    }
    Py_END_ALLOW_THREADS
    put_back(&self->searchers, searcher);
    if (status == GLOBSET_DONE) return 0;
    raise_status(status);
    return -1;
}

static PyObject *set_match_many(PyObject *self, PyObject *paths) { return ask_many(self, paths, set_ask_block, add_answers); }

static PyObject *set_matches_many(PyObject *self, PyObject *paths) {
    return ask_many(self, paths, set_find_block, add_indexes);
}

static PyObject *set_filter(PyObject *self, PyObject *paths) { return ask_many(self, paths, set_ask_block, add_matching); }

#include "_relations.h"

#include "_ignore.h"

/* ---- The module ---- */

static PyObject *escape(PyObject *module, PyObject *text) {
    (void)module;
    if (!PyUnicode_Check(text)) {
        PyErr_SetString(PyExc_TypeError, "a text is str");
        return NULL;
    }
    Py_ssize_t length;
    const char *at = PyUnicode_AsUTF8AndSize(text, &length);
    if (!at) return NULL;
    struct source source = {(const uint8_t *)at, (size_t)length, NULL, {NULL}};
    return text_of(write_escaped, &source);
}

static PyObject *version(PyObject *module, PyObject *unused) {
    (void)module;
    (void)unused;
    return PyLong_FromUnsignedLong(globset_version());
}

#include "_extension_docs.h"

static PyMethodDef glob_methods[] = {
    {"match", glob_match, METH_O, GLOB_MATCH},
    {"match_many", glob_match_many, METH_O, GLOB_MATCH_MANY},
    {"filter", glob_filter, METH_O, GLOB_FILTER},
    {NULL, NULL, 0, NULL},
};

static PyGetSetDef glob_properties[] = {
    {"regex", glob_regex, NULL, GLOB_REGEX, NULL},
    {NULL, NULL, NULL, NULL, NULL},
};

static PyMethodDef set_methods[] = {
    {"match", set_match, METH_O, SET_MATCH},
    {"matches", set_matches, METH_O, SET_MATCHES},
    {"matches_all", set_matches_all, METH_O, SET_MATCHES_ALL},
    {"match_many", set_match_many, METH_O, SET_MATCH_MANY},
    {"matches_many", set_matches_many, METH_O, SET_MATCHES_MANY},
    {"filter", set_filter, METH_O, SET_FILTER},
    {"can_match_below", set_can_match_below, METH_O, SET_CAN_MATCH_BELOW},
    {NULL, NULL, 0, NULL},
};

static PyMethodDef ignore_methods[] = {
    {"add_file", ignore_add_file, METH_O, IGNORE_ADD_FILE},
    {"enter", ignore_enter, METH_O, IGNORE_ENTER},
    {"leave", ignore_leave, METH_NOARGS, IGNORE_LEAVE},
    {"decide", ignore_decide, METH_VARARGS, IGNORE_DECIDE},
    {"decide_many", ignore_decide_many, METH_VARARGS, IGNORE_DECIDE_MANY},
    {"rules_many", ignore_rules_many, METH_VARARGS, IGNORE_RULES_MANY},
    {"filter", ignore_filter, METH_VARARGS, IGNORE_FILTER},
    {"unread_lines", ignore_unread_lines, METH_O, IGNORE_UNREAD_LINES},
    {"line_text", ignore_line_text, METH_VARARGS, IGNORE_LINE_TEXT},
    {"unreachable", ignore_unreachable, METH_VARARGS, IGNORE_UNREACHABLE},
    {NULL, NULL, 0, NULL},
};

static PyMethodDef functions[] = {
    {"covering", covering, METH_VARARGS, COVERING},
    {"overlap", overlap, METH_VARARGS, OVERLAP},
    {"unreachable", unreachable, METH_VARARGS, UNREACHABLE},
    {"escape", escape, METH_O, ESCAPE},
    {"version", version, METH_NOARGS, VERSION},
    {NULL, NULL, 0, NULL},
};

static PyType_Slot glob_slots[] = {
    {Py_tp_doc, GLOB},
    {Py_tp_new, glob_new},
    {Py_tp_dealloc, glob_dealloc},
    {Py_tp_methods, glob_methods},
    {Py_tp_getset, glob_properties},
    {0, NULL},
};

static PyType_Slot set_slots[] = {
    {Py_tp_doc, SET}, {Py_tp_new, set_new}, {Py_tp_dealloc, set_dealloc}, {Py_tp_methods, set_methods}, {0, NULL},
};

static PyType_Slot ignore_slots[] = {
    {Py_tp_doc, IGNORE},
    {Py_tp_new, ignore_new},
    {Py_tp_dealloc, ignore_dealloc},
    {Py_tp_methods, ignore_methods},
    {0, NULL},
};

static PyType_Spec glob_spec = {
    .name = "globset._extension.GlobBase",
    .basicsize = sizeof(struct glob),
    .flags = Py_TPFLAGS_DEFAULT | Py_TPFLAGS_BASETYPE,
    .slots = glob_slots,
};

static PyType_Spec set_spec = {
    .name = "globset._extension.GlobSetBase",
    .basicsize = sizeof(struct set),
    .flags = Py_TPFLAGS_DEFAULT | Py_TPFLAGS_BASETYPE,
    .slots = set_slots,
};

static PyType_Spec ignore_spec = {
    .name = "globset._extension.IgnoreFiles",
    .basicsize = sizeof(struct ignore_files),
    .flags = Py_TPFLAGS_DEFAULT,
    .slots = ignore_slots,
};

static int add_type(PyObject *module, PyType_Spec *spec) {
    PyObject *type = PyType_FromModuleAndSpec(module, spec, NULL);
    int added = type ? PyModule_AddType(module, (PyTypeObject *)type) : -1;
    Py_XDECREF(type);
    return added;
}

/* The state of a module is its class GlobBase. */
static int execute(PyObject *module) {
    PyTypeObject **glob_type = PyModule_GetState(module);
    *glob_type = (PyTypeObject *)PyType_FromModuleAndSpec(module, &glob_spec, NULL);
    if (!*glob_type || PyModule_AddType(module, *glob_type) < 0) return -1;
    return add_type(module, &set_spec) < 0 ? -1 : add_type(module, &ignore_spec);
}

static int traverse(PyObject *module, visitproc visit, void *arg) {
    PyTypeObject **glob_type = PyModule_GetState(module);
    if (glob_type) Py_VISIT(*glob_type);
    return 0;
}

static int clear_module(PyObject *module) {
    PyTypeObject **glob_type = PyModule_GetState(module);
    if (glob_type) Py_CLEAR(*glob_type);
    return 0;
}

static void free_module(void *module) { clear_module((PyObject *)module); }

/* The second place is for MULTIPLE_INTERPRETERS. */
static PyModuleDef_Slot module_slots[] = {{Py_mod_exec, execute}, {0, NULL}, {0, NULL}};

static struct PyModuleDef definition = {
    .m_base = PyModuleDef_HEAD_INIT,
    .m_name = "globset._extension",
    .m_doc = MODULE,
    .m_size = sizeof(PyTypeObject *),
    .m_methods = functions,
    .m_slots = module_slots,
    .m_traverse = traverse,
    .m_clear = clear_module,
    .m_free = free_module,
};

/* Py_mod_multiple_interpreters and Py_MOD_PER_INTERPRETER_GIL_SUPPORTED of Python 3.12, which earlier ones refuse: interpreters
 * with a lock of their own may import the module. They share no object, and nothing here but constants. */
enum { MULTIPLE_INTERPRETERS = 3, EACH_WITH_ITS_LOCK = 2, SINCE = 0x030C0000 };

PyMODINIT_FUNC PyInit__extension(void) {
    PyObject *version = PySys_GetObject("hexversion");
    unsigned long number = version ? PyLong_AsUnsignedLong(version) : 0;
    if (PyErr_Occurred()) return NULL;
    if (number >= SINCE) module_slots[1] = (PyModuleDef_Slot){MULTIPLE_INTERPRETERS, (void *)EACH_WITH_ITS_LOCK};
    return PyModuleDef_Init(&definition);
}
