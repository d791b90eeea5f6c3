/* The ignore files of a walk: a part of _extension.c, which includes it once. */

struct ignore_files {
    PyObject_HEAD
    globset_owned ignore;
    /* Who makes a call of the library has it. Meanwhile it runs no code of Python and does not wait for the interpreter's lock. */
    PyThread_type_lock turn;
};

static PyObject *ignore_new(PyTypeObject *type, PyObject *arguments, PyObject *keywords) {
    static char *names[] = {"", "", NULL};
    unsigned int options;
    Py_ssize_t limit;
    if (!PyArg_ParseTupleAndKeywords(arguments, keywords, "In:IgnoreFiles", names, &options, &limit)) return NULL;
    struct ignore_files *self = (struct ignore_files *)new_object(type);
    if (!self) return NULL;
    globset_owned ignore;
    self->turn = PyThread_allocate_lock();
    globset_status status = self->turn ? globset_raw_ignore_new(options, &ignore) : GLOBSET_OUT_OF_MEMORY;
    if (status == GLOBSET_DONE && limit >= 0) (void)globset_raw_ignore_set_dfa_size_limit(&ignore, (size_t)limit);
    if (status == GLOBSET_DONE) {
        self->ignore = ignore;
        return (PyObject *)self;
    }
    raise_status(status);
    Py_DECREF(self);
    return NULL;
}

static void ignore_dealloc(PyObject *object) {
    struct ignore_files *self = (struct ignore_files *)object;
    if (self->ignore.at) globset_raw_free(self->ignore);
    if (self->turn) PyThread_free_lock(self->turn);
    end_object(object);
}

/* Begins a turn for a call that takes long, and releases the interpreter's lock. */
static PyThreadState *begin_long_turn(struct ignore_files *self) {
    PyThreadState *released = PyEval_SaveThread();
    PyThread_acquire_lock(self->turn, WAIT_LOCK);
    return released;
}

/* Begins a turn for a short call, and releases the interpreter's lock if another thread has its turn. */
static PyThreadState *begin_turn(struct ignore_files *self) {
    return PyThread_acquire_lock(self->turn, NOWAIT_LOCK) ? NULL : begin_long_turn(self);
}

/* Ends a turn, and only then takes the interpreter's lock if it was released: at the interpreter's end a thread may never get it,
 * and the others would wait for the turn. */
static void end_turn(struct ignore_files *self, PyThreadState *released) {
    PyThread_release_lock(self->turn);
    if (released) PyEval_RestoreThread(released);
}

static PyObject *none_if_done(globset_status status) {
    return status == GLOBSET_DONE ? Py_NewRef(Py_None) : raise_status(status);
}

/* Releases the interpreter's lock while the file is read. The caller has a reference to it. */
static PyObject *ignore_add_file(PyObject *object, PyObject *file) {
    struct ignore_files *self = (struct ignore_files *)object;
    char *at;
    Py_ssize_t length;
    if (PyBytes_AsStringAndSize(file, &at, &length) < 0) return NULL;
    PyThreadState *released = begin_long_turn(self);
    globset_status status = globset_raw_ignore_add_file(&self->ignore, (const uint8_t *)at, (size_t)length);
    end_turn(self, released);
    return none_if_done(status);
}

/* Reads a path without a `/` at its end, which says that it is that of a directory. */
static int read_entry(PyObject *asked, int *is_directory, struct path *path) {
    if (read_path(asked, path) < 0) return -1;
    if (path->length == 0 || path->at[path->length - 1] != '/') return 0;
    if (*is_directory == 0) {
        Py_DECREF(path->holder);
        PyErr_SetString(PyExc_ValueError, "a path that ends with / is that of a directory");
        return -1;
    }
    path->length--;
    *is_directory = 1;
    return 0;
}

static PyObject *ignore_enter(PyObject *object, PyObject *name) {
    struct ignore_files *self = (struct ignore_files *)object;
    int is_directory = 1;
    struct path path;
    if (read_entry(name, &is_directory, &path) < 0) return NULL;
    PyThreadState *released = begin_turn(self);
    globset_status status = globset_raw_ignore_enter(&self->ignore, path.at, path.length);
    end_turn(self, released);
    Py_DECREF(path.holder);
    return none_if_done(status);
}

static PyObject *ignore_leave(PyObject *object, PyObject *unused) {
    struct ignore_files *self = (struct ignore_files *)object;
    (void)unused;
    PyThreadState *released = begin_turn(self);
    globset_status status = globset_raw_ignore_leave(&self->ignore);
    end_turn(self, released);
    return none_if_done(status);
}

/* A rule as Python sees it, which is None if the line is 0. */
static PyObject *rule_of(int is_ignored, size_t file, size_t line) {
    if (line == 0) return Py_NewRef(Py_None);
    return Py_BuildValue("Onn", is_ignored ? Py_True : Py_False, (Py_ssize_t)file, (Py_ssize_t)line);
}

static PyObject *ignore_decide(PyObject *object, PyObject *arguments) {
    struct ignore_files *self = (struct ignore_files *)object;
    PyObject *asked;
    int is_directory;
    unsigned int by;
    struct path path;
    if (!PyArg_ParseTuple(arguments, "OiI:decide", &asked, &is_directory, &by)) return NULL;
    if (read_entry(asked, &is_directory, &path) < 0) return NULL;
    size_t file = 0, line = 0;
    PyThreadState *released = begin_turn(self);
    globset_status status =
        globset_raw_ignore_decide(&self->ignore, path.at, path.length, is_directory == 1, by, &file, &line);
    end_turn(self, released);
    Py_DECREF(path.holder);
    if (status != GLOBSET_YES && status != GLOBSET_NO) return raise_status(status);
    return rule_of(status == GLOBSET_YES, file, line);
}

/* Paths that one call decides about, with their bytes one after another. No array is null. */
struct many {
    PyObject *list;
    size_t count;
    uint8_t *bytes;
    size_t length;
    size_t room;
    size_t *ends;
    /* What the library tells of each path: bytes or rules. */
    void *told;
};

static void free_many(struct many *many) {
    Py_XDECREF(many->list);
    free(many->bytes);
    free(many->ends);
    free(many->told);
}

/* Adds the bytes of path number `number`. */
static int add_path(struct many *many, size_t number, const struct path *path) {
    if (path->length > many->room - many->length) {
        size_t room = 2 * many->room + path->length;
        uint8_t *bytes = realloc(many->bytes, room);
        if (!bytes) {
            PyErr_NoMemory();
            return -1;
        }
        many->bytes = bytes;
        many->room = room;
    }
    memcpy(many->bytes + many->length, path->at, path->length);
    many->length += path->length;
    many->ends[number] = many->length;
    return 0;
}

/* Reads paths into a list of their own. Its items are looked up each time, since code of Python may find the list. What is
 * told of a path has this size. */
static int read_many(PyObject *paths, size_t size, struct many *many) {
    *many = (struct many){.list = refuse_one(paths) < 0 ? NULL : PySequence_List(paths), .room = BLOCK};
    if (!many->list) return -1;
    many->count = (size_t)PyList_Size(many->list);
    many->bytes = malloc(many->room);
    many->ends = malloc((many->count + 1) * sizeof *many->ends);
    many->told = malloc((many->count + 1) * size);
    if (!many->bytes || !many->ends || !many->told) {
        PyErr_NoMemory();
        return -1;
    }
    for (size_t i = 0; i < many->count; i++) {
        PyObject *object = PyList_GetItem(many->list, (Py_ssize_t)i);
        struct path path;
        if (!object) return -1;
        Py_INCREF(object);
        int read = read_path(object, &path);
        Py_DECREF(object);
        if (read < 0) return -1;
        int added = add_path(many, i, &path);
        Py_DECREF(path.holder);
        if (added < 0) return -1;
    }
    return 0;
}

/* Has the library decide about paths. */
typedef globset_status tell_many(struct ignore_files *self, struct many *many, unsigned int by);

static globset_status tell_decisions(struct ignore_files *self, struct many *many, unsigned int by) {
    return globset_raw_ignore_decide_many(&self->ignore, many->bytes, many->length, many->ends, many->count, by, many->told,
                                          many->count);
}

static globset_status tell_rules(struct ignore_files *self, struct many *many, unsigned int by) {
    return globset_raw_ignore_rules_many(&self->ignore, many->bytes, many->length, many->ends, many->count, by, many->told,
                                         many->count);
}

/* Makes the list that is wanted of paths and what is told of them. */
typedef PyObject *list_many(struct many *many);

static PyObject *decisions_of(struct many *many) {
    const uint8_t *answers = many->told;
    PyObject *of[] = {Py_None, Py_True, Py_False};
    PyObject *list = PyList_New((Py_ssize_t)many->count);
    for (size_t i = 0; list && i < many->count; i++) {
        if (PyList_SetItem(list, (Py_ssize_t)i, Py_NewRef(of[answers[i]])) < 0) Py_CLEAR(list);
    }
    return list;
}

static PyObject *not_ignored_of(struct many *many) {
    const uint8_t *answers = many->told;
    PyObject *list = PyList_New(0);
    for (size_t i = 0; list && i < many->count; i++) {
        if (answers[i] == 1) continue;
        PyObject *object = PyList_GetItem(many->list, (Py_ssize_t)i);
        if (!object || PyList_Append(list, object) < 0) Py_CLEAR(list);
    }
    return list;
}

static PyObject *rules_of(struct many *many) {
    const globset_told_rule *rules = many->told;
    PyObject *list = PyList_New((Py_ssize_t)many->count);
    for (size_t i = 0; list && i < many->count; i++) {
        PyObject *rule = rule_of(rules[i].decision == 1, rules[i].file, rules[i].line);
        if (!rule || PyList_SetItem(list, (Py_ssize_t)i, rule) < 0) Py_CLEAR(list);
    }
    return list;
}

/* A question about many paths: the form of its arguments, the size of what is told of a path, and what is done. */
struct question {
    const char *format;
    size_t size;
    tell_many *tell;
    list_many *list;
};

/* Releases the interpreter's lock while it decides. */
static PyObject *ask_ignore_many(PyObject *object, PyObject *arguments, const struct question *question) {
    struct ignore_files *self = (struct ignore_files *)object;
    PyObject *paths, *result = NULL;
    unsigned int by;
    struct many many;
    if (!PyArg_ParseTuple(arguments, question->format, &paths, &by)) return NULL;
    if (read_many(paths, question->size, &many) == 0) {
        PyThreadState *released = begin_long_turn(self);
        globset_status status = question->tell(self, &many, by);
        end_turn(self, released);
        result = status == GLOBSET_DONE ? question->list(&many) : raise_status(status);
    }
    free_many(&many);
    return result;
}

static PyObject *ignore_decide_many(PyObject *self, PyObject *arguments) {
    static const struct question question = {"OI:decide_many", sizeof(uint8_t), tell_decisions, decisions_of};
    return ask_ignore_many(self, arguments, &question);
}

static PyObject *ignore_rules_many(PyObject *self, PyObject *arguments) {
    static const struct question question = {"OI:rules_many", sizeof(globset_told_rule), tell_rules, rules_of};
    return ask_ignore_many(self, arguments, &question);
}

static PyObject *ignore_filter(PyObject *self, PyObject *arguments) {
    static const struct question question = {"OI:filter", sizeof(uint8_t), tell_decisions, not_ignored_of};
    return ask_ignore_many(self, arguments, &question);
}

/* The lines are lent until the turn ends, so they are copied before objects of Python are made of them. */
static PyObject *ignore_unread_lines(PyObject *object, PyObject *number) {
    static const size_t none[1] = {0};
    struct ignore_files *self = (struct ignore_files *)object;
    size_t file = PyLong_AsSize_t(number);
    if (PyErr_Occurred()) return NULL;
    globset_indexes lines = {none, 0};
    PyThreadState *released = begin_turn(self);
    globset_status status = globset_raw_ignore_unread_lines(&self->ignore, file, &lines);
    size_t *copied = malloc((lines.count + 1) * sizeof *copied);
    if (copied) memcpy(copied, lines.at, lines.count * sizeof *copied);
    end_turn(self, released);
    PyObject *list = NULL;
    if (status != GLOBSET_DONE) {
        raise_status(status);
    } else {
        list = copied ? list_of(copied, lines.count) : PyErr_NoMemory();
    }
    free(copied);
    return list;
}

/* The text is lent and copied as the lines are. */
static PyObject *ignore_line_text(PyObject *object, PyObject *arguments) {
    static const uint8_t none[1] = {0};
    struct ignore_files *self = (struct ignore_files *)object;
    Py_ssize_t file, line;
    if (!PyArg_ParseTuple(arguments, "nn:line_text", &file, &line)) return NULL;
    globset_bytes text = {none, 0};
    PyThreadState *released = begin_turn(self);
    globset_status status = globset_raw_ignore_line_text(&self->ignore, (size_t)file, (size_t)line, &text);
    char *copied = malloc(text.count + 1);
    if (copied) memcpy(copied, text.at, text.count);
    end_turn(self, released);
    PyObject *bytes = NULL;
    if (status != GLOBSET_DONE) {
        raise_status(status);
    } else {
        bytes = copied ? PyBytes_FromStringAndSize(copied, (Py_ssize_t)text.count) : PyErr_NoMemory();
    }
    free(copied);
    return bytes;
}

/* The lines of the rules that answers are about, and what each answer tells. */
static PyObject *told_of_rules(globset_owned *answers) {
    static const size_t none[1] = {0};
    globset_indexes lines = {none, 0};
    globset_status status = globset_raw_answers_lines(answers, &lines);
    if (status != GLOBSET_DONE) return raise_status(status);
    PyObject *list = list_of(lines.at, lines.count);
    PyObject *each = list ? told_each(answers, lines.count) : NULL;
    if (each) return Py_BuildValue("NN", list, each);
    Py_XDECREF(list);
    return NULL;
}

/* Releases the interpreter's lock while it searches. */
static PyObject *ignore_unreachable(PyObject *object, PyObject *arguments) {
    struct ignore_files *self = (struct ignore_files *)object;
    Py_ssize_t file, limit;
    unsigned int domain;
    if (!PyArg_ParseTuple(arguments, "nIn:unreachable", &file, &domain, &limit)) return NULL;
    globset_owned answers;
    PyThreadState *released = begin_long_turn(self);
    globset_status status = globset_raw_ignore_unreachable(&self->ignore, (size_t)file, domain, (size_t)limit, &answers);
    end_turn(self, released);
    if (status != GLOBSET_DONE) return raise_status(status);
    PyObject *told = told_of_rules(&answers);
    globset_raw_free(answers);
    return told;
}
