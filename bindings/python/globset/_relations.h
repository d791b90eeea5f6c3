/* Questions about all paths: a part of _extension.c, which includes it once. */

/* The class GlobBase of a module. */
static PyTypeObject *glob_type_in(PyObject *module) {
    PyTypeObject **glob_type = PyModule_GetState(module);
    if (glob_type && *glob_type) return *glob_type;
    PyErr_SetString(PyExc_RuntimeError, "the module globset has ended");
    return NULL;
}

/* What the answer of an index tells: a path, the indexes of globs or rules, None where the limit was reached, or the index of a
 * rule that ignores a directory. */
static PyObject *told(globset_owned *answers, size_t index) {
    static const size_t none[1] = {0};
    globset_bytes path = {(const uint8_t *)none, 0};
    globset_indexes indexes = {none, 0};
    globset_status status = globset_raw_answers_at(answers, index, &path, &indexes);
    if (status == GLOBSET_LIMIT_REACHED) return Py_NewRef(Py_None);
    if (status == GLOBSET_YES) return PyBytes_FromStringAndSize((const char *)path.at, (Py_ssize_t)path.count);
    if (status == GLOBSET_BELOW_IGNORED) return PyLong_FromSize_t(indexes.at[0]);
    if (status != GLOBSET_NO) return raise_status(status);
    PyObject *list = list_of(indexes.at, indexes.count);
    PyObject *tuple = list ? PyList_AsTuple(list) : NULL;
    Py_XDECREF(list);
    return tuple;
}

/* What each of so many answers tells. */
static PyObject *told_each(globset_owned *answers, size_t count) {
    PyObject *list = PyList_New((Py_ssize_t)count);
    for (size_t i = 0; list && i < count; i++) {
        PyObject *answer = told(answers, i);
        if (!answer || PyList_SetItem(list, (Py_ssize_t)i, answer) < 0) Py_CLEAR(list);
    }
    return list;
}

/* Ends a call that made one answer. */
static PyObject *told_once(globset_status status, globset_owned *answers) {
    if (status != GLOBSET_DONE) return raise_status(status);
    PyObject *result = told(answers, 0);
    globset_raw_free(*answers);
    return result;
}

/* Releases the lock while it searches, as all questions here do. The arguments have references to the globs. */
static PyObject *covering(PyObject *module, PyObject *arguments) {
    PyTypeObject *glob_type = glob_type_in(module);
    PyObject *glob, *by;
    unsigned int domain;
    Py_ssize_t limit;
    if (!glob_type) return NULL;
    if (!PyArg_ParseTuple(arguments, "O!O!In:covering", glob_type, &glob, &PyTuple_Type, &by, &domain, &limit)) return NULL;
    struct lents lents;
    if (lend_globs(glob_type, by, &lents) < 0) return NULL;
    globset_lent lent = {((struct glob *)glob)->glob.at};
    globset_owned answers;
    globset_status status;
    Py_BEGIN_ALLOW_THREADS
    status = globset_raw_covering(&lent, lents.at, lents.count, domain, (size_t)limit, &answers);
    Py_END_ALLOW_THREADS
    free(lents.at);
    return told_once(status, &answers);
}

static PyObject *overlap(PyObject *module, PyObject *arguments) {
    PyTypeObject *glob_type = glob_type_in(module);
    PyObject *a, *b;
    unsigned int domain;
    Py_ssize_t limit;
    if (!glob_type) return NULL;
    if (!PyArg_ParseTuple(arguments, "O!O!In:overlap", glob_type, &a, glob_type, &b, &domain, &limit)) return NULL;
    globset_lent lent_a = {((struct glob *)a)->glob.at}, lent_b = {((struct glob *)b)->glob.at};
    globset_owned answers;
    globset_status status;
    Py_BEGIN_ALLOW_THREADS
    status = globset_raw_overlap(&lent_a, &lent_b, domain, (size_t)limit, &answers);
    Py_END_ALLOW_THREADS
    return told_once(status, &answers);
}

static PyObject *unreachable(PyObject *module, PyObject *arguments) {
    PyObject *globs;
    unsigned int decides, domain;
    Py_ssize_t limit;
    if (!PyArg_ParseTuple(arguments, "O!IIn:unreachable", &PyTuple_Type, &globs, &decides, &domain, &limit)) return NULL;
    PyTypeObject *glob_type = glob_type_in(module);
    struct lents lents;
    if (!glob_type || lend_globs(glob_type, globs, &lents) < 0) return NULL;
    globset_owned answers;
    globset_status status;
    Py_BEGIN_ALLOW_THREADS
    status = globset_raw_unreachable(lents.at, lents.count, decides, domain, (size_t)limit, &answers);
    Py_END_ALLOW_THREADS
    free(lents.at);
    if (status != GLOBSET_DONE) return raise_status(status);
    PyObject *list = told_each(&answers, lents.count);
    globset_raw_free(answers);
    return list;
}
