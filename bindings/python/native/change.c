/* Replacement and masks. */
#include "native.h"

#include <stdlib.h>
#include <string.h>

/* ---- Replacements ---- */

/* How many replacements need no memory of their own. */
enum { NEAR = 32 };

/* The bytes of the replacement of each pattern, and the objects that hold them. */
typedef struct {
    dado_bytes near[NEAR];
    dado_bytes *at;
    size_t count;
    PyObject *texts, *others;     /* the replacements; bytes that were made of some of them, or NULL */
} Slices;

static void let_go(Slices *it) {
    if (it->at != it->near) free(it->at);
    Py_XDECREF(it->texts);
    Py_XDECREF(it->others);
}

/* The UTF-8 of a text with lone surrogates, which is held from now on; borrowed. */
static PyObject *other_of(Slices *it, PyObject *text) {
    PyObject *raw = utf8_of(text);
    if (it->others == NULL) it->others = PyList_New(0);
    if (raw != NULL && (it->others == NULL || PyList_Append(it->others, raw) < 0)) Py_CLEAR(raw);
    Py_XDECREF(raw);
    return raw;
}

/* The UTF-8 of a replacement, or its bytes. A `str` beyond ASCII keeps its UTF-8 from then on. */
static int slice_of(Slices *it, PyObject *text, dado_bytes *out) {
    Characters of;
    char *at = NULL;
    Py_ssize_t length = 0;
    if (PyUnicode_Check(text)) {
        if (characters_of(text, &of) < 0) return -1;
        if (of.is_ascii) {
            out->at = of.at, out->len = of.len;
            return 0;
        }
        at = (char *)PyUnicode_AsUTF8AndSize(text, &length);
        if (at == NULL) {
            PyErr_Clear();
            text = other_of(it, text);
            if (text == NULL) return -1;
        }
    }
    if (at == NULL && PyBytes_AsStringAndSize(text, &at, &length) < 0) return -1;
    out->at = (const uint8_t *)at, out->len = (size_t)length;
    return 0;
}

/* The same replacement for all patterns. */
static int one_for_all(Slices *it, PyObject *text) {
    size_t i;
    Py_INCREF(text);
    it->texts = text;
    if (it->count != 0 && slice_of(it, text, it->at) < 0) return -1;
    for (i = 1; i < it->count; i++) it->at[i] = it->at[0];
    return 0;
}

static PyObject *item(PyObject *texts, size_t i) {
    return PyTuple_CheckExact(texts) ? PyTuple_GetItem(texts, (Py_ssize_t)i) : PyList_GetItem(texts, (Py_ssize_t)i);
}

/* Whether a list or a tuple has as many texts as there are patterns, of their type. */
static int is_one_each(const Core *core, PyObject *texts) {
    size_t i;
    if ((PyTuple_CheckExact(texts) ? PyTuple_Size(texts) : PyList_Size(texts)) != (Py_ssize_t)core->count) return 0;
    for (i = 0; i < core->count; i++) {
        PyObject *text = item(texts, i);
        if (core->text == 1 ? !PyUnicode_Check(text) : !PyBytes_CheckExact(text)) return 0;
    }
    return 1;
}

/* The values of a dictionary in the patterns' order, if its keys are just the patterns; else nothing. */
static PyObject *values_of(const Core *core, PyObject *dict) {
    PyObject *patterns, *values = NULL;
    size_t i;
    if (PyDict_Size(dict) != (Py_ssize_t)core->distinct) return NULL;
    patterns = PyObject_GetAttrString((PyObject *)core, "patterns");
    if (patterns != NULL && PyTuple_Check(patterns) && PyTuple_Size(patterns) == (Py_ssize_t)core->count)
        values = PyTuple_New((Py_ssize_t)core->count);
    for (i = 0; values != NULL && i < core->count; i++) {
        PyObject *value = PyDict_GetItemWithError(dict, PyTuple_GetItem(patterns, (Py_ssize_t)i));
        Py_XINCREF(value);
        if (value == NULL) Py_CLEAR(values);
        else PyTuple_SetItem(values, (Py_ssize_t)i, value);
    }
    Py_XDECREF(patterns);
    return values;
}

/* The replacements as a list or a tuple, of which the caller is an owner. What isn't one of the plain cases is asked of Python, which
 * raises what is wrong with it. A list may change while a long text is searched, so that is given a tuple. */
static PyObject *texts_of(Core *core, PyObject *replacements, int is_long) {
    PyObject *texts = NULL, *asked;
    if (PyTuple_CheckExact(replacements) || (PyList_CheckExact(replacements) && !is_long)) texts = replacements, Py_INCREF(texts);
    else if (PyList_CheckExact(replacements)) texts = PyList_AsTuple(replacements);
    else if (PyDict_CheckExact(replacements)) texts = values_of(core, replacements);
    if (PyErr_Occurred()) {
        Py_XDECREF(texts);
        return NULL;
    }
    if (texts != NULL && core->text >= 0 && is_one_each(core, texts)) return texts;
    Py_XDECREF(texts);
    asked = PyObject_CallMethod((PyObject *)core, "one_each", "O", replacements);
    texts = asked == NULL ? NULL : PySequence_Tuple(asked);
    Py_XDECREF(asked);
    return texts;
}

static int all_of(Slices *it, Core *core, PyObject *replacements, int is_long) {
    size_t i;
    it->texts = texts_of(core, replacements, is_long);
    if (it->texts == NULL) return -1;
    for (i = 0; i < it->count; i++) {
        PyObject *text = item(it->texts, i);
        if (text == NULL || slice_of(it, text, &it->at[i]) < 0) return -1;
    }
    return 0;
}

/* The replacements as a tuple, for Python. */
PyObject *core_texts(PyObject *self, PyObject *replacements) {
    return is_begun((Core *)self) ? texts_of((Core *)self, replacements, 1) : NULL;
}

/* Takes the replacements. After it no code of Python runs before a short text is searched. */
static int slices_of(Slices *it, Core *core, PyObject *replacements, int is_long) {
    int is_one = core->text == 1 ? PyUnicode_CheckExact(replacements) : core->text == 0 && PyBytes_CheckExact(replacements), done;
    it->count = core->count, it->texts = it->others = NULL;
    it->at = it->count <= NEAR ? it->near : malloc(it->count * sizeof *it->at);
    if (it->at == NULL) return no_memory();
    done = is_one ? one_for_all(it, replacements) : all_of(it, core, replacements, is_long);
    if (done < 0) let_go(it);
    return done;
}

/* ---- Replacing ---- */

/* The text with its matches replaced, or with its whole words under a kind: of UTF-8, or of bytes. */
static PyObject *replaced(const Core *core, const Haystack *text, const Slices *slices, int is_text, const uint32_t *words) {
    const dado_automaton *ac = core->plain->handle;
    dado_text made = DADO_NO_TEXT;
    dado_status status;
    const char *at;
    PyObject *result = NULL;
    UNLOCKED(text->len, status = words ? dado_replace_words(ac, *words, text->at, text->len, slices->at, slices->count, &made)
                                       : dado_replace(ac, text->at, text->len, slices->at, slices->count, &made));
    at = made.len ? (const char *)made.at : "";
    if (status != DADO_OK) refuse(STATE(core), status);
    else if (is_text) result = PyUnicode_DecodeUTF8(at, (Py_ssize_t)made.len, "surrogatepass");
    else result = PyBytes_FromStringAndSize(at, (Py_ssize_t)made.len);
    dado_text_free(&made);
    return result;
}

static PyObject *replaced_by(Core *core, PyObject *source, PyObject *replacements, const uint32_t *words) {
    Haystack text;
    Slices slices;
    PyObject *result = NULL;
    if (haystack_of(&text, core, source, NULL, NULL, EXACT, NULL) < 0) return NULL;
    if (slices_of(&slices, core, replacements, text.len > SHORT) == 0) {
        result = replaced(core, &text, &slices, PyUnicode_Check(source), words);
        let_go(&slices);
    }
    release(&text);
    return result;
}

/* Whether Python has to replace: by a function, or where the library would put a replacement within a character. */
static int is_of_python(const Core *core, PyObject *text, PyObject *replacements) {
    Characters of;
    if (PyCallable_Check(replacements)) return 1;
    if (!core->any_empty || !PyUnicode_Check(text)) return 0;
    return characters_of(text, &of) < 0 ? -1 : !of.is_ascii;
}

/* How many matches are replaced at most: 0 for all of them. -1 with an exception. */
static Py_ssize_t limit_of(PyObject *count) {
    Py_ssize_t limit;
    if (count == NULL) return 0;
    if (!PyIndex_Check(count)) return wrong_type("count", count, "a number");
    limit = PyNumber_AsSsize_t(count, NULL);
    if (limit == -1 && PyErr_Occurred()) return -1;
    if (limit >= 0) return limit;
    PyErr_Format(PyExc_ValueError, "count is %zd, and not how many are replaced at most, or 0 for all", limit);
    return -1;
}

/* The text with its matches replaced, or its words of a kind, by the library or by Python. */
static PyObject *replace(PyObject *self, PyObject *const *given, PyObject *count, PyObject *kind, const uint32_t *words) {
    Core *core;
    Py_ssize_t limit = limit_of(count);
    PyObject *result = NULL;
    int python;
    if (limit < 0 || (core = core_of(self)) == NULL) return NULL;
    python = fits(core, given[0], "text") < 0 ? -1 : limit > 0 ? 1 : is_of_python(core, given[0], given[1]);
    if (python > 0) result = PyObject_CallMethod((PyObject *)core, "replaced", "OOnO", given[0], given[1], limit, kind);
    else if (python == 0) result = replaced_by(core, given[0], given[1], words);
    Py_DECREF(core);
    return result;
}

PyObject *automaton_replace(PyObject *self, PyObject *const *args, Py_ssize_t count, PyObject *names) {
    static const Signature signature = {"replace", {"text", "replacements", "count"}, 3, 3, 2};
    PyObject *given[3];
    return arguments_of(&signature, args, count, names, given) < 0 ? NULL : replace(self, given, given[2], Py_None, NULL);
}

PyObject *automaton_replace_words(PyObject *self, PyObject *const *args, Py_ssize_t count, PyObject *names) {
    static const Signature signature = {"replace_words", {"text", "replacements", "kind", "count"}, 4, 4, 2};
    PyObject *given[4], *kind, *result;
    uint32_t number;
    int found;
    if (arguments_of(&signature, args, count, names, given) < 0 || (found = kind_of(given[2])) < 0) return NULL;
    number = (uint32_t)found;
    kind = given[2] != NULL ? given[2] : PyUnicode_FromString("standard");
    if (kind == NULL) return NULL;
    result = replace(self, given, given[3], kind, &number);
    if (given[2] == NULL) Py_DECREF(kind);
    return result;
}

/* ---- Masks ---- */

static dado_status masked(const Core *core, uint8_t *at, size_t len, uint8_t star, int words) {
    const dado_automaton *ac = core->plain->handle;
    dado_status status;
    UNLOCKED(len, status = words ? dado_mask_words(ac, at, len, star) : dado_mask(ac, at, len, star));
    return status;
}

/* The star for bytes: one byte, as it was given or as Python makes it out; -1 with an exception. */
static int byte_of(Core *core, PyObject *star) {
    PyObject *made;
    int value;
    if (star == NULL || star == Py_None) return '*';
    if (PyBytes_CheckExact(star) && PyBytes_Size(star) == 1) return (unsigned char)PyBytes_AsString(star)[0];
    made = PyObject_CallMethod((PyObject *)core, "star_of", "OO", star, Py_False);
    if (made == NULL) return -1;
    value = (int)PyLong_AsLong(made);
    Py_DECREF(made);
    return value;
}

/* The most bytes that a character has in UTF-8. */
enum { CHARACTER = 4 };

/* The star for a text, as UTF-8: how many bytes, or -1 with an exception. */
static int star_of(Core *core, PyObject *star, char *out) {
    PyObject *raw, *one;
    Py_ssize_t length = 0;
    char *at = NULL;
    *out = '*';
    if (star == NULL || star == Py_None) return 1;
    one = PyObject_CallMethod((PyObject *)core, "star_of", "OO", star, Py_True);
    raw = one == NULL ? NULL : utf8_of(one);
    if (raw != NULL && PyBytes_AsStringAndSize(raw, &at, &length) == 0) {
        if (length <= CHARACTER) memcpy(out, at, (size_t)length);
        else PyErr_SetString(PyExc_ValueError, "the star has several characters"), length = -1;
    }
    Py_XDECREF(one), Py_XDECREF(raw);
    return at == NULL ? -1 : (int)length;
}

static int begins(char byte) { return ((unsigned char)byte & 0xC0) != 0x80; }

/* The text in which each character that is covered is a star; `covered` has the bytes of `plain`, or COVERED. */
static PyObject *with_stars(const char *plain, const char *covered, size_t len, const char *star, size_t width) {
    size_t i, stars = 0, to = 0;
    PyObject *made;
    char *out;
    for (i = 0; i < len; i++) stars += (unsigned char)covered[i] == COVERED && begins(plain[i]);
    out = malloc(len + stars * width + 1);
    if (out == NULL) {
        no_memory();
        return NULL;
    }
    for (i = 0; i < len; i++) {
        if ((unsigned char)covered[i] != COVERED) out[to++] = covered[i];
        else if (begins(plain[i])) memcpy(out + to, star, width), to += width;
    }
    made = PyUnicode_DecodeUTF8(out, (Py_ssize_t)to, "surrogatepass");
    free(out);
    return made;
}

/* The same of two objects of bytes. */
PyObject *starred(PyObject *module, PyObject *args) {
    const char *plain, *covered, *star;
    Py_ssize_t len, length, width;
    (void)module;
    if (!PyArg_ParseTuple(args, "y#y#y#", &plain, &len, &covered, &length, &star, &width)) return NULL;
    if (len == length) return with_stars(plain, covered, (size_t)len, star, (size_t)width);
    PyErr_SetString(PyExc_ValueError, "the text and what is masked of it have different lengths");
    return NULL;
}

static PyObject *masked_text(Core *core, PyObject *source, PyObject *star_given, int words) {
    char star[CHARACTER];
    int width = star_of(core, star_given, star), plain;
    Haystack text;
    PyObject *made = NULL;
    char *copy;
    dado_status status = DADO_NO_MEMORY;
    if (width < 0 || haystack_of(&text, core, source, NULL, NULL, EXACT, NULL) < 0) return NULL;
    plain = !text.is_counted && width == 1; /* a byte each, so the star is written at once */
    copy = malloc(text.len + 1);
    if (copy != NULL) {
        memcpy(copy, text.at, text.len);
        status = masked(core, (uint8_t *)copy, text.len, plain ? (uint8_t)star[0] : COVERED, words);
    }
    if (status != DADO_OK) refuse(STATE(core), status);
    else if (plain) made = PyUnicode_FromStringAndSize(copy, (Py_ssize_t)text.len);
    else made = with_stars((const char *)text.at, copy, text.len, star, (size_t)width);
    free(copy);
    release(&text);
    return made;
}

/* The bytes of what lends them: an object of its own, in which nothing else has a part. */
static PyObject *own_bytes(PyObject *source) {
    PyObject *view, *made, *plain = source;
    char *at;
    Py_ssize_t length;
    Py_INCREF(plain);
    if (!PyBytes_CheckExact(source)) {
        view = PyMemoryView_FromObject(source);
        Py_DECREF(plain);
        plain = view == NULL ? NULL : PyBytes_FromObject(view);
        Py_XDECREF(view);
    }
    if (plain == NULL || PyBytes_AsStringAndSize(plain, &at, &length) < 0) {
        Py_XDECREF(plain);
        return NULL;
    }
    made = PyBytes_FromStringAndSize(NULL, length);
    if (made != NULL) memcpy(PyBytes_AsString(made), at, (size_t)length);
    Py_DECREF(plain);
    return made;
}

/* Says that a text lends no bytes, where that is what was raised. */
static PyObject *lends_none(const Core *core, PyObject *source) {
    if (PyErr_ExceptionMatches(PyExc_TypeError)) PyErr_Clear(), misfits(core, source, "text");
    return NULL;
}

static PyObject *masked_bytes(Core *core, PyObject *source, PyObject *star_given, int words) {
    int star = byte_of(core, star_given);
    PyObject *made = star < 0 ? NULL : own_bytes(source);
    dado_status status;
    if (made == NULL) return star < 0 ? NULL : lends_none(core, source);
    status = masked(core, (uint8_t *)PyBytes_AsString(made), (size_t)PyBytes_Size(made), (uint8_t)star, words);
    if (status == DADO_OK) return made;
    Py_DECREF(made);
    refuse(STATE(core), status);
    return NULL;
}

static PyObject *mask(PyObject *self, const Signature *signature, PyObject *const *args, Py_ssize_t count, PyObject *names, int words) {
    PyObject *given[2], *made = NULL;
    Core *core;
    if (arguments_of(signature, args, count, names, given) < 0 || (core = core_of(self)) == NULL) return NULL;
    if (fits(core, given[0], "text") == 0)
        made = (PyUnicode_Check(given[0]) ? masked_text : masked_bytes)(core, given[0], given[1], words);
    Py_DECREF(core);
    return made;
}

/* Says what is wrong with a buffer that isn't lent, or can't be written. */
static int not_lent(PyObject *source) {
    if (PyErr_ExceptionMatches(PyExc_TypeError)) PyErr_Clear(), wrong_type("buffer", source, "bytes that can be written");
    return -1;
}

static int mask_lent(Core *core, PyObject *source, int star, int words) {
    Py_buffer lent;
    dado_status status;
    if (PyObject_GetBuffer(source, &lent, PyBUF_WRITABLE) < 0) return not_lent(source);
    status = masked(core, lent.buf, (size_t)lent.len, (uint8_t)star, words);
    PyBuffer_Release(&lent);
    return status == DADO_OK ? 0 : refuse(STATE(core), status);
}

static PyObject *mask_lying(PyObject *self, const Signature *signature, PyObject *const *args, Py_ssize_t count, PyObject *names,
                            int words) {
    PyObject *given[2];
    Core *core;
    int star, done = -1;
    if (arguments_of(signature, args, count, names, given) < 0 || (core = core_of(self)) == NULL) return NULL;
    if (core->text == 1) PyErr_Format(PyExc_TypeError, "%s() is for patterns of bytes, and these are str", signature->call);
    else if ((star = byte_of(core, given[1])) >= 0) done = mask_lent(core, given[0], star, words);
    Py_DECREF(core);
    if (done < 0) return NULL;
    Py_RETURN_NONE;
}

PyObject *automaton_mask(PyObject *self, PyObject *const *args, Py_ssize_t count, PyObject *names) {
    static const Signature signature = {"mask", {"text", "star"}, 2, 2, 1};
    return mask(self, &signature, args, count, names, 0);
}

PyObject *automaton_mask_words(PyObject *self, PyObject *const *args, Py_ssize_t count, PyObject *names) {
    static const Signature signature = {"mask_words", {"text", "star"}, 2, 2, 1};
    return mask(self, &signature, args, count, names, 1);
}

PyObject *automaton_mask_in_place(PyObject *self, PyObject *const *args, Py_ssize_t count, PyObject *names) {
    static const Signature signature = {"mask_in_place", {"buffer", "star"}, 2, 2, 1};
    return mask_lying(self, &signature, args, count, names, 0);
}

PyObject *automaton_mask_words_in_place(PyObject *self, PyObject *const *args, Py_ssize_t count, PyObject *names) {
    static const Signature signature = {"mask_words_in_place", {"buffer", "star"}, 2, 2, 1};
    return mask_lying(self, &signature, args, count, names, 1);
}
