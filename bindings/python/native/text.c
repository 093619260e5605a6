/* What is searched: the memory of a `str`, of `bytes`, or of whatever lends its own, and copies where there has to be one. */
#include "native.h"

#include <stdlib.h>
#include <string.h>

size_t part_size = (size_t)1 << 18;
int reads_memory = 1;

/* ---- Where CPython keeps the characters of a `str` ---- */

/* How a `str` says where its characters are: in which word, after how many bits, there is its width, whether the characters follow its
 * other fields, and whether it is ASCII; and how far after its beginning they are then. It is found in samples, since no version of the
 * limited API has it; where these don't agree, it isn't known, and a `str` is asked for its characters. */
static struct {
    int is_known;
    size_t word, shift, ascii, other;
} layout;

enum { WIDTH = 7, FOLLOWS = 8, IS_ASCII = 16, ALL = 31, SAMPLES = 10 };

static unsigned said(PyObject *text, size_t word, size_t shift) {
    uint32_t it;
    memcpy(&it, (const char *)text + word, sizeof it);
    return it >> shift & ALL;
}

/* How many bytes a text takes; -1 with an exception. */
static Py_ssize_t size_of(PyObject *text) {
    PyObject *size = PyObject_CallMethod(text, "__sizeof__", NULL);
    Py_ssize_t value = size == NULL ? -1 : PyLong_AsSsize_t(size);
    Py_XDECREF(size);
    return value;
}

static Py_UCS4 unit_at(const char *at, unsigned width) {
    uint8_t one;
    uint16_t two;
    uint32_t four;
    switch (width) {
    case 1: memcpy(&one, at, sizeof one); return one;
    case 2: memcpy(&two, at, sizeof two); return two;
    default: memcpy(&four, at, sizeof four); return four;
    }
}

/* Whether a text has these characters so many bytes after its beginning. */
static int holds(PyObject *text, size_t base, unsigned width, Py_UCS4 first, size_t length) {
    size_t i;
    for (i = 0; i < length; i++)
        if (unit_at((const char *)text + base + i * width, width) != first + (Py_UCS4)i) return 0;
    return 1;
}

/* A text of `length` characters from one on; as a `str`, or of the type that is given. */
static PyObject *sample(Py_UCS4 first, Py_ssize_t length, PyObject *type) {
    PyObject *text = NULL, *other;
    Py_ssize_t i;
    for (i = 0; i < length; i++) {
        PyObject *next = PyUnicode_FromFormat("%c", (int)(first + (Py_UCS4)i));
        if (text == NULL) text = next;
        else PyUnicode_AppendAndDel(&text, next);
        if (text == NULL) return NULL;
    }
    if (type == NULL) return text;
    other = PyObject_CallFunctionObjArgs(type, text, NULL);
    Py_DECREF(text);
    return other;
}

typedef struct {
    PyObject *text;
    unsigned told; /* what its word says */
} Sample;

static const struct {
    Py_UCS4 first;
    unsigned width, told;
} kinds[] = {{0x41, 1, 1 | FOLLOWS | IS_ASCII}, {0xA1, 1, 1 | FOLLOWS}, {0x2200, 2, 2 | FOLLOWS}, {0x1F600, 4, 4 | FOLLOWS}};

/* Whether the characters of a sample of a kind follow its other fields, as far after its beginning as those of the samples before it.
 * -1 with an exception. */
static int follow(PyObject *text, int kind, size_t length) {
    Py_ssize_t size = size_of(text);
    size_t *base = kind == 0 ? &layout.ascii : &layout.other, at;
    if (size < 0) return -1;
    if ((size_t)size < sizeof(PyObject) + (length + 1) * kinds[kind].width) return 0;
    at = (size_t)size - (length + 1) * kinds[kind].width;
    if (*base == 0) *base = at;
    return at == *base && holds(text, at, kinds[kind].width, kinds[kind].first, length);
}

/* Makes the samples: four kinds of characters in two lengths, and two texts of a type of their own, whose characters are elsewhere. -1
 * with an exception, 0 where the characters aren't found. */
static int samples_of(Sample *samples, PyObject *apart) {
    int i, found = 1;
    for (i = 0; i < SAMPLES && found == 1; i++) {
        int kind = i / 2 % 4, is_apart = i >= 8;
        Py_ssize_t length = i % 2 ? 8 : 3;
        samples[i].text = sample(kinds[kind].first, length, is_apart ? apart : NULL);
        samples[i].told = is_apart ? 1 | IS_ASCII : kinds[kind].told;
        if (samples[i].text == NULL) return -1;
        if (!is_apart) found = follow(samples[i].text, kind, (size_t)length);
    }
    return found;
}

static int all_say(const Sample *samples, size_t word, size_t shift) {
    int i;
    for (i = 0; i < SAMPLES; i++)
        if (said(samples[i].text, word, shift) != samples[i].told) return 0;
    return 1;
}

static void search_word(const Sample *samples) {
    size_t place, last = layout.ascii < layout.other ? layout.ascii : layout.other;
    for (place = 0; place < last / 4 * 28 && !layout.is_known; place++) {
        layout.word = place / 28 * 4, layout.shift = place % 28;
        layout.is_known = all_say(samples, layout.word, layout.shift);
    }
}

int texts_ready(void) {
    Sample samples[SAMPLES] = {{NULL, 0}};
    PyObject *apart = PyObject_CallFunction((PyObject *)&PyType_Type, "s(O){}", "Apart", (PyObject *)&PyUnicode_Type);
    int agree = apart == NULL ? -1 : samples_of(samples, apart), i;
    if (agree == 1) search_word(samples);
    for (i = 0; i < SAMPLES; i++) Py_XDECREF(samples[i].text);
    Py_XDECREF(apart);
    return agree < 0 ? -1 : 0;
}

/* Whether a text is ASCII, by the method of `str` itself; -1 with an exception. */
static int asked_ascii(PyObject *text) {
    PyObject *ascii = PyObject_CallMethod((PyObject *)&PyUnicode_Type, "isascii", "O", text);
    int answer = ascii == NULL ? -1 : ascii == Py_True;
    Py_XDECREF(ascii);
    return answer;
}

int characters_of(PyObject *text, Characters *out) {
    Py_ssize_t length = PyUnicode_GetLength(text);
    int knows = layout.is_known && reads_memory;
    unsigned told = knows && length >= 0 ? said(text, layout.word, layout.shift) : 0;
    if (length < 0) return -1;
    out->at = NULL, out->len = (size_t)length, out->width = 0;
    out->is_ascii = knows ? (told & IS_ASCII) != 0 : asked_ascii(text);
    if (told & FOLLOWS) {
        out->width = told & WIDTH;
        out->at = (const uint8_t *)text + (out->is_ascii ? layout.ascii : layout.other);
    } else if (out->is_ascii > 0) {
        out->width = 1;
        out->at = (const uint8_t *)PyUnicode_AsUTF8AndSize(text, NULL); /* its own memory: the bytes of ASCII are its UTF-8 */
        if (out->at == NULL) return -1;
    }
    return out->is_ascii < 0 ? -1 : 0;
}

/* ---- Copies ---- */

int copy_codes(const Core *core, PyObject *text, const Characters *of, size_t start, size_t len, uint8_t *to) {
    dado_status status;
    PyObject *part;
    Py_UCS4 *units;
    if (of->width != 0) {
        const uint8_t *from = of->at + start * of->width;
        UNLOCKED(len, status = dado_narrow(from, of->width, len, core->codes, core->code_count, core->other, to));
        return status == DADO_OK ? 0 : refuse(STATE(core), status);
    }
    part = PyUnicode_Substring(text, (Py_ssize_t)start, (Py_ssize_t)(start + len));
    if (part == NULL) return -1;
    units = PyUnicode_AsUCS4Copy(part);
    Py_DECREF(part);
    if (units == NULL) return -1;
    status = dado_narrow(units, 4, len, core->codes, core->code_count, core->other, to);
    PyMem_Free(units);
    return status == DADO_OK ? 0 : refuse(STATE(core), status);
}

PyObject *utf8_of(PyObject *text) { return PyUnicode_AsEncodedString(text, "utf-8", "surrogatepass"); }

int misfits(const Core *core, PyObject *text, const char *name) {
    if (core->text < 0) return wrong_type(name, text, "str or bytes");
    return wrong_type(name, text, core->text ? "str as the patterns are" : "bytes as the patterns are");
}

int fits(const Core *core, PyObject *text, const char *name) {
    return core->text < 0 || core->text == PyUnicode_Check(text) ? 0 : misfits(core, text, name);
}

static int is_bound(PyObject *it, const char *name) {
    return it == NULL || it == Py_None || PyIndex_Check(it) ? 0 : wrong_type(name, it, "a number or None");
}

int bounds_of(size_t length, PyObject *start, PyObject *end, size_t *low, size_t *high) {
    Py_ssize_t from, to, step;
    PyObject *slice;
    *low = 0, *high = length;
    if ((start == NULL || start == Py_None) && (end == NULL || end == Py_None)) return 0;
    if (is_bound(start, "start") < 0 || is_bound(end, "end") < 0) return -1;
    slice = PySlice_New(start, end, NULL);
    if (slice == NULL) return -1;
    if (PySlice_Unpack(slice, &from, &to, &step) < 0) {
        Py_DECREF(slice);
        return -1;
    }
    Py_DECREF(slice);
    PySlice_AdjustIndices((Py_ssize_t)length, &from, &to, step);
    *low = (size_t)from, *high = (size_t)(to > from ? to : from);
    return 0;
}

/* ---- Haystacks ---- */

/* A text beyond ASCII by the codes of its characters: where it lies, if these are its bytes, and else a copy. */
static int by_codes(Haystack *out, PyObject *text, const Characters *of, size_t low, size_t high, int how, uint8_t *near) {
    const Core *core = out->core;
    size_t most = part_size > 8 * core->longest ? part_size : 8 * core->longest;
    out->is_coded = 1, out->shift = low, out->len = high - low;
    if (of->width == 1 && core->are_latin) {
        out->at = of->at + low;
        return 0;
    }
    if (how == PARTS && !core->any_empty && out->len > most) out->len = most, out->text = text, out->stop = high;
    if (out->len > SHORT || near == NULL) {
        near = out->copy = malloc(out->len + 1);
        if (near == NULL) return no_memory();
    }
    out->at = near;
    return copy_codes(core, text, of, low, out->len, near);
}

/* A text beyond ASCII as UTF-8. */
static int by_utf8(Haystack *out, PyObject *text, size_t length, size_t low, size_t high) {
    int is_whole = low == 0 && high == length;
    PyObject *part = is_whole ? NULL : PyUnicode_Substring(text, (Py_ssize_t)low, (Py_ssize_t)high);
    char *at;
    Py_ssize_t size;
    if (!is_whole && part == NULL) return -1;
    out->made = utf8_of(is_whole ? text : part);
    Py_XDECREF(part);
    if (out->made == NULL || PyBytes_AsStringAndSize(out->made, &at, &size) < 0) return -1;
    out->is_counted = 1, out->shift = low, out->at = (const uint8_t *)at, out->len = (size_t)size;
    return 0;
}

static int of_str(Haystack *out, PyObject *text, PyObject *start, PyObject *end, int how, uint8_t *near) {
    Characters of;
    size_t low, high;
    int done;
    if (characters_of(text, &of) < 0 || bounds_of(of.len, start, end, &low, &high) < 0) return -1;
    if (of.is_ascii) {
        out->at = of.at, out->len = of.len, out->low = low, out->high = high;
        return 0;
    }
    if (how != EXACT && out->core->table != NULL) done = by_codes(out, text, &of, low, high, how, near);
    else done = by_utf8(out, text, of.len, low, high);
    out->low = 0, out->high = out->len;
    return done;
}

/* Says that a text lends no bytes, where that is what was raised. */
static int lends_none(Haystack *out, PyObject *text) {
    out->lent.obj = NULL;
    if (!PyErr_ExceptionMatches(PyExc_TypeError)) return -1;
    PyErr_Clear();
    return misfits(out->core, text, "text");
}

static int of_bytes(Haystack *out, PyObject *text, PyObject *start, PyObject *end) {
    if (PyBytes_Check(text)) {
        char *at;
        Py_ssize_t length;
        if (PyBytes_AsStringAndSize(text, &at, &length) < 0) return -1;
        out->at = (const uint8_t *)at, out->len = (size_t)length;
    } else {
        if (PyObject_GetBuffer(text, &out->lent, PyBUF_SIMPLE) < 0) return lends_none(out, text);
        out->at = out->lent.buf, out->len = (size_t)out->lent.len;
    }
    return bounds_of(out->len, start, end, &out->low, &out->high);
}

int haystack_of(Haystack *out, Core *core, PyObject *text, PyObject *start, PyObject *end, int how, uint8_t *near) {
    static const dado_counted none = {0, 0};
    int done;
    if (fits(core, text, "text") < 0) return -1;
    out->shift = 0, out->is_coded = out->is_counted = 0, out->counted = none;
    out->made = NULL, out->copy = NULL, out->lent.obj = NULL, out->text = NULL, out->core = core;
    done = PyUnicode_Check(text) ? of_str(out, text, start, end, how, near) : of_bytes(out, text, start, end);
    if (done < 0) release(out);
    return done;
}

int keep_copy(Haystack *it, const uint8_t *near) {
    if (near == NULL || it->at != near) return 0;
    it->copy = malloc(it->len + 1);
    if (it->copy == NULL) return no_memory();
    memcpy(it->copy, near, it->len);
    it->at = it->copy;
    return 0;
}

int is_last_part(const Haystack *it) { return it->text == NULL || it->shift + it->len == it->stop; }

int next_part(Haystack *it, size_t by) {
    Characters of;
    if (characters_of(it->text, &of) < 0) return -1;
    it->shift += by;
    if (it->len > it->stop - it->shift) it->len = it->stop - it->shift;
    it->high = it->len;
    return copy_codes(it->core, it->text, &of, it->shift, it->len, it->copy);
}

void release(Haystack *it) {
    if (it->lent.obj != NULL) PyBuffer_Release(&it->lent);
    free(it->copy);
    it->copy = NULL;
    Py_CLEAR(it->made);
}

Owner *searcher_of(const Haystack *it) { return it->is_coded ? coded_of(it->core) : it->core->plain; }
