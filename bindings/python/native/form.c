/* form.c: the flat form's memory and its strings. */
#include "native.h"

void form_begin(form *form)
{
    form->bytes = form->first;
    form->len = 0;
    form->room = sizeof form->first;
    form->is_fragments = false;
}

void form_free(form *form)
{
    if (form->bytes != form->first)
        PyMem_Free(form->bytes);
    form->bytes = form->first;
}

bool form_grow(form *form, size_t more)
{
    if (more > (size_t)PY_SSIZE_T_MAX / 2 - form->len) {
        PyErr_NoMemory();
        return false;
    }
    size_t wanted = 2 * (form->len + more);
    uint8_t *own = form->bytes == form->first ? NULL : form->bytes;
    uint8_t *bytes = PyMem_Realloc(own, wanted);
    if (bytes == NULL) {
        PyErr_NoMemory();
        return false;
    }
    if (own == NULL)
        memcpy(bytes, form->first, form->len);
    form->bytes = bytes;
    form->room = wanted;
    return true;
}

/* How many bytes the shortest form of a length has behind its first one. */
static size_t bytes_of_length(size_t len)
{
    return len < 251 ? 0 : len < 65536 ? 2 : len < 16777216 ? 3 : 8;
}

/* Writes a length, which has so many bytes behind its first one. */
static void fill_length(uint8_t *at, size_t len, size_t count)
{
    at[0] = (uint8_t)(count == 0 ? len : count == 2 ? 0xFC : count == 3 ? 0xFD : 0xFE);
    for (size_t i = 0; i < count; i++)
        at[1 + i] = (uint8_t)(len >> (8 * i));
}

bool form_string(form *form, const void *bytes, size_t len)
{
    size_t count = bytes_of_length(len);
    uint8_t *at = form_more(form, 1 + count + len);
    if (at == NULL)
        return false;
    fill_length(at, len, count);
    memcpy(at + 1 + count, bytes, len);
    return true;
}

bool form_enclose(form *form, size_t begin)
{
    size_t len = form->len - begin - 1, count = bytes_of_length(len);
    if (count > 0) {
        if (form_more(form, count) == NULL)
            return false;
        memmove(form->bytes + begin + 1 + count, form->bytes + begin + 1, len);
    }
    fill_length(form->bytes + begin, len, count);
    return true;
}
