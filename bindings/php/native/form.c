/* form.c: the flat form of parameters, in PHP's own memory. */
#include "php_mysql_params.h"

void form_begin(form *form)
{
    form->bytes = form->first;
    form->len = 0;
    form->room = sizeof form->first;
    form->values = 0;
    form->is_fragments = false;
}

void form_free(form *form)
{
    if (form->bytes != form->first)
        efree(form->bytes);
    form_begin(form);
}

void form_grow(form *form, size_t more)
{
    size_t room = 2 * form->room;
    if (room - form->len < more)
        room = zend_safe_address_guarded(1, more, form->len);
    if (form->bytes == form->first) {
        form->bytes = emalloc(room);
        memcpy(form->bytes, form->first, form->len);
    } else {
        form->bytes = erealloc2(form->bytes, room, form->len);
    }
    form->room = room;
}

/* The longest length, FE and 8 bytes. */
enum { LENGTH_ROOM = 9 };

/* Writes the shortest form of a length, and returns how many bytes it has. */
static size_t fill_length(uint8_t at[LENGTH_ROOM], size_t len)
{
    if (len < 251) {
        at[0] = (uint8_t)len;
        return 1;
    }
    size_t count = len < 1 << 16 ? 2 : len < 1 << 24 ? 3 : 8;
    at[0] = count == 2 ? 0xFC : count == 3 ? 0xFD : 0xFE;
    fill_number(at + 1, count, len);
    return 1 + count;
}

void form_string(form *form, const void *bytes, size_t len)
{
    uint8_t length[LENGTH_ROOM];
    size_t length_len = fill_length(length, len);
    if (UNEXPECTED(len > SIZE_MAX - LENGTH_ROOM))
        zend_error_noreturn(E_ERROR, "mysql_params: a string is too long");
    uint8_t *at = form_more(form, length_len + len);
    if (length_len == 1)
        at[0] = length[0];
    else
        memcpy(at, length, length_len);
    if (len > 0)
        memcpy(at + length_len, bytes, len);
}

void form_enclose(form *form, size_t begin)
{
    uint8_t length[LENGTH_ROOM];
    size_t len = form->len - begin - 1;
    size_t length_len = fill_length(length, len);
    if (length_len > 1) {
        form_more(form, length_len - 1);
        memmove(form->bytes + begin + length_len, form->bytes + begin + 1, len);
    }
    memcpy(form->bytes + begin, length, length_len);
}
