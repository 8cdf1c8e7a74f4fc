/* What `cardswitch decode` does, in plain C: reads frames, checks each message with the table of fields
 * and prints its fields. It keeps no message: a field is checked where it lies, and printed once the
 * whole message is found to be valid. */

#include <stdint.h>
#include <stdio.h>
#include <stdlib.h>
#include <string.h>
#include <unistd.h>

enum content { NONE, N, ANS, B };

struct form {
    uint8_t content;
    uint8_t length_digits; /* 0, 2 for LLVAR, 3 for LLLVAR */
    uint16_t length;       /* the fixed or the greatest one */
};

static const struct form FORMS[129] = {
    [2] = {N, 2, 19},   [3] = {N, 0, 6},    [4] = {N, 0, 12},   [5] = {N, 0, 12},    [6] = {N, 0, 12},
    [7] = {N, 0, 10},   [9] = {N, 0, 8},    [10] = {N, 0, 8},   [11] = {N, 0, 6},    [12] = {N, 0, 6},
    [13] = {N, 0, 4},   [14] = {N, 0, 4},   [15] = {N, 0, 4},   [16] = {N, 0, 4},    [17] = {N, 0, 4},
    [18] = {N, 0, 4},   [19] = {N, 0, 3},   [22] = {N, 0, 3},   [23] = {N, 0, 3},    [24] = {N, 0, 3},
    [25] = {N, 0, 2},   [26] = {N, 0, 2},   [32] = {N, 2, 11},  [33] = {N, 2, 11},   [35] = {ANS, 2, 37},
    [37] = {ANS, 0, 12}, [38] = {ANS, 0, 6}, [39] = {ANS, 0, 2}, [41] = {ANS, 0, 8},  [42] = {ANS, 0, 15},
    [43] = {ANS, 0, 40}, [44] = {ANS, 2, 25}, [45] = {ANS, 2, 76}, [48] = {ANS, 3, 999}, [49] = {ANS, 0, 3},
    [50] = {ANS, 0, 3}, [51] = {ANS, 0, 3}, [52] = {B, 0, 16},  [53] = {N, 0, 16},   [54] = {ANS, 3, 120},
    [55] = {ANS, 3, 999}, [60] = {ANS, 3, 999}, [61] = {ANS, 3, 999}, [62] = {ANS, 3, 999}, [63] = {ANS, 3, 999},
    [64] = {B, 0, 16},  [70] = {N, 0, 3},   [90] = {N, 0, 42},  [95] = {ANS, 0, 42}, [100] = {N, 2, 11},
    [102] = {ANS, 2, 28}, [103] = {ANS, 2, 28}, [128] = {B, 0, 16},
};

struct field {
    uint8_t number;
    uint16_t length;
    const uint8_t *value;
};

static char *text;
static size_t text_length, text_room;

static void room(size_t count)
{
    if (text_length + count <= text_room)
        return;
    text_room = 2 * (text_length + count);
    text = realloc(text, text_room);
    if (!text)
        exit(4);
}

static void add(const void *bytes, size_t count)
{
    room(count);
    memcpy(text + text_length, bytes, count);
    text_length += count;
}

static void add_text(const char *words) { add(words, strlen(words)); }

static void add_number(uint64_t number)
{
    char digits[20];
    size_t first = sizeof digits;
    do {
        digits[--first] = '0' + number % 10;
        number /= 10;
    } while (number);
    add(digits + first, sizeof digits - first);
}

static void flush_text(void)
{
    for (size_t done = 0; done < text_length;) {
        ssize_t count = write(1, text + done, text_length - done);
        if (count <= 0)
            exit(1);
        done += (size_t)count;
    }
    text_length = 0;
}

static int are_digits(const uint8_t *bytes, size_t count)
{
    for (size_t i = 0; i < count; i++)
        if (bytes[i] < '0' || '9' < bytes[i])
            return 0;
    return 1;
}

static int are_printable(const uint8_t *bytes, size_t count)
{
    for (size_t i = 0; i < count; i++)
        if (bytes[i] < ' ' || '~' < bytes[i])
            return 0;
    return 1;
}

static int hex_value(uint8_t c)
{
    if ('0' <= c && c <= '9')
        return c - '0';
    if ('A' <= c && c <= 'F')
        return c - 'A' + 10;
    if ('a' <= c && c <= 'f')
        return c - 'a' + 10;
    return -1;
}

/* Adds the numbers of the set bits of a bitmap, and returns how many there are then, or -1. */
static int numbers_of(const uint8_t *digits, int first, uint8_t *numbers, int count)
{
    for (int i = 0; i < 16; i++) {
        int value = hex_value(digits[i]);
        if (value < 0)
            return -1;
        for (int bit = 0; bit < 4; bit++)
            if (value & (8 >> bit))
                numbers[count++] = (uint8_t)(first + 4 * i + bit);
    }
    return count;
}

/* Why the field at the front is invalid, or NULL, with the bytes moved past it. */
static const char *take_field(const uint8_t **bytes, size_t *left, struct field *field)
{
    struct form form = FORMS[field->number];
    size_t length = form.length;
    if (*left < form.length_digits)
        return "Short";
    if (form.length_digits) {
        if (!are_digits(*bytes, form.length_digits))
            return "BadLength";
        length = 0;
        for (int i = 0; i < form.length_digits; i++)
            length = 10 * length + (size_t)((*bytes)[i] - '0');
        if (form.length < length)
            return "BadLength";
        *bytes += form.length_digits;
        *left -= form.length_digits;
    }
    if (*left < length)
        return "Short";
    field->value = *bytes;
    field->length = (uint16_t)length;
    int fits = 1;
    if (form.content == N)
        fits = are_digits(*bytes, length);
    else if (form.content == ANS)
        fits = are_printable(*bytes, length);
    else
        for (size_t i = 0; i < length; i++)
            fits = fits && hex_value((*bytes)[i]) >= 0;
    if (!fits)
        return "BadContent";
    *bytes += length;
    *left -= length;
    return NULL;
}

/* Why the bytes are no message, or NULL and its fields. */
static const char *read_message(const uint8_t *bytes, size_t left, struct field *fields, int *count)
{
    uint8_t numbers[128];
    if (left < 4)
        return "Short";
    if (!are_digits(bytes, 4))
        return "BadMti";
    bytes += 4, left -= 4;
    if (left < 16)
        return "Short";
    int all = numbers_of(bytes, 1, numbers, 0);
    if (all < 0)
        return "BadBitmap";
    bytes += 16, left -= 16;
    int first = 0;
    if (all && numbers[0] == 1) {
        first = 1;
        if (left < 16)
            return "Short";
        all = numbers_of(bytes, 65, numbers, all);
        if (all < 0)
            return "BadBitmap";
        bytes += 16, left -= 16;
    }
    for (int i = first; i < all; i++)
        if (FORMS[numbers[i]].content == NONE)
            return "FieldNotInProfile";
    *count = 0;
    for (int i = first; i < all; i++) {
        fields[*count].number = numbers[i];
        const char *fault = take_field(&bytes, &left, &fields[*count]);
        if (fault)
            return fault;
        ++*count;
    }
    return left ? "Trailing" : NULL;
}

static int print_message(uint64_t number, const uint8_t *bytes, size_t length)
{
    struct field fields[128];
    int count = 0;
    const char *fault = read_message(bytes, length, fields, &count);
    add_text("message ");
    add_number(number);
    if (fault) {
        add_text(" refused ");
        add_text(fault);
        add_text("\n");
        return 1;
    }
    add_text("\nmti ");
    add(bytes, 4);
    add_text("\n");
    for (int i = 0; i < count; i++) {
        add_number(fields[i].number);
        add_text(" ");
        size_t at = text_length;
        add(fields[i].value, fields[i].length);
        if (FORMS[fields[i].number].content == B)
            for (; at < text_length; at++)
                if ('a' <= text[at])
                    text[at] = (char)(text[at] - 'a' + 'A');
        add_text("\n");
    }
    return 0;
}

int main(void)
{
    static uint8_t held[65536 + 10003];
    size_t length = 0;
    uint64_t number = 0;
    int refused = 0, bad = 0;
    while (!bad) {
        ssize_t count = read(0, held + length, 65536);
        if (count < 0)
            return 1;
        if (count == 0)
            break;
        length += (size_t)count;
        size_t at = 0;
        while (length - at >= 4) {
            if (!are_digits(held + at, 4)) {
                bad = 1;
                break;
            }
            size_t size = 1000u * (held[at] - '0') + 100u * (held[at + 1] - '0') + 10u * (held[at + 2] - '0')
                          + (size_t)(held[at + 3] - '0');
            if (length - at - 4 < size)
                break;
            refused |= print_message(++number, held + at + 4, size);
            at += 4 + size;
        }
        memmove(held, held + at, length - at);
        length -= at;
        flush_text();
    }
    if (bad)
        add_text("frame refused BadLength\n");
    else if (length) {
        add_text("frame refused Truncated ");
        add_number(length);
        add_text("\n");
    }
    flush_text();
    return refused || bad || length ? 1 : 0;
}
