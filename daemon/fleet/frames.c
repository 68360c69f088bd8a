/* The lengths that a server's answers begin with. See frames.h. */
#include "frames.h"
#include "text.h"
#include <string.h>

/* No question asks for more elements than the fields of one entry, or the digests, and others write these. A redis
 * server has no longer text. */
enum { ELEMENTS_MOST = 1 << 16, TEXT_MOST = 512 << 20, LINE_MOST = 1 << 16, LINE_END = 2 /* bytes */ };

static const char none[] = "-1";

/* Reads a length, or -1, which stands for no text or no list. */
static bool read_length(const struct frames *frames, unsigned long long most, unsigned long long *length) {
    const char *digits = frames->head + 1;
    size_t count = frames->length - 1 - LINE_END;
    *length = 0;
    if (frames->length < 1 + LINE_END || frames->length > FRAMES_HEAD || digits[count] != '\r') return false;
    bool is_none = count == strlen(none) && !memcmp(digits, none, count);
    return is_none || (count && read_digits(digits, count, most, length) == count);
}

/* Reads a whole line, which a text follows, or the next line. */
static bool read_line(struct frames *frames) {
    unsigned long long length = 0;
    bool is_good = true;
    switch (frames->head[0]) {
    case '+':
    case '-':
    case ':': break;
    case '*': is_good = read_length(frames, ELEMENTS_MOST, &length); break;
    case '$':
        is_good = read_length(frames, TEXT_MOST, &length);
        if (frames->head[1] != '-') frames->left = length + LINE_END;
        break;
    default: is_good = false;
    }
    frames->length = 0;
    return is_good;
}

/* Takes bytes of a line, the last ones of which may be the newline. */
static bool take_line(struct frames *frames, const char *bytes, size_t length) {
    for (size_t i = 0; i < length && frames->length + i < FRAMES_HEAD; i++) frames->head[frames->length + i] = bytes[i];
    frames->length += length;
    if (frames->length > LINE_MOST) return false;
    return bytes[length - 1] != '\n' || read_line(frames);
}

bool frames_take(struct frames *frames, const char *bytes, size_t length) {
    while (length) {
        const char *end = frames->left ? NULL : memchr(bytes, '\n', length);
        size_t some = end ? (size_t)(end - bytes) + 1 : length;
        if (frames->left) {
            if (some > frames->left) some = frames->left;
            frames->left -= some;
        } else if (!take_line(frames, bytes, some)) {
            return false;
        }
        bytes += some;
        length -= some;
    }
    return true;
}
