/* Bytes, words and numbers into a buffer, and from there to a descriptor. */
#include "stream.h"
#include <errno.h>
#include <stdio.h>
#include <string.h>
#include <unistd.h>

static uint8_t out_buffer[BUFFERED], err_buffer[BUFFERED];
stream out = {.descriptor = STDOUT_FILENO, .buffer = out_buffer}, err = {.descriptor = STDERR_FILENO, .buffer = err_buffer};

static void write_all(stream *to, const uint8_t *at, size_t length) {
    while (length > 0 && to->error == 0) {
        /* No more in one call than any system takes. */
        ssize_t written = write(to->descriptor, at, length < (1 << 30) ? length : 1 << 30);
        if (written < 0) {
            if (errno != EINTR) to->error = errno;
            continue;
        }
        at += written;
        length -= (size_t)written;
    }
}

void flush(stream *of) {
    write_all(of, of->buffer, of->used);
    of->used = 0;
}

void print_bytes(stream *to, const void *at, size_t length) {
    if (length > BUFFERED - to->used) flush(to);
    if (length > BUFFERED) {
        write_all(to, at, length);
        return;
    }
    if (length > 0) memcpy(to->buffer + to->used, at, length);
    to->used += length;
}

void print_words(stream *to, const char *words) { print_bytes(to, words, strlen(words)); }

void print_number(stream *to, uint64_t number) {
    char digits[21];
    print_bytes(to, digits, (size_t)snprintf(digits, sizeof digits, "%llu", (unsigned long long)number));
}

void print_counted(stream *to, const char *before, uint64_t number, const char *after) {
    print_words(to, before);
    print_number(to, number);
    print_words(to, after);
}

void print_blanks(stream *to, size_t count) {
    for (; count > 0; count--) print_bytes(to, " ", 1);
}

static int is_plain(uint8_t byte) { return byte >= 33 && byte <= 126 && byte != '\\'; }

void print_escaped(stream *to, const uint8_t *at, size_t length) {
    for (size_t i = 0; i < length; i++) {
        static const char digits[] = "0123456789abcdef";
        char escaped[3] = {'\\', digits[at[i] / 16], digits[at[i] % 16]};
        if (is_plain(at[i])) print_bytes(to, at + i, 1);
        else print_bytes(to, escaped, sizeof escaped);
    }
}

size_t escaped_length(const uint8_t *at, size_t length) {
    size_t sum = 0;
    for (size_t i = 0; i < length; i++) sum += is_plain(at[i]) ? 1 : 3;
    return sum;
}

char last_trouble[160];

static void say(const uint8_t *about, size_t length, const char *words) {
    flush(&out);
    print_words(&err, "zt: ");
    if (about) {
        print_escaped(&err, about, length);
        print_words(&err, ": ");
    }
    print_words(&err, words);
    print_words(&err, "\n");
    flush(&err);
}

void remark(const char *path, const char *words) { say((const uint8_t *)path, path ? strlen(path) : 0, words); }

int trouble(const char *path, const char *words) {
    snprintf(last_trouble, sizeof last_trouble, "%s", words);
    remark(path, words);
    return TROUBLE;
}

int trouble_named(const uint8_t *name, size_t length, const char *words) {
    say(name, length, words);
    return TROUBLE;
}

int trouble_of(const char *path, int error) { return trouble(path, strerror(error)); }

int finish_output(void) {
    flush(&out);
    if (close(out.descriptor) != 0 && out.error == 0) out.error = errno;
    if (out.error == 0) return DONE;
    print_words(&err, "zt: standard output: ");
    print_words(&err, strerror(out.error));
    print_words(&err, "\n");
    flush(&err);
    return TROUBLE;
}
