/* Opening, mapping and reading. */
#include "input.h"
#include "stream.h"
#include <errno.h>
#include <fcntl.h>
#include <stdlib.h>
#include <string.h>
#include <sys/mman.h>
#include <unistd.h>

static int read_to_end(input *file, int descriptor) {
    size_t room = 1 << 16, length = 0;
    uint8_t *at = malloc(room);
    while (at) {
        ssize_t got = read(descriptor, at + length, room - length);
        if (got == 0) {
            file->at = at;
            file->length = length;
            return 0;
        }
        if (got < 0 && errno == EINTR) continue;
        if (got < 0) {
            int error = errno;
            free(at);
            return error;
        }
        length += (size_t)got;
        if (length == room) {
            uint8_t *more = room <= SIZE_MAX / 2 ? realloc(at, room *= 2) : NULL;
            if (!more) free(at);
            at = more;
        }
    }
    return ENOMEM;
}

/* Files of /proc have no size and bytes all the same, and some file systems map nothing: these are read. */
static int mapped(input *file, int descriptor) {
    void *at;
    if (!S_ISREG(file->facts.st_mode) || file->facts.st_size <= 0) return 0;
    at = mmap(NULL, (size_t)file->facts.st_size, PROT_READ, MAP_PRIVATE, descriptor, 0);
    if (at == MAP_FAILED) return 0;
    file->at = at;
    file->length = (size_t)file->facts.st_size;
    file->descriptor = descriptor;
    return 1;
}

static int standard_input(void) {
    static int taken;
    if (taken) return -1;
    taken = 1;
    return dup(STDIN_FILENO);
}

int input_open(input *file, const char *path) {
    int standard = strcmp(path, "-") == 0, error = 0, descriptor;
    *file = (input){.path = path, .descriptor = -1};
    errno = 0;
    descriptor = standard ? standard_input() : open(path, O_RDONLY | O_NOCTTY | O_CLOEXEC);
    if (descriptor < 0) return errno ? trouble_of(path, errno) : trouble(path, "standard input can be read only once");
    if (fstat(descriptor, &file->facts) != 0) error = errno;
    else if (S_ISDIR(file->facts.st_mode)) error = EISDIR;
    /* Standard input may stand in the middle of a file: what is left of it is what is meant. */
    else if (!standard && mapped(file, descriptor)) return DONE;
    else error = read_to_end(file, descriptor);
    close(descriptor);
    return error ? trouble_of(path, error) : DONE;
}

int input_unchanged(const input *file) {
    struct stat now;
    if (file->descriptor < 0) return DONE;
    if (fstat(file->descriptor, &now) == 0 && now.st_size == file->facts.st_size && now.st_mtim.tv_sec == file->facts.st_mtim.tv_sec &&
        now.st_mtim.tv_nsec == file->facts.st_mtim.tv_nsec)
        return DONE;
    return trouble(file->path, "the file changed while it was read");
}

void input_close(input *file) {
    if (file->descriptor >= 0) {
        munmap((void *)file->at, file->length);
        close(file->descriptor);
    } else {
        free((void *)file->at);
    }
    *file = (input){.path = file->path, .descriptor = -1};
}
