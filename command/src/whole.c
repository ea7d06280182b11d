/* The temporary file, its mapping, and the rename. */
#include "whole.h"
#include "stream.h"
#include <errno.h>
#include <fcntl.h>
#include <signal.h>
#include <stdio.h>
#include <stdlib.h>
#include <string.h>
#include <sys/mman.h>
#include <sys/stat.h>
#include <unistd.h>

/* What a handler removes: there is one such file at a time. */
static char *volatile unfinished;

void whole_remove(void) {
    if (unfinished) unlink(unfinished);
}

/* A short name in the target's folder, so that it fits wherever the target's own does. */
static char *beside(const char *target, unsigned attempt) {
    const char *slash = strrchr(target, '/');
    size_t folder = slash ? (size_t)(slash - target) + 1 : 0, room = folder + 48;
    char *path = malloc(room);
    if (path) snprintf(path, room, "%.*s.zt-%ld-%u.tmp", (int)folder, target, (long)getpid(), attempt);
    return path;
}

/* An old file must be regular: a device or a FIFO would be replaced by a file. */
static int target_of(whole *file, struct stat *old) {
    file->target = realpath(file->path, NULL);
    old->st_mode = 0;
    if (!file->target && errno == ENOENT) {
        file->target = strdup(file->path);
        return file->target ? 0 : ENOMEM;
    }
    if (!file->target || stat(file->target, old) != 0) return errno;
    return S_ISDIR(old->st_mode) ? EISDIR : 0;
}

static int create(whole *file, const struct stat *old) {
    for (unsigned attempt = 0; attempt < 100; attempt++) {
        free(file->temporary);
        file->temporary = beside(file->target, attempt);
        if (!file->temporary) return ENOMEM;
        file->descriptor = open(file->temporary, O_RDWR | O_CREAT | O_EXCL | O_CLOEXEC, 0666);
        if (file->descriptor < 0 && errno == EEXIST) continue;
        if (file->descriptor < 0) return errno;
        unfinished = file->temporary;
        /* The old file's owner, where we may, and its mode. */
        if (old->st_mode && fchown(file->descriptor, old->st_uid, old->st_gid) != 0) errno = 0;
        if (old->st_mode && fchmod(file->descriptor, old->st_mode & 0777) != 0) return errno;
        return 0;
    }
    return EEXIST;
}

/* No signal comes between the file and the note of it. */
static int create_undisturbed(whole *file, const struct stat *old) {
    sigset_t all, before;
    int error;
    sigfillset(&all);
    sigprocmask(SIG_BLOCK, &all, &before);
    error = create(file, old);
    sigprocmask(SIG_SETMASK, &before, NULL);
    return error;
}

/* The room is taken from the disk before a byte is put there: a mapping has no other way to say that the disk is full. */
static int map(whole *file) {
    int error;
    void *at;
    if (file->room == 0) return 0;
    if (file->room > (size_t)INT64_MAX) return EFBIG;
    error = posix_fallocate(file->descriptor, 0, (off_t)file->room);
    if (error) return error;
    at = mmap(NULL, file->room, PROT_READ | PROT_WRITE, MAP_SHARED, file->descriptor, 0);
    if (at == MAP_FAILED) return errno;
    file->at = at;
    return 0;
}

int whole_open(whole *file, const char *path, size_t room) {
    struct stat old;
    int error;
    *file = (whole){.path = path, .descriptor = -1, .room = room};
    if (strcmp(path, "-") == 0) {
        file->at = malloc(room ? room : 1);
        return file->at ? DONE : trouble_of(path, ENOMEM);
    }
    error = target_of(file, &old);
    if (!error && old.st_mode && !S_ISREG(old.st_mode)) {
        whole_drop(file);
        return trouble(path, "is there already, and no regular file");
    }
    if (!error) error = create_undisturbed(file, &old);
    if (!error) error = map(file);
    if (!error) return DONE;
    whole_drop(file);
    return trouble_of(path, error);
}

static int flushed_folder(const char *target) {
    const char *slash = strrchr(target, '/');
    char *folder = slash ? strndup(target, slash == target ? 1 : (size_t)(slash - target)) : strdup(".");
    int descriptor = folder ? open(folder, O_RDONLY | O_DIRECTORY | O_CLOEXEC) : -1;
    /* Some file systems flush no folder: then there is no more to be done. */
    int error = descriptor < 0 ? errno : fsync(descriptor) != 0 && errno != EINVAL ? errno : 0;
    if (descriptor >= 0) close(descriptor);
    free(folder);
    return error;
}

static int renamed(whole *file, size_t length) {
    int descriptor = file->descriptor;
    if (file->at && munmap(file->at, file->room) != 0) return errno;
    file->at = NULL;
    if (ftruncate(descriptor, (off_t)length) != 0 || fsync(descriptor) != 0) return errno;
    file->descriptor = -1;
    if (close(descriptor) != 0) return errno;
    if (rename(file->temporary, file->target) != 0) return errno;
    unfinished = NULL;
    return flushed_folder(file->target);
}

int whole_keep(whole *file, size_t length) {
    int error = 0;
    if (!file->target) print_bytes(&out, file->at, length);
    else error = renamed(file, length);
    whole_drop(file);
    return error ? trouble_of(file->path, error) : DONE;
}

void whole_drop(whole *file) {
    whole_remove();
    unfinished = NULL;
    if (!file->target) free(file->at);
    else if (file->at) munmap(file->at, file->room);
    if (file->descriptor >= 0) close(file->descriptor);
    free(file->target);
    free(file->temporary);
    *file = (whole){.path = file->path, .descriptor = -1};
}
