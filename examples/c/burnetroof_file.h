/* burnetroof_file.h: a store on a page file. The file is read whole, its pages lie in memory while the store is open, and at the end a new file takes its place:
 * the old one is there or the new one, whatever fails. The library itself opens no file, so these functions are here; they use what POSIX has.
 */
#ifndef BURNETROOF_FILE_H
#define BURNETROOF_FILE_H
#include "burnetroof.h"
#include <fcntl.h>
#include <stdio.h>
#include <stdlib.h>
#include <string.h>
#include <sys/stat.h>
#include <unistd.h>

enum {
    BRF_UNREAD = 16,  /* the file could not be read, or is no file; no store is open */
    BRF_UNKEPT = 17   /* the new file could not be written: the old one is as it was, the store is closed, and its pages stay in file->image */
};

struct brf_file {
    uint8_t *image; /* the caller frees it, at last by brf_let_file_go */
    size_t size;
};

static inline void brf_let_file_go(struct brf_file *file) {
    free(file->image);
    file->image = NULL;
    file->size = 0;
}

/* Reads all that the descriptor has into memory of its size. */
static inline int brf_read_file(int from, struct brf_file *file) {
    struct stat status;
    if (fstat(from, &status) || !S_ISREG(status.st_mode)) return -1;
    file->size = (size_t)status.st_size;
    file->image = (uint8_t *)malloc(file->size + 1);
    if (!file->image) return -1;
    for (size_t at = 0; at < file->size;) {
        ssize_t got = read(from, file->image + at, file->size - at);
        if (got <= 0) return -1;
        at += (size_t)got;
    }
    return 0;
}

/* Opens a store on a page file: the answers of brf_open, and UNREAD. But for OK nothing is held. */
static inline brf_answer brf_open_file(const char *name, uint32_t frames, brf_store *store, struct brf_file *file, struct brf_told *told) {
    int from = open(name, O_RDONLY | O_CLOEXEC);
    file->image = NULL;
    file->size = 0;
    brf_answer answer = BRF_UNREAD;
    if (from >= 0 && !brf_read_file(from, file)) answer = brf_open(file->image, file->size, frames, store, told);
    if (from >= 0) close(from);
    if (answer != BRF_OK) brf_let_file_go(file);
    return answer;
}

/* Writes the image under a new name beside the old one, and has it take the old one's name. */
static inline int brf_replace_file(const char *name, const struct brf_file *file) {
    size_t room = strlen(name) + sizeof ".XXXXXX";
    char *made = (char *)malloc(room);
    if (!made) return -1;
    snprintf(made, room, "%s.XXXXXX", name);
    int to = mkstemp(made), failed = to < 0;
    struct stat status;
    if (!failed && !stat(name, &status)) failed = fchmod(to, status.st_mode & 07777);
    for (size_t at = 0; !failed && at < file->size;) {
        ssize_t put = write(to, file->image + at, file->size - at);
        failed = put <= 0;
        if (!failed) at += (size_t)put;
    }
    failed = failed || fsync(to);
    if (to >= 0) failed = close(to) || failed;
    failed = failed || rename(made, name);
    if (failed && to >= 0) unlink(made);
    free(made);
    return failed ? -1 : 0;
}

/* Closes the store and replaces the file: the answers of brf_close, and UNKEPT. After OK the image is gone too. A page that is unwritten is none of the new
 * file's, so with counts->unwritten above 0 there is no new file either, and the answer is UNKEPT. */
static inline brf_answer brf_close_file(const char *name, brf_store *store, struct brf_file *file, struct brf_counts *counts) {
    brf_answer answer = brf_close(store, file->image, file->size, counts);
    if (answer != BRF_OK) return answer;
    if (counts->unwritten || brf_replace_file(name, file)) return BRF_UNKEPT;
    brf_let_file_go(file);
    return BRF_OK;
}
#endif
