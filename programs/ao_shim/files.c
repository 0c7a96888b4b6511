#include "files.h"

#include <errno.h>
#include <fcntl.h>
#include <stdlib.h>
#include <string.h>
#include <sys/stat.h>
#include <unistd.h>

enum { MOST = 1 << 22 };

uint8_t *read_file(const char *path, size_t *length) {
    int fd = open(path, O_RDONLY | O_CLOEXEC);
    uint8_t *bytes = fd < 0 ? NULL : malloc(MOST + 1);
    ssize_t done = 1;
    *length = 0;
    while (bytes != NULL && done > 0 && *length <= MOST) {
        done = read(fd, bytes + *length, MOST + 1 - *length);
        if (done > 0) *length += (size_t)done;
    }
    int why = *length > MOST ? EFBIG : errno;
    if (fd >= 0) close(fd);
    if (bytes != NULL && (done < 0 || *length > MOST)) {
        forget_file(bytes, *length);
        bytes = NULL;
    }
    errno = why;
    return bytes;
}

void forget_file(uint8_t *bytes, size_t length) {
    if (bytes == NULL) return;
    explicit_bzero(bytes, length);
    free(bytes);
}

static FILE *open_new(const char *path, mode_t mode) {
    int fd = open(path, O_WRONLY | O_CREAT | O_TRUNC | O_NOFOLLOW | O_CLOEXEC, mode);
    if (fd < 0) return NULL;
    FILE *file = fchmod(fd, mode) == 0 ? fdopen(fd, "w") : NULL;
    if (file == NULL) {
        int why = errno;
        close(fd);
        errno = why;
    }
    return file;
}

bool write_file(const char *path, mode_t mode, void (*print)(FILE *file, void *with), void *with) {
    char new_path[4096];
    if (snprintf(new_path, sizeof new_path, "%s.new", path) >= (int)sizeof new_path) {
        errno = ENAMETOOLONG;
        return false;
    }
    FILE *file = open_new(new_path, mode);
    if (file == NULL) return false;
    print(file, with);
    bool whole = fflush(file) == 0 && ferror(file) == 0;
    int why = errno;
    if (fclose(file) != 0 && whole) {
        whole = false;
        why = errno;
    }
    if (whole && rename(new_path, path) == 0) return true;
    if (whole) why = errno;
    unlink(new_path);
    errno = why;
    return false;
}
