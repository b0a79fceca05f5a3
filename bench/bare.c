/* bare IN OUT: copies a folder of directories and files by the calls that `run` makes for it, on one thread, and does
 * nothing else: each directory is listed and each entry's kind asked, in order of names; each file is read to its end; then
 * each directory is made and each file written.
 * bare --commits FILE COUNT: makes the calls by which `journal` keeps and tells so many commits of one look.
 * It stops at the first error. A bench tells its time beside the program's. */

#define _GNU_SOURCE
#include <dirent.h>
#include <fcntl.h>
#include <stdio.h>
#include <stdlib.h>
#include <string.h>
#include <sys/stat.h>
#include <unistd.h>

#define CHUNK 65536

struct entry {
    char *place; /* below the folder, from a slash on */
    int is_folder;
    size_t size;
    char *bytes;
    struct entry *next;
};

static const char *in, *out;
static struct entry *first, **last = &first;
static char buffer[CHUNK], path[3 * 4096];

static void stop(const char *what) {
    perror(what);
    exit(1);
}

static void *taken(size_t size) {
    void *room = malloc(size);
    if (!room) stop("malloc");
    return room;
}

static const char *below(const char *folder, const char *place) {
    stpcpy(stpcpy(path, folder), place);
    return path;
}

static void read_file(struct entry *it) {
    int file = open(below(in, it->place), O_RDONLY | O_CLOEXEC);
    if (file < 0) stop(path);
    for (ssize_t count; (count = read(file, buffer, CHUNK)) != 0; it->size += count) {
        if (count < 0) stop(path);
        it->bytes = realloc(it->bytes, it->size + count);
        if (!it->bytes) stop("realloc");
        memcpy(it->bytes + it->size, buffer, count);
    }
    close(file);
}

static int by_name(const void *a, const void *b) {
    return strcmp(*(char *const *)a, *(char *const *)b);
}

static void walk(const char *folder) {
    DIR *listing = opendir(below(in, folder));
    if (!listing) stop(path);
    size_t count = 0, room = 16;
    char **names = taken(room * sizeof *names);
    for (struct dirent *it; (it = readdir(listing));) {
        if (!strcmp(it->d_name, ".") || !strcmp(it->d_name, "..")) continue;
        if (count == room && !(names = realloc(names, (room *= 2) * sizeof *names))) stop("realloc");
        names[count++] = strdup(it->d_name);
    }
    closedir(listing);
    qsort(names, count, sizeof *names, by_name);
    for (size_t i = 0; i < count; i++) {
        struct stat kind;
        struct entry *it = taken(sizeof *it);
        *it = (struct entry){.place = taken(strlen(folder) + strlen(names[i]) + 2)};
        stpcpy(stpcpy(stpcpy(it->place, folder), "/"), names[i]);
        if (lstat(below(in, it->place), &kind) != 0) stop(path);
        *last = it, last = &it->next;
        if ((it->is_folder = S_ISDIR(kind.st_mode))) walk(it->place);
        else read_file(it);
    }
}

static void write_entry(const struct entry *it) {
    if (it->is_folder) {
        if (mkdir(below(out, it->place), 0777) != 0) stop(path);
        return;
    }
    int file = open(below(out, it->place), O_WRONLY | O_CREAT | O_EXCL | O_CLOEXEC, 0666);
    if (file < 0 || write(file, it->bytes, it->size) != (ssize_t)it->size) stop(path);
    close(file);
}

static void put(int file, const char *bytes, size_t size, off_t at) {
    if (at >= 0 && lseek(file, at, SEEK_SET) != at) stop("lseek");
    if (write(file, bytes, size) != (ssize_t)size) stop("write");
    if (at >= 0 && fdatasync(file) != 0) stop("fdatasync");
}

static void commit_all(const char *journal, int count) {
    int file = open(journal, O_RDWR | O_CREAT | O_CLOEXEC, 0666);
    if (file < 0) stop(journal);
    for (int i = 0; i < count; i++) {
        put(1, "look 0 \"/a\" 1000\n", 17, -1);
        put(file, "\0\0\0\0\0\0\0\0\0", 9, 9 * (off_t)i + 1);
        put(file, "\1", 1, 9 * (off_t)i);
        put(1, "settled 0 1000\n", 15, -1);
    }
    close(file);
}

int main(int count, char **words) {
    if (count == 4 && !strcmp(words[1], "--commits")) {
        commit_all(words[2], atoi(words[3]));
        return 0;
    }
    if (count != 3) return 2;
    in = words[1], out = words[2];
    walk("");
    if (mkdir(out, 0777) != 0) stop(out);
    for (const struct entry *it = first; it; it = it->next) write_entry(it);
    return 0;
}
