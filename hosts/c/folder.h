/* The sections of a report written into a folder, each into a file of its own that is named by its number: all of them, or the folder is as it was. No file
   of an earlier report stays among them.

   They are written into a new folder inside it first. Then each takes its place, and what stood there goes to that folder; where one cannot, those before it
   are put back. */
#include <errno.h>
#include <fcntl.h>
#include <stdio.h>
#include <stdlib.h>
#include <string.h>
#include <sys/stat.h>
#include <unistd.h>

#include "sections.h"

/* The most sections that a report can have, since a text has at most as many queries. */
enum { MOST_SECTIONS = 8 };

/* The folder and the one inside it for the work; each open or -1. */
struct folder {
    const char *path;
    char *work_path;
    int made, own, work;
};

/* What went wrong, as errno has it, and with which section; 0 for the folder itself. */
struct failure {
    int error;
    size_t section;
};

/* A file's name: a section's number, and with an ending what stood in its place. */
struct name {
    char signs[32];
};

static struct name numbered(size_t section, const char *ending) {
    struct name name;
    snprintf(name.signs, sizeof name.signs, "%zu%s", section, ending);
    return name;
}

static struct name new_name(size_t section) { return numbered(section, ""); }
static struct name former_name(size_t section) { return numbered(section, ".former"); }

static int opened(const char *path, int *folder) {
    *folder = open(path, O_RDONLY | O_DIRECTORY | O_CLOEXEC);
    return *folder < 0 ? errno : 0;
}

/* Opens both folders and makes them where that is needed. */
static int enter(struct folder *f) {
    f->made = mkdir(f->path, 0777) == 0;
    if (!f->made && errno != EEXIST)
        return errno;
    int error = opened(f->path, &f->own);
    if (error != 0)
        return error;
    if (mkdtemp(f->work_path) == NULL)
        return errno;
    error = opened(f->work_path, &f->work);
    if (error != 0)
        rmdir(f->work_path);
    return error;
}

static int write_bytes(int file, struct stretch bytes) {
    while (bytes.from < bytes.to) {
        ssize_t count = write(file, bytes.text + bytes.from, bytes.to - bytes.from);
        if (count < 0 && errno != EINTR)
            return errno;
        if (count > 0)
            bytes.from += (size_t)count;
    }
    return 0;
}

static int write_file(int folder, struct name name, struct stretch bytes) {
    int file = openat(folder, name.signs, O_WRONLY | O_CREAT | O_EXCL | O_CLOEXEC, 0666);
    if (file < 0)
        return errno;
    int error = write_bytes(file, bytes);
    return close(file) != 0 && error == 0 ? errno : error;
}

static int moved(int from, struct name name, int to, struct name other) { return renameat(from, name.signs, to, other.signs) == 0 ? 0 : errno; }

/* What stands in a section's place goes to the work folder. A folder of that name stays. */
static int clear_place(const struct folder *f, size_t section) {
    struct name own = new_name(section);
    struct stat there;
    if (fstatat(f->own, own.signs, &there, AT_SYMLINK_NOFOLLOW) != 0)
        return errno == ENOENT ? 0 : errno;
    return S_ISDIR(there.st_mode) ? EISDIR : moved(f->own, own, f->work, former_name(section));
}

static int take_place(const struct folder *f, size_t section) {
    struct name own = new_name(section);
    int error = moved(f->work, own, f->own, own);
    if (error != 0)
        moved(f->work, former_name(section), f->own, own);
    return error;
}

/* The place of a section as it was. */
static void put_back(const struct folder *f, size_t section) {
    struct name own = new_name(section);
    if (moved(f->work, former_name(section), f->own, own) == ENOENT)
        unlinkat(f->own, own.signs, 0);
}

/* Writes the sections into the work folder; how many there are. */
static struct failure write_new(const struct folder *f, struct stretch report, size_t *count) {
    struct stretch section = section_behind(report, run_line(report));
    for (*count = 0; !is_empty(section); section = section_behind(report, section)) {
        ++*count;
        int error = write_file(f->work, new_name(*count), section);
        if (error != 0)
            return (struct failure){error, *count};
    }
    return (struct failure){0, 0};
}

/* Every section takes its place, and the places behind them are empty; or all are as they were. */
static struct failure take_places(const struct folder *f, size_t count) {
    for (size_t section = 1; section <= count || section <= MOST_SECTIONS; section++) {
        int error = clear_place(f, section);
        if (error == 0 && section <= count)
            error = take_place(f, section);
        if (error != 0) {
            for (size_t before = section - 1; 0 < before; before--)
                put_back(f, before);
            return (struct failure){error, section};
        }
    }
    return (struct failure){0, 0};
}

/* Removes the work folder, with the former files where the new ones have their places; where they have not, the folder too if it was made here. */
static void leave(const struct folder *f, size_t count, int placed) {
    if (0 <= f->work) {
        for (size_t section = 1; section <= count || section <= MOST_SECTIONS; section++)
            unlinkat(f->work, (placed ? former_name(section) : new_name(section)).signs, 0);
        close(f->work);
        rmdir(f->work_path);
    }
    if (0 <= f->own)
        close(f->own);
    if (f->made && !placed)
        rmdir(f->path);
}

/* work_path is the folder's path with a template of mkdtemp. */
static struct failure write_sections(const char *path, char *work_path, struct stretch report) {
    struct folder f = {.path = path, .work_path = work_path, .own = -1, .work = -1};
    size_t count = 0;
    struct failure failure = {enter(&f), 0};
    if (failure.error == 0)
        failure = write_new(&f, report, &count);
    if (failure.error == 0)
        failure = take_places(&f, count);
    leave(&f, count, failure.error == 0);
    return failure;
}
