// Reads all files below a folder for each line of standard input, compares them with those that it read for the line
// before, and writes how many there are and how many differ: what a watcher of files cannot do without.
//
//     cc -O2 -o rescan rescan.c && ./rescan FOLDER
#define _GNU_SOURCE
#include <dirent.h>
#include <fcntl.h>
#include <stdio.h>
#include <stdlib.h>
#include <string.h>
#include <sys/stat.h>
#include <unistd.h>

struct file { char *path, *bytes; size_t size; };
struct files { struct file *all; size_t count, room; };

static void *grown(void *at, size_t size) {
    void *new = realloc(at, size);
    if (!new) exit(8);
    return new;
}

static void add(struct files *files, const char *path, int from) {
    struct stat stat;
    if (fstat(from, &stat)) exit(3);
    struct file file = { strdup(path), grown(NULL, stat.st_size + 1), 0 };
    for (ssize_t got; (got = read(from, file.bytes + file.size, stat.st_size + 1 - file.size)) > 0;) file.size += got;
    if (files->count == files->room) {
        files->room = 2 * files->room + 64;
        files->all = grown(files->all, files->room * sizeof file);
    }
    files->all[files->count++] = file;
}

static void walk(struct files *files, int folder, const char *path) {
    DIR *entries = fdopendir(folder);
    if (!entries) exit(3);
    for (struct dirent *entry; (entry = readdir(entries));) {
        if (entry->d_name[0] == '.') continue;
        char *below;
        if (asprintf(&below, "%s/%s", path, entry->d_name) < 0) exit(8);
        int from = openat(folder, entry->d_name, O_RDONLY | O_CLOEXEC);
        if (from < 0) exit(3);
        if (entry->d_type == DT_DIR) walk(files, from, below);
        else add(files, below, from), close(from);
        free(below);
    }
    closedir(entries);
}

static int by_path(const void *a, const void *b) {
    return strcmp(((const struct file *)a)->path, ((const struct file *)b)->path);
}

int main(int count, char **words) {
    if (count != 2) return 2;
    struct files before = { 0 };
    for (int c; (c = getchar()) != EOF;) {
        if (c != '\n') continue;
        struct files now = { 0 };
        size_t differ = 0;
        walk(&now, open(words[1], O_RDONLY | O_DIRECTORY), words[1]);
        qsort(now.all, now.count, sizeof *now.all, by_path);
        for (size_t i = 0; i < now.count; i++) {
            struct file *old = bsearch(&now.all[i], before.all, before.count, sizeof *now.all, by_path);
            differ += !old || old->size != now.all[i].size || memcmp(old->bytes, now.all[i].bytes, old->size);
        }
        for (size_t i = 0; i < before.count; i++) free(before.all[i].path), free(before.all[i].bytes);
        free(before.all);
        before = now;
        printf("objects %zu differ %zu\n", now.count, differ);
        fflush(stdout);
    }
}
