/* For a library that copies a process in the middle of its work: moves the copy into a folder of its own. */
#include <dirent.h>
#include <fcntl.h>
#include <limits.h>
#include <stdio.h>
#include <string.h>
#include <sys/stat.h>
#include <unistd.h>

/* The descriptors that may be open in a copied process, the seconds that it may take, its status if it could not be
   moved, and the longest path. */
enum { MOST_OPEN = 64, SECONDS = 60, UNCOPIED = 97, LONGEST = 2 * PATH_MAX };

/* What a descriptor is open on: empty if it is closed. */
static const char *opened(int descriptor) {
    static char path[PATH_MAX];
    char name[32];
    snprintf(name, sizeof name, "/proc/self/fd/%d", descriptor);
    ssize_t size = readlink(name, path, sizeof path - 1);
    path[size < 0 ? 0 : size] = 0;
    return path;
}

static void must(int holds) {
    if (!holds)
        _exit(UNCOPIED);
}

static void copy_file(const char *from, const char *to) {
    static char block[65536];
    int source = open(from, O_RDONLY), target = open(to, O_WRONLY | O_CREAT | O_TRUNC, 0600);
    must(source >= 0 && target >= 0);
    for (ssize_t size; (size = read(source, block, sizeof block)) != 0;)
        must(size > 0 && write(target, block, (size_t)size) == size);
    close(source);
    close(target);
}

/* Copies the files of a folder. A link is made again. */
static void copy_folder(const char *from, const char *to) {
    static char source[LONGEST], target[LONGEST], link[PATH_MAX];
    DIR *folder = opendir(from);
    must(folder && !mkdir(to, 0700));
    for (struct dirent *entry; (entry = readdir(folder));) {
        if (!strcmp(entry->d_name, ".") || !strcmp(entry->d_name, ".."))
            continue;
        snprintf(source, sizeof source, "%s/%s", from, entry->d_name);
        snprintf(target, sizeof target, "%s/%s", to, entry->d_name);
        ssize_t size = readlink(source, link, sizeof link - 1);
        if (size < 0) {
            copy_file(source, target);
        } else {
            link[size] = 0;
            must(!symlink(link, target));
        }
    }
    closedir(folder);
}

/* Moves this process into the copy COPIES/NUMBER of its folder. It opens each of its files again at its place, one of the
   folder in the copy, since a copied process would share the place in a file. */
static void move_to_copy(const char *folder, const char *copies, unsigned long number) {
    static char copy[PATH_MAX], target[LONGEST];
    size_t size = strlen(folder);
    snprintf(copy, sizeof copy, "%s/%lu", copies, number);
    copy_folder(folder, copy);
    for (int descriptor = 0; descriptor < MOST_OPEN; descriptor++) {
        const char *path = opened(descriptor);
        if (path[0] != '/')
            continue;
        int is_copied = !strncmp(path, folder, size) && path[size] == '/';
        snprintf(target, sizeof target, "%s%s", is_copied ? copy : "", is_copied ? path + size : path);
        int flags = fcntl(descriptor, F_GETFL), again = open(target, flags & ~(O_CREAT | O_EXCL | O_TRUNC));
        must(again >= 0 && lseek(again, lseek(descriptor, 0, SEEK_CUR), SEEK_SET) >= 0);
        must(dup2(again, descriptor) == descriptor && !close(again));
    }
    static char here[PATH_MAX];
    if (getcwd(here, sizeof here) && !strcmp(here, folder))
        must(!chdir(copy));
}
