/* Files that are written whole or not at all: NAME.new is written, and takes the place of NAME once it
 * is on the disk. What stands there and is no file, as a pipe or a device, stays as it is. Needs POSIX:
 * a program defines _POSIX_C_SOURCE before it includes anything.
 */
#ifndef WATCH_WHOLE_H
#define WATCH_WHOLE_H

#include <errno.h>
#include <stdbool.h>
#include <stdio.h>
#include <sys/stat.h>
#include <unistd.h>

/* NAME.new, or an empty text where the name is too long. */
static const char *whole_new(const char *name)
{
    static char path[4096];
    if (snprintf(path, sizeof path, "%s.new", name) >= (int)sizeof path)
        path[0] = '\0';
    return path;
}

/* Opens NAME.new; NULL where that cannot be done, or what stands at NAME is no file. */
static FILE *whole_begin(const char *name)
{
    struct stat found;
    if (stat(name, &found) == 0 && !S_ISREG(found.st_mode))
        return NULL;
    return fopen(whole_new(name), "wb");
}

/* Ends NAME.new; where false, it is gone and NAME as before. */
static bool whole_end(FILE *file, const char *name)
{
    bool good = !ferror(file) && fflush(file) == 0 && (fsync(fileno(file)) == 0 || errno == EINVAL);
    good = fclose(file) == 0 && good;
    if (!good)
        remove(whole_new(name));
    return good;
}

/* Puts NAME.new in the place of NAME. */
static bool whole_put(const char *name)
{
    if (rename(whole_new(name), name) == 0)
        return true;
    remove(whole_new(name));
    return false;
}

#endif
