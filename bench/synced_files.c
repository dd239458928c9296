// A library that a command is started with (LD_PRELOAD), so that each file which it has open for writing is synced when it is
// closed: what the command costs where its files are to outlast a crash. bench/install.sh compiles and uses it.
#define _GNU_SOURCE
#include <dlfcn.h>
#include <fcntl.h>
#include <sys/stat.h>
#include <unistd.h>

int close(int file) {
    static int (*next_close)(int);
    struct stat entry;
    int flags = fcntl(file, F_GETFL);
    if (flags >= 0 && (flags & O_ACCMODE) != O_RDONLY && fstat(file, &entry) == 0 && S_ISREG(entry.st_mode)) fsync(file);
    if (!next_close) next_close = (int (*)(int))dlsym(RTLD_NEXT, "close");
    return next_close(file);
}
