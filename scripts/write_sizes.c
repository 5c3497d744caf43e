/* Writes down how many bytes each write of more than 4 KiB to a file has, to the file WRITE_SIZES of the program that it is loaded into with
 * LD_PRELOAD, a line each, for scripts/try_losses.py. For Linux on x86-64. It declares what it calls itself: so a compiler builds it that has no headers. */

enum { WRITE = 1, OPEN = 2, CLOSE = 3, FSTAT = 5, FILE_KIND = 0170000, REGULAR = 0100000, MODE = 6 };
/* for writing, made where it is not there, at its end */
enum { APPEND = 01 | 0100 | 02000, OWNER = 0600 };

char *getenv(const char *name);
long syscall(long number, ...);

static int is_regular(int file)
{
    unsigned state[64] = {0};
    return syscall(FSTAT, file, state) == 0 && (state[MODE] & FILE_KIND) == REGULAR;
}

static void write_down(unsigned long count)
{
    char line[24];
    int at = sizeof line;
    const char *path = getenv("WRITE_SIZES");
    long file = path ? syscall(OPEN, path, APPEND, OWNER) : -1;
    if (file < 0)
        return;
    line[--at] = '\n';
    do
        line[--at] = '0' + count % 10;
    while (count /= 10);
    syscall(WRITE, file, line + at, sizeof line - at);
    syscall(CLOSE, file);
}

long write(int file, const void *bytes, unsigned long count)
{
    if (count > 4096 && is_regular(file))
        write_down(count);
    return syscall(WRITE, file, bytes, count);
}

long __write(int file, const void *bytes, unsigned long count)
{
    return write(file, bytes, count);
}
