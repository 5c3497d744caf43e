/* Has standard input give, and standard output take, one byte a call, and fails the N-th such call of the program that it is loaded into with
 * LD_PRELOAD, for scripts/try_damage.py. FAIL_READ and FAIL_WRITE are N, 0 or missing for never. With INTERRUPT each other call of both is
 * interrupted. For Linux on x86-64. It declares what it calls itself: so a compiler builds it that has no headers. */

enum { READ = 0, WRITE = 1, INTERRUPTED = 4, DEVICE = 5 };

char *getenv(const char *name);
long atol(const char *text);
long syscall(long number, ...);
int *__errno_location(void);

/* Whether this call fails, counted from the number that a variable has. */
static int fails(const char *variable, long *left)
{
    if (*left == 0) {
        const char *number = getenv(variable);
        *left = number ? atol(number) : 0;
        if (*left == 0)
            *left = -1;
    }
    if (*left < 0 || --*left > 0)
        return 0;
    *left = -1;
    *__errno_location() = DEVICE;
    return 1;
}

/* Whether this call is interrupted, which each other one is. */
static int is_interrupted(int *now)
{
    *now = getenv("INTERRUPT") && !*now;
    if (*now)
        *__errno_location() = INTERRUPTED;
    return *now;
}

long read(int file, void *bytes, unsigned long count)
{
    static long left;
    static int now;
    if (file == 0 && (is_interrupted(&now) || fails("FAIL_READ", &left)))
        return -1;
    return syscall(READ, file, bytes, file == 0 && count > 1 ? 1 : count);
}

long write(int file, const void *bytes, unsigned long count)
{
    static long left;
    static int now;
    if (file == 1 && (is_interrupted(&now) || fails("FAIL_WRITE", &left)))
        return -1;
    return syscall(WRITE, file, bytes, file == 1 && count > 1 ? 1 : count);
}

long __write(int file, const void *bytes, unsigned long count)
{
    return write(file, bytes, count);
}
