/* Has the device of the program that it is loaded into with LD_PRELOAD take half a second to keep a file's data, as long as there is a file SLOW_FILE,
 * for scripts/try_connections.py. For Linux on x86-64. It declares what it calls itself: so a compiler builds it that has no headers. */

enum { ACCESS = 21, NANOSLEEP = 35, FSYNC = 74, FDATASYNC = 75 };

char *getenv(const char *name);
long syscall(long number, ...);

static void wait_for_the_device(void)
{
    const long half_a_second[2] = {0, 500000000};
    const char *file = getenv("SLOW_FILE");
    if (file && syscall(ACCESS, file, 0) == 0)
        syscall(NANOSLEEP, half_a_second, 0);
}

int fdatasync(int file)
{
    wait_for_the_device();
    return syscall(FDATASYNC, file);
}

int fsync(int file)
{
    wait_for_the_device();
    return syscall(FSYNC, file);
}
