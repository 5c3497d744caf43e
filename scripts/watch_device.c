/* Writes down what the program that it is loaded into with LD_PRELOAD has the machine do with its journals, for scripts/try_device.py: a line each in the
 * file WATCHED, of files whose paths begin with WATCHES. While there is a file HOLDS, no file's data come to be kept; while there is a file FAILS, that fails.
 * For Linux on x86-64. It declares what it calls itself: so a compiler builds it that has no headers. */

enum { WRITE = 1, OPEN = 2, CLOSE = 3, ACCESS = 21, NANOSLEEP = 35, FSYNC = 74, FDATASYNC = 75, FTRUNCATE = 77, RENAME = 82, UNLINK = 87, READLINK = 89 };
enum { APPENDS = 02001, CREATES = 0100, OWNERS = 0600, EIO = 5 };

char *getenv(const char *name);
long syscall(long number, ...);
int *__errno_location(void);

/* A line that is put together: what does not fit is left out. */
struct line {
    char text[9000];
    long length;
};

static void put(struct line *line, const char *text)
{
    while (*text && line->length < 8990)
        line->text[line->length++] = *text++;
}

static void put_number(struct line *line, unsigned long number)
{
    char digits[24];
    int at = 23;
    digits[at] = 0;
    do
        digits[--at] = '0' + number % 10;
    while (number /= 10);
    put(line, digits + at);
}

static int is_watched(const char *path)
{
    const char *begins = getenv("WATCHES");
    if (!begins)
        return 0;
    while (*begins)
        if (*begins++ != *path++)
            return 0;
    return 1;
}

static void tell(struct line *line)
{
    const char *log = getenv("WATCHED");
    long file = log ? syscall(OPEN, log, APPENDS | CREATES, OWNERS) : -1;
    put(line, "\n");
    if (file >= 0) {
        syscall(WRITE, file, line->text, line->length);
        syscall(CLOSE, file);
    }
}

/* The path of an open file, and whether it is watched. */
static int path_of(int file, char *path)
{
    struct line link = {.length = 0};
    long length;
    put(&link, "/proc/self/fd/");
    put_number(&link, file);
    length = syscall(READLINK, link.text, path, 4000L);
    path[length < 0 ? 0 : length] = 0;
    return is_watched(path);
}

static void tell_of_file(const char *what, int file, unsigned long number)
{
    char path[4001];
    struct line line = {.length = 0};
    if (!path_of(file, path))
        return;
    put(&line, what);
    put(&line, " ");
    put_number(&line, number);
    put(&line, " ");
    put(&line, path);
    tell(&line);
}

static int is_there(const char *name)
{
    const char *path = getenv(name);
    return path && syscall(ACCESS, path, 0L) == 0;
}

long write(int file, const void *bytes, unsigned long length)
{
    long done = syscall(WRITE, file, bytes, length);
    if (done > 0)
        tell_of_file("write", file, done);
    return done;
}

static int keep(long number, const char *what, int file)
{
    const long moment[2] = {0, 10000000};
    int done;
    while (is_there("HOLDS"))
        syscall(NANOSLEEP, moment, 0L);
    if (is_there("FAILS")) {
        *__errno_location() = EIO;
        return -1;
    }
    done = syscall(number, file);
    if (done == 0)
        tell_of_file(what, file, 0);
    return done;
}

int fdatasync(int file)
{
    return keep(FDATASYNC, "keep", file);
}

int fsync(int file)
{
    return keep(FSYNC, "keep", file);
}

int ftruncate(int file, long length)
{
    int done = syscall(FTRUNCATE, file, length);
    if (done == 0)
        tell_of_file("cut", file, length);
    return done;
}

int rename(const char *from, const char *to)
{
    int done = syscall(RENAME, from, to);
    struct line line = {.length = 0};
    if (done == 0 && is_watched(from)) {
        put(&line, "rename ");
        put(&line, from);
        put(&line, " ");
        put(&line, to);
        tell(&line);
    }
    return done;
}

int unlink(const char *path)
{
    int done = syscall(UNLINK, path);
    struct line line = {.length = 0};
    if (done == 0 && is_watched(path)) {
        put(&line, "remove 0 ");
        put(&line, path);
        tell(&line);
    }
    return done;
}
