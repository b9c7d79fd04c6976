/*
 * A read and a write that stand before the C library's in a program, and go wrong on standard input and output as FAULT says:
 *   interrupted  every other call is interrupted by a signal before it moves a byte, the first among them
 *   slow         a call moves one byte
 *   broken       the second read fails
 *   full         the second write fails, and another one after that is told on standard error
 *   deaf         a write takes nothing
 *   no_input     standard input is closed before the program starts
 *   no_output    standard output is
 * It includes no header, so that it can be made for x86-64 on every machine.
 */
long syscall(long number, ...);
int *__errno_location(void);
char *getenv(const char *name);
int strcmp(const char *a, const char *b);
int close(int fd);

enum { READ = 0, WRITE = 1, INTERRUPTED = 4, BROKEN = 5, FULL = 28 };

static int is_asked(const char *fault)
{
    const char *asked = getenv("FAULT");
    return asked && strcmp(asked, fault) == 0;
}

__attribute__((constructor)) static void shut(void)
{
    if (is_asked("no_input")) close(0);
    if (is_asked("no_output")) close(1);
}

static long failed(int error)
{
    *__errno_location() = error;
    return -1;
}

/* the call as it is, or with one byte */
static long moved(long number, int fd, const void *bytes, unsigned long size)
{
    return syscall(number, fd, bytes, size > 1 && is_asked("slow") ? 1 : size);
}

long read(int fd, void *bytes, unsigned long size)
{
    static int count;
    if (fd == 0) {
        count++;
        if (count % 2 == 1 && is_asked("interrupted")) return failed(INTERRUPTED);
        if (count == 2 && is_asked("broken")) return failed(BROKEN);
    }
    return moved(READ, fd, bytes, size);
}

long write(int fd, const void *bytes, unsigned long size)
{
    static int count;
    if (fd == 1) {
        count++;
        if (count % 2 == 1 && is_asked("interrupted")) return failed(INTERRUPTED);
        if (count == 2 && is_asked("full")) return failed(FULL);
        if (count > 2 && is_asked("full")) syscall(WRITE, 2, "written after a failure\n", 24UL);
        if (is_asked("deaf")) return 0;
        return moved(WRITE, fd, bytes, size);
    }
    return syscall(WRITE, fd, bytes, size);
}

/* the C library's other name for it */
long __write(int fd, const void *bytes, unsigned long size)
{
    return write(fd, bytes, size);
}
