/* Makes calls of a program on its files fail, and counts all. It is loaded ahead of the C library. What it calls is
 * declared here, so that the toolchain's compiler makes it with no headers.
 *
 * FAILING has five numbers for each trouble: the device, the call, the first such call on that device that meets it, how
 * many do, and what they answer: a negative error; or of reads and writes 0, or how many bytes they give or take at most.
 * MOST has for each device how many bytes each call gives or takes at most, or 0 if that is all.
 * COUNTS names a file, which gets how often each call was made on each device.
 *
 * PLANTED is the number of a mistake: the program on top of this library is then like one that makes it. */

typedef __SIZE_TYPE__ size_t;

char *getenv(const char *name);
long strtol(const char *text, char **end, int base);
long syscall(long number, ...);
void *mmap(void *at, size_t size, int protection, int flags, int file, long offset);
int *__errno_location(void);

/* The numbers of the system's calls, its flags and its errors. */
enum { READ_CALL = 0, WRITE_CALL = 1, CLOSE_CALL = 3, SEEK_CALL = 8, OPEN_CALL = 257 };
enum { FROM_HERE = -100, READ_WRITE = 2, CREATE = 0100, READABLE = 1, WRITABLE = 2, SHARED = 1 };
enum { INTERRUPTED = 4, FAILED = 5 };

/* The devices and the calls, in the order of tools/devices.py. */
enum { INPUT, REPLIES, COMPLAINT, TILE, SCRIPT, OUT, DEVICES };
enum { OPEN, READ, WRITE, SEEK, CLOSE, CALLS };

/* The mistakes, in the order of tools/failing-calls. */
enum { NO_MISTAKE, FAILED_WRITE_IS_IGNORED, SHORT_WRITE_IS_IGNORED, FAILED_READ_IS_THE_END, FAILED_CALL_IS_MADE_AGAIN,
       INTERRUPTION_IS_A_FAILURE, INTERRUPTIONS_WITHOUT_END, TILE_IS_WRITTEN_ELSEWHERE };
#ifndef PLANTED
#define PLANTED NO_MISTAKE
#endif

enum { FILES = 16, TROUBLES = 4, NUMBERS = 5 };

/* What a call that meets no trouble answers. */
static const long PASS = __LONG_MAX__;

/* The devices of the open files, each with 1 added. */
static int devices[FILES] = {INPUT + 1, REPLIES + 1, COMPLAINT + 1};
static long most[DEVICES], troubles[TROUBLES][NUMBERS];
static long none[DEVICES][CALLS], (*counts)[CALLS];
static int is_tile_open;

static void read_numbers(const char *name, long *numbers, int room) {
    char *text = getenv(name), *end = text;
    for (; text && room; text = end, room--, numbers++) {
        long number = strtol(text, &end, 10);
        if (end == text) {
            return;
        }
        *numbers = number;
    }
}

static void begin(void) {
    read_numbers("FAILING", troubles[0], TROUBLES * NUMBERS);
    read_numbers("MOST", most, DEVICES);
    const char *name = getenv("COUNTS");
    long file = name ? syscall(OPEN_CALL, FROM_HERE, name, READ_WRITE, 0) : -1;
    counts = file < 0 ? none : mmap(0, sizeof none, READABLE | WRITABLE, SHARED, file, 0);
    syscall(CLOSE_CALL, file);
}

/* Counts a call on the device, and gives what it answers. */
static long counted(int device, int call) {
    long made = ++counts[device][call];
    for (int place = 0; place < TROUBLES; place++) {
        long *trouble = troubles[place], since = made - trouble[2];
        if (trouble[0] == device && trouble[1] == call && 0 <= since && since < trouble[3]) {
            return trouble[4];
        }
    }
    return PASS;
}

/* Counts a call, and gives what a program that makes the mistake takes for its answer. */
static long answer_of(int device, int call) {
    long answer = counted(device, call);
    if (PLANTED == FAILED_CALL_IS_MADE_AGAIN && answer < 0 && answer != -INTERRUPTED) {
        answer = counted(device, call);
    }
    while (PLANTED == INTERRUPTIONS_WITHOUT_END && answer == -INTERRUPTED) {
        answer = counted(device, call);
    }
    if (PLANTED == INTERRUPTION_IS_A_FAILURE && answer == -INTERRUPTED) {
        return -FAILED;
    }
    return PLANTED == FAILED_READ_IS_THE_END && call == READ && answer < 0 ? 0 : answer;
}

static long failed(long answer) {
    *__errno_location() = -answer;
    return -1;
}

/* The device of an open file, or -1 if the program has not opened it. */
static int device_of(int file) {
    if (!counts) {
        begin();
    }
    return 0 <= file && file < FILES ? devices[file] - 1 : -1;
}

static long least(long one, long other) { return one < other ? one : other; }

/* Reads or writes: as many bytes as the device gives or takes, and none where the answer is 0. */
static long moved(int call, long number, int file, const void *bytes, long size) {
    int device = device_of(file);
    if (device < 0) {
        return syscall(number, file, bytes, size);
    }
    long answer = answer_of(device, call);
    if (answer < 0) {
        return PLANTED == FAILED_WRITE_IS_IGNORED && call == WRITE ? size : failed(answer);
    }
    long count = least(size, least(answer, most[device] ? most[device] : size));
    long done = size && !count ? 0 : syscall(number, file, bytes, count);
    return PLANTED == SHORT_WRITE_IS_IGNORED && call == WRITE && done > 0 ? size : done;
}

long read(int file, void *bytes, size_t size) { return moved(READ, READ_CALL, file, bytes, size); }

long write(int file, const void *bytes, size_t size) { return moved(WRITE, WRITE_CALL, file, bytes, size); }

long lseek(int file, long offset, int from) {
    int device = device_of(file);
    long answer = device < 0 ? PASS : answer_of(device, SEEK);
    return answer < 0 ? failed(answer) : syscall(SEEK_CALL, file, offset, (long)from);
}

/* A file is closed whatever the call answers, as the system does it. */
int close(int file) {
    int device = device_of(file);
    long answer = device < 0 ? PASS : answer_of(device, CLOSE), closed = syscall(CLOSE_CALL, file);
    if (device >= 0) {
        devices[file] = 0;
    }
    return answer < 0 ? failed(answer) : closed;
}

/* The first file that is opened to be read is TILE, the second one the script, and the one to be created OUT. */
int open(const char *name, int flags, ...) {
    __builtin_va_list rest;
    __builtin_va_start(rest, flags);
    long mode = flags & CREATE ? __builtin_va_arg(rest, int) : 0;
    __builtin_va_end(rest);
    device_of(0);
    int device = flags & CREATE ? OUT : is_tile_open ? SCRIPT : TILE;
    long answer = answer_of(device, OPEN);
    if (PLANTED == TILE_IS_WRITTEN_ELSEWHERE && device == OUT && answer < 0) {
        name = "/dev/null", answer = PASS;
    }
    long file = answer < 0 ? failed(answer) : syscall(OPEN_CALL, FROM_HERE, name, (long)flags, mode);
    if (0 <= file && file < FILES) {
        devices[file] = device + 1;
        is_tile_open |= device == TILE;
    }
    return file;
}
