/* The first program of the machine that tools/linux/run boots. It takes orders over the second serial line, a line each, and
 * answers each with what came of it: the signals, the processes that ended, the kernel's log, the poison count, and last a line
 * that begins with `=`. The functions has_made and run have the orders: a word, and numbers as a script has them. */
#define _GNU_SOURCE
#include "guest.h"

#include <errno.h>
#include <fcntl.h>
#include <stdlib.h>
#include <string.h>
#include <sys/mman.h>
#include <sys/mount.h>
#include <sys/stat.h>
#include <sys/swap.h>
#include <sys/syscall.h>
#include <termios.h>
#include <time.h>
#include <unistd.h>

#define INJECT "/sys/kernel/debug/hwpoison/corrupt-pfn"
#define UNPOISON "/sys/kernel/debug/hwpoison/unpoison-pfn"
#define SOFT "/sys/devices/system/memory/soft_offline_page"

enum { FILE_PAGES = 256, WORDS = 9, BUDDY = 10, RESERVED = 32, GIVEN = 512, MOST_FRAMES = 1 << 17 };

struct shared *shared;
struct source sources[PAGES];
int translation_count;
pid_t pids[PROCESSES];

static FILE *in, *out;
static int files[FILES][PROCESSORS + 1];
static int kernel_log, told_signals, sent_signals;
static unsigned long given[GIVEN];
static int given_count;

static void answer(const char *text) {
    fprintf(out, "= %s\n", text);
}

static void answer_number(const char *text, unsigned long number) {
    fprintf(out, "= %s %lu\n", text, number);
}

/* Writes a text to a file of the kernel's: 0, or the error. */
static int put(const char *path, const char *text) {
    int file = open(path, O_WRONLY);
    int error = file < 0 || write(file, text, strlen(text)) < 0 ? errno : 0;
    if (file >= 0)
        close(file);
    return error;
}

static int put_number(const char *path, const char *form, unsigned long number) {
    char text[32];
    snprintf(text, sizeof text, form, number);
    return put(path, text);
}

/* A word of a file of 64-bit words: 0 where it has none. */
static unsigned long word_of(const char *path, unsigned long number) {
    unsigned long word = 0;
    int file = open(path, O_RDONLY);
    if (file < 0 || pread(file, &word, 8, (off_t)(number * 8)) != 8)
        word = 0;
    close(file);
    return word;
}

/* The frame that an address of a process leads to, or 0. */
static unsigned long frame_at(pid_t pid, const void *address) {
    char path[64];
    snprintf(path, sizeof path, "/proc/%d/pagemap", (int)pid);
    unsigned long word = word_of(path, (unsigned long)address / PAGE_BYTES);
    return word >> 63 ? word & ((1UL << 55) - 1) : 0;
}

/* The frame of a page that no process maps: it is mapped here for a moment, if it is in memory. */
static unsigned long frame_unmapped(const struct source *source) {
    unsigned char is_there = 0;
    unsigned long frame = 0;
    char *at = mmap(NULL, PAGE_BYTES, PROT_READ, MAP_SHARED, source->descriptor, source->place);
    if (at == MAP_FAILED)
        return 0;
    madvise(at, PAGE_BYTES, MADV_RANDOM);
    if (mincore(at, PAGE_BYTES, &is_there) == 0 && is_there & 1) {
        (void)*(volatile char *)at;
        frame = frame_at(getpid(), at);
    }
    munmap(at, PAGE_BYTES);
    return frame;
}

static unsigned long frame_of(unsigned long page) {
    unsigned long frame = 0;
    for (int t = 0; t < translation_count && frame == 0; t++)
        if ((unsigned long)shared->translations[t].page == page && pids[shared->translations[t].process] > 0)
            frame = frame_at(pids[shared->translations[t].process], place_of((unsigned long)t));
    if (frame == 0 && sources[page].descriptor >= 0)
        frame = frame_unmapped(&sources[page]);
    return frame;
}

static int is_given(unsigned long frame) {
    for (int i = 0; i < given_count; i++)
        if (given[i] == frame)
            return 1;
    return 0;
}

/* The highest frame below `above` whose word of /proc/kpageflags has this flag, and that was not given before. The words are read in
 * blocks: there are many. */
static unsigned long frame_below(int file, unsigned long above, int flag) {
    static unsigned long words[512];
    for (unsigned long block = above / 512; block-- > 0;) {
        if (pread(file, words, sizeof words, (off_t)(block * sizeof words)) != sizeof words)
            continue;
        for (unsigned long at = 512; at-- > 0;)
            if (words[at] >> flag & 1 && !is_given(block * 512 + at))
                return block * 512 + at;
    }
    return 0;
}

static unsigned long frame_with(int flag) {
    int file = open("/proc/kpageflags", O_RDONLY);
    unsigned long frame = given_count < GIVEN ? frame_below(file, MOST_FRAMES, flag) : 0;
    close(file);
    if (frame != 0)
        given[given_count++] = frame;
    return frame;
}

static void rest(long milliseconds) {
    struct timespec time = {milliseconds / 1000, milliseconds % 1000 * 1000000};
    nanosleep(&time, NULL);
}

static void tell_signals(void) {
    for (; told_signals < shared->signals && told_signals < SIGNALS; told_signals++) {
        struct signalled *s = &shared->log[told_signals];
        unsigned long translation = (s->address - (unsigned long)place_of(0)) / 0x200000UL;
        fprintf(out, "signal %d %d %ld %d\n", s->thread, s->code, s->address < (unsigned long)place_of(0) ? -1 : (long)translation, s->bits);
    }
}

/* Writes what the kernel's log has about memory failures since it was last read: how many have been dealt with. */
static int tell_log(void) {
    static const char *const about[] = {"emory failure:", "oft offline", "soft_offline", "npoison", "emory error", "achine check", "poison in user", NULL};
    char record[2048];
    int over = 0;
    for (ssize_t length; (length = read(kernel_log, record, sizeof record - 1)) > 0;) {
        record[length] = 0;
        record[strcspn(record, "\n")] = 0;
        char *text = strchr(record, ';');
        for (int i = 0; text && about[i]; i++) {
            if (strstr(text, about[i])) {
                fprintf(out, "log %s\n", text + 1);
                sent_signals += strstr(text, "Sending SIGBUS") || strstr(text, "Killing ");
                over += strstr(text, "recovery action") || strstr(text, "already") || strstr(text, "outside");
                break;
            }
        }
    }
    return over;
}

static void tell_count(void) {
    char line[128];
    long kilobytes = 0;
    FILE *file = fopen("/proc/meminfo", "r");
    while (file && fgets(line, sizeof line, file))
        sscanf(line, "HardwareCorrupted: %ld", &kilobytes);
    if (file)
        fclose(file);
    fprintf(out, "count %ld\n", kilobytes / 4);
}

static void tell(void) {
    tell_signals();
    tell_ends(out);
    tell_log();
    tell_count();
}

static void answer_deed(int thread, enum outcome outcome) {
    struct seat *seat = &shared->seats[thread];
    rest(1);
    tell();
    if (outcome == DID)
        answer_number("did", seat->result);
    else if (outcome == FAILED)
        answer_number("error", (unsigned long)seat->error);
    else
        answer(outcome == SIGBUS_CAME ? "sigbus" : outcome == GONE ? "gone" : "stuck");
}

/* Opens a file of the script: a descriptor for each processor, and one for its content. */
static void make_file(const unsigned long *n) {
    char path[32];
    snprintf(path, sizeof path, "/files/%lu", n[0]);
    int content = open(path, O_RDWR | O_CREAT | O_TRUNC, 0600);
    files[n[0]][PROCESSORS] = content;
    if (content < 0 || ftruncate(content, FILE_PAGES * PAGE_BYTES) != 0)
        answer_number("error", (unsigned long)errno);
    else
        answer("did");
}

/* page Q KIND FILE FILL LOCKED: kind 0 is private memory, 1 shared memory, 2 a page of a file. */
static void make_page(const unsigned long *n) {
    unsigned long words[PAGE_BYTES / 8];
    struct source *source = &sources[n[0]];
    source->descriptor = n[1] == 0 ? -1 : n[1] == 1 ? (int)syscall(SYS_memfd_create, "page", 0) : files[n[2]][PROCESSORS];
    source->place = n[1] == 2 ? (off_t)(n[0] * PAGE_BYTES) : 0;
    source->is_file = n[1] == 2;
    source->is_locked = n[4] != 0;
    for (int i = 0; i < PAGE_BYTES / 8; i++)
        words[i] = n[3];
    int is_wrong = n[1] == 1 ? ftruncate(source->descriptor, PAGE_BYTES) != 0
                   : n[1] == 2 ? pwrite(source->descriptor, words, PAGE_BYTES, source->place) != PAGE_BYTES
                               : 0;
    answer(is_wrong ? "error" : "did");
}

/* The files' pages reach the disk and leave memory; then each processor opens each file. */
static void settle_files(const unsigned long *n) {
    char path[32];
    for (int file = 0; file < FILES; file++) {
        int content = files[file][PROCESSORS];
        if (content <= 0)
            continue;
        fsync(content);
        posix_fadvise(content, 0, 0, POSIX_FADV_DONTNEED);
        snprintf(path, sizeof path, "/files/%d", file);
        for (unsigned long processor = 0; processor < n[0]; processor++)
            files[file][processor] = open(path, O_RDWR);
    }
    answer("did");
}

static void make_translation(const unsigned long *n) {
    shared->translations[n[0]] = (struct translation){(int)n[1], (int)n[2]};
    translation_count = (int)n[0] + 1;
    int thread = first_thread((int)n[1]);
    if (thread < 0)
        answer("did");
    else
        answer_deed(thread, have(thread, MAP, n));
}

static void give_back(const unsigned long *n, enum deed deed) {
    int thread = first_thread(shared->translations[n[0]].process);
    answer_deed(thread, thread < 0 ? GONE : have(thread, deed, n));
}

/* sync Q: writes a page of a file back, and waits for that, by a descriptor that no processor has. If it is told of an older loss, the
 * second call says what came of this one. */
static void sync_page(const unsigned long *n) {
    struct source *source = &sources[n[0]];
    unsigned int all = SYNC_FILE_RANGE_WAIT_BEFORE | SYNC_FILE_RANGE_WRITE | SYNC_FILE_RANGE_WAIT_AFTER;
    int came = sync_file_range(source->descriptor, source->place, PAGE_BYTES, all);
    if (came != 0 && errno == EIO)
        came = sync_file_range(source->descriptor, source->place, PAGE_BYTES, all);
    unsigned long error = came == 0 ? 0 : (unsigned long)errno;
    tell();
    answer_number(error == 0 ? "did" : "error", error);
}

/* fsync N C: the error that the processor's descriptor has to tell; nothing is written back. */
static void tell_losses(const unsigned long *n) {
    int came = sync_file_range(files[n[0]][n[1]], 0, 0, SYNC_FILE_RANGE_WAIT_BEFORE);
    unsigned long error = came == 0 ? 0 : (unsigned long)errno;
    tell();
    answer_number(error == 0 ? "did" : "error", error);
}

/* open N C: the processor gives its descriptor back, and opens the file anew. */
static void open_anew(const unsigned long *n) {
    char path[32];
    snprintf(path, sizeof path, "/files/%lu", n[0]);
    close(files[n[0]][n[1]]);
    int file = files[n[0]][n[1]] = open(path, O_RDWR);
    unsigned long error = file >= 0 ? 0 : (unsigned long)errno;
    tell();
    answer_number(error == 0 ? "did" : "error", error);
}

static void drop_page(const unsigned long *n) {
    int came = posix_fadvise(sources[n[0]].descriptor, sources[n[0]].place, PAGE_BYTES, POSIX_FADV_DONTNEED);
    tell();
    answer_number(came == 0 ? "did" : "error", (unsigned long)came);
}

/* Waits until each signal that the kernel sent has come to a handler, or has ended a process. */
static void wait_for_signals(void) {
    rest(5);
    tell_log();
    for (int turn = 0; turn < 100 && shared->signals + ended_processes() < sent_signals; turn++)
        rest(10);
    sent_signals = shared->signals + ended_processes();
}

static void have_failed(const char *path, const char *form, unsigned long number) {
    int error = put_number(path, form, number);
    wait_for_signals();
    tell();
    answer_number(error == 0 ? "did" : "error", (unsigned long)error);
}

/* Waits for the line that says that the machine check was raised and how many failures hwp has by it, and for those here; and some time
 * longer, for others. */
static void wait_for_check(void) {
    char line[64];
    fflush(out);
    int left = fgets(line, sizeof line, in) ? atoi(line) : 0;
    for (int turn = 0; turn < 40 && left > 0; turn++) {
        rest(50);
        left -= tell_log();
    }
    rest(100);
    wait_for_signals();
}

static void spin_thread(const unsigned long *n) {
    int thread = (int)n[0];
    struct seat *seat = &shared->seats[thread];
    if (have(thread, SPIN, n + 1) == GONE) {
        answer_deed(thread, GONE);
        return;
    }
    for (int turn = 0; turn < 1000 && !seat->is_spinning && seat->outcome == DID; turn++)
        rest(1);
    if (seat->is_spinning) {
        fprintf(out, "spins %lx %lx\n", (unsigned long)spin_begin, (unsigned long)spin_end);
        wait_for_check();
    }
    seat->stop = 1;
    answer_deed(thread, await(thread));
}

static void idle(void) {
    fprintf(out, "idles\n");
    wait_for_check();
    tell();
    answer("did");
}

/* The orders that make what the script declares; true if it is one. */
static int has_made(const char *order, const unsigned long *n) {
    if (!strcmp(order, "file"))
        make_file(n);
    else if (!strcmp(order, "page"))
        make_page(n);
    else if (!strcmp(order, "settle"))
        settle_files(n);
    else if (!strcmp(order, "thread"))
        answer(start_thread((int)n[0], (int)n[1], (int)n[2]) ? "did" : "error");
    else if (!strcmp(order, "trans"))
        make_translation(n);
    else if (!strcmp(order, "recovery"))
        answer_number("did", (unsigned long)put_number("/proc/sys/vm/memory_failure_recovery", "%lu", n[0]));
    else if (!strcmp(order, "early"))
        answer_number("did", (unsigned long)put_number("/proc/sys/vm/memory_failure_early_kill", "%lu", n[0]));
    else if (!strcmp(order, "frame"))
        answer_number("frame", frame_of(n[0]));
    else if (!strcmp(order, "unused"))
        answer_number("frame", frame_with(BUDDY));
    else if (!strcmp(order, "reserved"))
        answer_number("frame", frame_with(RESERVED));
    else
        return 0;
    return 1;
}

/* The orders that are commands of the script. */
static void run(const char *order, const unsigned long *n) {
    int thread = (int)(n[0] % THREADS);
    if (!strcmp(order, "load"))
        answer_deed(thread, have(thread, LOAD, n + 1));
    else if (!strcmp(order, "store"))
        answer_deed(thread, have(thread, STORE, n + 1));
    else if (!strcmp(order, "kload"))
        answer_deed(thread, have(thread, KLOAD, n + 1));
    else if (!strcmp(order, "prctl"))
        answer_deed(thread, have(thread, PRCTL, n + 1));
    else if (!strcmp(order, "discard"))
        give_back(n, DISCARD);
    else if (!strcmp(order, "pageout"))
        give_back(n, PAGE_OUT);
    else if (!strcmp(order, "drop"))
        drop_page(n);
    else if (!strcmp(order, "sync"))
        sync_page(n);
    else if (!strcmp(order, "fsync"))
        tell_losses(n);
    else if (!strcmp(order, "open"))
        open_anew(n);
    else if (!strcmp(order, "inject"))
        have_failed(INJECT, "%lu", n[0]);
    else if (!strcmp(order, "unpoison"))
        have_failed(UNPOISON, "%lu", n[0]);
    else if (!strcmp(order, "soft"))
        have_failed(SOFT, "0x%lx", n[0] * PAGE_BYTES);
    else if (!strcmp(order, "spin"))
        spin_thread(n);
    else if (!strcmp(order, "idle"))
        idle();
    else
        answer("unknown");
}

static void load_modules(void) {
    char name[64];
    FILE *list = fopen("/modules/list", "r");
    while (list && fscanf(list, "%63s", name) == 1) {
        int file = open(name, O_RDONLY);
        if (file < 0 || (syscall(SYS_finit_module, file, "", 0) != 0 && errno != EEXIST))
            fprintf(out, "module %s: %s\n", name, strerror(errno));
        close(file);
    }
}

/* Makes the second disk a swap area, whose header has one version, its last page and no bad ones, and uses it. */
static void use_swap(unsigned int pages) {
    unsigned int header[PAGE_BYTES / 4] = {0};
    header[256] = 1;
    header[257] = pages - 1;
    memcpy((char *)header + PAGE_BYTES - 10, "SWAPSPACE2", 10);
    int disk = open("/dev/vdb", O_RDWR);
    if (disk < 0 || write(disk, header, PAGE_BYTES) != PAGE_BYTES || fsync(disk) != 0 || swapon("/dev/vdb", 0) != 0)
        fprintf(out, "swap: %s\n", strerror(errno));
    close(disk);
}

static void set_up(void) {
    mkdir("/proc", 0755), mkdir("/sys", 0755), mkdir("/dev", 0755), mkdir("/files", 0755);
    mount("proc", "/proc", "proc", 0, NULL);
    mount("sysfs", "/sys", "sysfs", 0, NULL);
    mount("devtmpfs", "/dev", "devtmpfs", 0, NULL);
    mount("debugfs", "/sys/kernel/debug", "debugfs", 0, NULL);
    int line = open("/dev/ttyS1", O_RDWR | O_NOCTTY);
    struct termios raw;
    tcgetattr(line, &raw);
    cfmakeraw(&raw);
    cfsetspeed(&raw, B115200);
    tcsetattr(line, TCSANOW, &raw);
    in = fdopen(line, "r");
    out = fdopen(dup(line), "w");
    setvbuf(out, NULL, _IOFBF, 65536);
    load_modules();
    put("/sys/kernel/mm/transparent_hugepage/enabled", "never");
    put("/sys/block/vda/queue/read_ahead_kb", "0");
    put("/proc/sys/vm/page-cluster", "0");
    put("/proc/sys/vm/dirty_writeback_centisecs", "0");
    put("/sys/devices/system/machinecheck/machinecheck0/check_interval", "0");
    if (mount("/dev/vda", "/files", "ext4", 0, NULL) != 0)
        fprintf(out, "files: %s\n", strerror(errno));
    use_swap(4096);
    kernel_log = open("/dev/kmsg", O_RDONLY | O_NONBLOCK);
    lseek(kernel_log, 0, SEEK_END);
}

int main(void) {
    char line[256], order[16];
    set_up();
    shared = mmap(NULL, sizeof *shared, PROT_READ | PROT_WRITE, MAP_SHARED | MAP_ANONYMOUS, -1, 0);
    for (int thread = 0; thread < THREADS; thread++)
        shared->seats[thread].process = -1;
    fprintf(out, "= ready\n");
    fflush(out);
    while (fgets(line, sizeof line, in)) {
        unsigned long n[WORDS] = {0};
        if (sscanf(line, "%15s %lu %lu %lu %lu %lu %lu %lu %lu %lu", order, n, n + 1, n + 2, n + 3, n + 4, n + 5, n + 6, n + 7, n + 8) < 1)
            continue;
        if (!has_made(order, n))
            run(order, n);
        fflush(out);
    }
    return 0;
}
