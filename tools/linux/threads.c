/* The processes and threads of a fault script. Each thread waits on its seat in shared memory, does what stands there, and says so. */
#define _GNU_SOURCE
#include "guest.h"

#include <errno.h>
#include <fcntl.h>
#include <pthread.h>
#include <setjmp.h>
#include <signal.h>
#include <stdlib.h>
#include <string.h>
#include <sys/mman.h>
#include <sys/prctl.h>
#include <sys/syscall.h>
#include <sys/wait.h>
#include <time.h>
#include <unistd.h>

#ifndef MADV_PAGEOUT
#define MADV_PAGEOUT 21
#endif
#ifndef MADV_DONTNEED_LOCKED
#define MADV_DONTNEED_LOCKED 24
#endif

static __thread struct seat *mine;
static __thread sigjmp_buf back;
static __thread volatile int is_touching;

static int ends[PROCESSES];
static int has_process[PROCESSES];

char *place_of(unsigned long translation) {
    return (char *)0x200000000UL + translation * 0x200000UL;
}

static void log_signal(const siginfo_t *info) {
    int at = __atomic_fetch_add(&shared->signals, 1, __ATOMIC_SEQ_CST);
    if (at < SIGNALS) {
        shared->log[at].thread = mine->thread;
        shared->log[at].code = info->si_code;
        shared->log[at].address = (unsigned long)info->si_addr;
        shared->log[at].bits = info->si_addr_lsb;
    }
}

/* A thread without a handler, in a process where another one has one, ends the process as the default action does. */
static void on_sigbus(int number, siginfo_t *info, void *context) {
    (void)context;
    if (!mine->has_handler) {
        signal(number, SIG_DFL);
        raise(number);
        return;
    }
    log_signal(info);
    if (is_touching && info->si_code != BUS_MCEERR_AO)
        siglongjmp(back, 1);
}

static void take_handler(void) {
    struct sigaction action;
    memset(&action, 0, sizeof action);
    action.sa_sigaction = on_sigbus;
    action.sa_flags = SA_SIGINFO | SA_RESTART;
    sigaction(SIGBUS, &action, NULL);
}

/* Reads the word again and again, in user mode alone, so that a machine check meets the thread there. */
static void spin(const volatile unsigned long *word, volatile const int *stop) {
    __asm__ volatile("spin_begin: .globl spin_begin\n"
                     "1: movq (%0), %%rax\n"
                     "   cmpl $0, (%1)\n"
                     "   je 1b\n"
                     "spin_end: .globl spin_end\n"
                     :
                     : "r"(word), "r"(stop)
                     : "rax", "memory", "cc");
}

static void kernel_load(struct seat *seat, const void *word) {
    int ends_of_pipe[2];
    if (pipe(ends_of_pipe) != 0 || write(ends_of_pipe[1], word, 8) != 8) {
        seat->outcome = FAILED;
        seat->error = errno;
    } else if (read(ends_of_pipe[0], &seat->result, 8) != 8) {
        seat->outcome = FAILED;
        seat->error = errno;
    }
    close(ends_of_pipe[0]);
    close(ends_of_pipe[1]);
}

/* A thread that reads no page of the script reads this word. */
static volatile unsigned long nothing;

__attribute__((noinline)) static volatile unsigned long *word_of(const struct seat *seat) {
    char *line = place_of(seat->numbers[0]) + seat->numbers[1] * LINE_BYTES;
    return seat->numbers[0] < TRANSLATIONS ? (volatile unsigned long *)line : &nothing;
}

static void touch(struct seat *seat) {
    volatile unsigned long *const word = word_of(seat);
    if (sigsetjmp(back, 1)) {
        is_touching = 0;
        seat->is_spinning = 0;
        seat->outcome = SIGBUS_CAME;
        return;
    }
    is_touching = 1;
    if (seat->deed == SPIN) {
        seat->is_spinning = 1;
        spin(word, &seat->stop);
    }
    if (seat->deed == KLOAD)
        kernel_load(seat, (const void *)word);
    else if (seat->deed == STORE)
        *word = seat->numbers[2];
    else
        seat->result = *word;
    is_touching = 0;
    seat->is_spinning = 0;
}

static void map(struct seat *seat) {
    struct source *source = &sources[shared->translations[seat->numbers[0]].page];
    int flags = MAP_FIXED | (source->descriptor < 0 ? MAP_PRIVATE | MAP_ANONYMOUS : MAP_SHARED);
    void *at = mmap(place_of(seat->numbers[0]), PAGE_BYTES, PROT_READ | PROT_WRITE, flags, source->descriptor, source->place);
    if (at == MAP_FAILED || (source->is_locked && mlock2(at, PAGE_BYTES, MLOCK_ONFAULT) != 0)) {
        seat->outcome = FAILED;
        seat->error = errno;
    } else if (source->is_file) {
        madvise(at, PAGE_BYTES, MADV_RANDOM);
    }
}

static int is_locked(unsigned long translation) {
    return sources[shared->translations[translation].page].is_locked;
}

static void *serve(void *of);

static void call(struct seat *seat) {
    unsigned long *n = seat->numbers;
    long came = 0;
    pthread_t made;
    if (seat->deed == PRCTL)
        came = syscall(SYS_prctl, n[0], n[1], n[2], n[3], n[4]);
    else if (seat->deed == DISCARD)
        came = madvise(place_of(n[0]), PAGE_BYTES, is_locked(n[0]) ? MADV_DONTNEED_LOCKED : MADV_DONTNEED);
    else if (seat->deed == PAGE_OUT)
        came = madvise(place_of(n[0]), PAGE_BYTES, MADV_PAGEOUT);
    else
        came = -pthread_create(&made, NULL, serve, &shared->seats[n[0]]);
    if (came < 0) {
        seat->outcome = FAILED;
        seat->error = errno;
    }
    seat->result = (unsigned long)came;
}

/* What a thread does all its life. */
static void *serve(void *of) {
    mine = of;
    if (mine->has_handler)
        take_handler();
    for (;;) {
        while (sem_wait(&mine->go) != 0)
            continue;
        mine->outcome = DID;
        mine->result = 0;
        mine->error = 0;
        if (mine->deed <= SPIN)
            touch(mine);
        else if (mine->deed == MAP)
            map(mine);
        else
            call(mine);
        sem_post(&mine->done);
    }
    return NULL;
}

int first_thread(int process) {
    for (int thread = 0; thread < THREADS; thread++)
        if (shared->seats[thread].process == process)
            return thread;
    return -1;
}

int start_thread(int thread, int process, int has_handler) {
    struct seat *seat = &shared->seats[thread];
    int first = first_thread(process);
    seat->thread = thread;
    seat->process = process;
    seat->has_handler = has_handler;
    sem_init(&seat->go, 1, 0);
    sem_init(&seat->done, 1, 0);
    if (first >= 0 && has_process[process])
        return have(first, START, (unsigned long[]){(unsigned long)thread}) == DID;
    pids[process] = fork();
    has_process[process] = pids[process] > 0;
    if (pids[process] == 0) {
        prctl(PR_SET_PDEATHSIG, SIGKILL);
        serve(seat);
    }
    return pids[process] > 0;
}

void give(int thread, enum deed deed, const unsigned long *numbers) {
    struct seat *seat = &shared->seats[thread];
    seat->deed = deed;
    seat->outcome = DID;
    seat->stop = seat->is_spinning = 0;
    memcpy(seat->numbers, numbers, sizeof seat->numbers);
    sem_post(&seat->go);
}

/* Notes that a process has ended, and by which signal. */
static int has_ended(int process) {
    int status = 0;
    if (pids[process] > 0 && waitpid(pids[process], &status, WNOHANG) == pids[process]) {
        ends[process] = WIFSIGNALED(status) ? WTERMSIG(status) : -1;
        pids[process] = -1;
    }
    return pids[process] < 0;
}

enum outcome await(int thread) {
    struct seat *seat = &shared->seats[thread];
    for (int turn = 0; turn < 500; turn++) {
        struct timespec until;
        clock_gettime(CLOCK_REALTIME, &until);
        until.tv_nsec += 20000000;
        until.tv_sec += until.tv_nsec / 1000000000;
        until.tv_nsec %= 1000000000;
        if (sem_timedwait(&seat->done, &until) == 0)
            return seat->outcome;
        if (has_ended(seat->process))
            return GONE;
    }
    return STUCK;
}

enum outcome have(int thread, enum deed deed, const unsigned long *numbers) {
    unsigned long all[6] = {0};
    int count = deed == PRCTL ? 5 : deed == STORE ? 3 : deed <= SPIN ? 2 : 1;
    memcpy(all, numbers, (size_t)count * sizeof *all);
    if (has_ended(shared->seats[thread].process))
        return GONE;
    give(thread, deed, all);
    return deed == SPIN ? DID : await(thread);
}

int ended_processes(void) {
    int count = 0;
    for (int process = 0; process < PROCESSES; process++)
        count += has_process[process] && has_ended(process);
    return count;
}

void tell_ends(FILE *out) {
    for (int process = 0; process < PROCESSES; process++) {
        if (has_process[process])
            has_ended(process);
        if (ends[process] != 0) {
            fprintf(out, "ended %d %d\n", process, ends[process]);
            ends[process] = 0;
        }
    }
}
