/* What the two halves of the guest program share: guest.c takes the orders, threads.c runs them in processes and threads. */
#ifndef GUEST_H
#define GUEST_H

#include <semaphore.h>
#include <stdio.h>
#include <sys/types.h>

enum { THREADS = 32, PROCESSES = 16, TRANSLATIONS = 512, PAGES = 256, FILES = 16, PROCESSORS = 16, SIGNALS = 256 };

enum { PAGE_BYTES = 4096, LINE_BYTES = 64 };

/* A deed that a thread is to do, and what came of it. `result` is the word or the value of a call, `error` its errno. */
enum deed { LOAD, STORE, KLOAD, SPIN, PRCTL, DISCARD, PAGE_OUT, MAP, START };

enum outcome { DID, SIGBUS_CAME, FAILED, GONE, STUCK };

struct seat {
    sem_t go, done;
    enum deed deed;
    unsigned long numbers[6];
    enum outcome outcome;
    unsigned long result;
    int error;
    int thread, process;
    int has_handler;
    volatile int is_spinning, stop;
};

/* A SIGBUS that a handler was called with. */
struct signalled {
    int thread, code, bits;
    unsigned long address;
};

struct translation {
    int process, page;
};

/* What all processes share. */
struct shared {
    struct translation translations[TRANSLATIONS];
    struct seat seats[THREADS];
    int signals;
    struct signalled log[SIGNALS];
};

/* A page of the script: the descriptor that maps it and its place there, or descriptor -1 for private memory. */
struct source {
    int descriptor;
    off_t place;
    int is_file, is_locked;
};

extern struct shared *shared;
extern struct source sources[PAGES];
extern int translation_count;
extern pid_t pids[PROCESSES];

/* Where a translation lies in its process. */
char *place_of(unsigned long translation);

/* Makes the process of a thread, or the thread in its process; true when it is there. */
int start_thread(int thread, int process, int has_handler);

/* Has a thread do a deed, and waits for it; `is_waiting` false returns at once. */
void give(int thread, enum deed deed, const unsigned long *numbers);
enum outcome await(int thread);
enum outcome have(int thread, enum deed deed, const unsigned long *numbers);

/* The first thread of a process, or -1. */
int first_thread(int process);

/* How many processes have ended. */
int ended_processes(void);

/* Writes a line for each process that has ended since it was last called. */
void tell_ends(FILE *out);

/* The loop in which a thread reads a word until it is stopped: its first and its last byte of code. */
extern char spin_begin[], spin_end[];

#endif
