// Runs a program, and makes chosen reads of its standard input and writes of its standard output fail or move fewer bytes.
//
//     faults FAULT.. -- PROGRAM ARGUMENT..
//
// A fault is CALL:WHICH:WHAT:N. CALL is `read` or `write`; WHICH is the call's number, counted from 1, or `odd` or `all`;
// WHAT is `errno` (the call is not made and fails with the error N) or `most` (it is asked for at most N bytes). Both may
// apply to one call; then it fails.
//
// It ends with the program's own status, or 128 and the signal's number. It ends with 99, and says why, where it can't
// trace its own child, where a fault with a number was never met, and where the program reads or writes on after a call
// that was made to fail with any error but EINTR.
#include <errno.h>
#include <signal.h>
#include <stdarg.h>
#include <stdio.h>
#include <stdlib.h>
#include <string.h>
#include <sys/ptrace.h>
#include <sys/syscall.h>
#include <sys/user.h>
#include <sys/wait.h>
#include <unistd.h>

#ifndef __x86_64__
#error "the registers of a call are those of x86-64, for which the toolchain compiles"
#endif

enum { BROKEN = 99, MOST_FAULTS = 32, EACH = -1, ODD = -2 };

struct fault {
    char call; // 'r' or 'w'
    long which;
    int fails;
    long n;
    int met;
};

static struct fault faults[MOST_FAULTS];
static int fault_count;

static void broken(const char *format, ...) {
    va_list words;
    va_start(words, format);
    fputs("faults: ", stderr);
    vfprintf(stderr, format, words);
    fputc('\n', stderr);
    exit(BROKEN);
}

static long number(const char *text) {
    char *end;
    long n = strtol(text, &end, 10);
    if (end == text || *end || n < 0) broken("%s is no number", text);
    return n;
}

static void add_fault(char *word) {
    char *parts[4];
    for (int i = 0; i < 4; i++) parts[i] = strtok(i ? NULL : word, ":");
    if (!parts[3] || strtok(NULL, ":")) broken("a fault is CALL:WHICH:WHAT:N");
    if (fault_count == MOST_FAULTS) broken("too many faults");
    struct fault *f = &faults[fault_count++];
    if (strcmp(parts[0], "read") && strcmp(parts[0], "write")) broken("%s is no call", parts[0]);
    if (strcmp(parts[2], "errno") && strcmp(parts[2], "most")) broken("%s is no fault", parts[2]);
    f->call = *parts[0];
    f->which = !strcmp(parts[1], "all") ? EACH : !strcmp(parts[1], "odd") ? ODD : number(parts[1]);
    f->fails = !strcmp(parts[2], "errno");
    f->n = number(parts[3]);
}

static int concerns(const struct fault *f, char call, long count) {
    return f->call == call && (f->which == EACH || (f->which == ODD && count % 2) || f->which == count);
}

// Lets the program run to where its next call begins or ends. Where the program has ended, so does this.
static void go_on(pid_t child) {
    int sig = 0;
    for (;;) {
        int status;
        if (ptrace(PTRACE_SYSCALL, child, 0, sig) || waitpid(child, &status, 0) < 0) broken("the trace broke off: %s", strerror(errno));
        if (WIFEXITED(status) || WIFSIGNALED(status)) {
            for (int i = 0; i < fault_count; i++)
                if (faults[i].which > 0 && !faults[i].met) broken("there was no %c number %ld", faults[i].call, faults[i].which);
            exit(WIFEXITED(status) ? WEXITSTATUS(status) : 128 + WTERMSIG(status));
        }
        if (WSTOPSIG(status) == (SIGTRAP | 0x80)) return;
        sig = WSTOPSIG(status) == SIGTRAP ? 0 : WSTOPSIG(status);
    }
}

static void registers(pid_t child, struct user_regs_struct *regs) {
    if (ptrace(PTRACE_GETREGS, child, 0, regs)) broken("no registers: %s", strerror(errno));
}

static void set_registers(pid_t child, struct user_regs_struct *regs) {
    if (ptrace(PTRACE_SETREGS, child, 0, regs)) broken("registers can't be set: %s", strerror(errno));
}

static void trace(pid_t child) {
    long reads = 0, writes = 0;
    int failed = 0;
    for (;;) {
        struct user_regs_struct regs;
        long error = 0;
        go_on(child);
        registers(child, &regs);
        char call = regs.orig_rax == SYS_read && regs.rdi == 0 ? 'r' : regs.orig_rax == SYS_write && regs.rdi == 1 ? 'w' : 0;
        if (call) {
            long count = call == 'r' ? ++reads : ++writes;
            if (failed) {
                kill(child, SIGKILL);
                broken("the program went on after a call that failed: %c number %ld", call, count);
            }
            for (int i = 0; i < fault_count; i++) {
                struct fault *f = &faults[i];
                if (!concerns(f, call, count)) continue;
                f->met = 1;
                if (f->fails) error = f->n;
                else if (regs.rdx > (unsigned long)f->n) regs.rdx = f->n;
            }
            // no call has the number -1, so none is made
            if (error) regs.orig_rax = -1;
            set_registers(child, &regs);
        }
        go_on(child);
        if (error) {
            registers(child, &regs);
            regs.rax = -error;
            set_registers(child, &regs);
            failed = error != EINTR;
        }
    }
}

int main(int argc, char **argv) {
    int i = 1;
    while (i < argc && strcmp(argv[i], "--")) add_fault(argv[i++]);
    if (i + 1 >= argc) broken("faults FAULT.. -- PROGRAM ARGUMENT..");
    pid_t child = fork();
    if (child < 0) broken("no process: %s", strerror(errno));
    if (!child) {
        if (ptrace(PTRACE_TRACEME, 0, 0, 0)) broken("a child can't be traced here: %s", strerror(errno));
        raise(SIGSTOP);
        execv(argv[i + 1], argv + i + 1);
        broken("%s: %s", argv[i + 1], strerror(errno));
    }
    int status;
    if (waitpid(child, &status, 0) < 0 || !WIFSTOPPED(status)) broken("the child is not traced");
    if (ptrace(PTRACE_SETOPTIONS, child, 0, PTRACE_O_TRACESYSGOOD | PTRACE_O_EXITKILL)) broken("no trace: %s", strerror(errno));
    trace(child);
}
