/* The machine of golang.org/x/net/bpf for classic filters: a process of its own, asked through two pipes. */
#include "engine.h"
#include <stdlib.h>
#include <sys/wait.h>
#include <unistd.h>

/* ENGINE_GO names the program that is built of classic.go. */
static const char *absent(void) {
    if (getenv("ENGINE_GO")) return NULL;
    return "golang.org/x/net/bpf is not installed (Debian: golang-go golang-golang-x-net-dev)";
}

static pid_t asker;
static int asking, answering;
static uint64_t spent;

static void tell(const void *bytes, size_t length) {
    for (const char *at = bytes; length;) {
        ssize_t done = write(asking, at, length);
        if (done <= 0) abort();
        at += done;
        length -= (size_t)done;
    }
}

/* An answer of 8 bytes. */
static uint64_t told(void) {
    uint64_t word = 0;
    for (size_t done = 0; done < sizeof word;) {
        ssize_t more = read(answering, (char *)&word + done, sizeof word - done);
        if (more <= 0) abort();
        done += (size_t)more;
    }
    return word;
}

/* Starts the process, once for each process that asks. It ends where nobody asks any longer. */
static void begin(const struct program *program) {
    int to[2], from[2];
    (void)program;
    if (asker == getpid()) return;
    if (asker) close(asking), close(answering);
    if (pipe(to) || pipe(from)) abort();
    pid_t child = fork();
    if (child < 0) abort();
    if (!child) {
        dup2(to[0], 0);
        dup2(from[1], 1);
        for (int file = 3; file < 64; file++) close(file);
        execl(getenv("ENGINE_GO"), "classic", (char *)NULL);
        _exit(127);
    }
    close(to[0]);
    close(from[1]);
    asking = to[1];
    answering = from[0];
    asker = getpid();
}

static void end(void) {}

static void *load(const struct program *program) {
    uint32_t head[2] = {1, (uint32_t)program->classic_length};
    tell(head, sizeof head);
    tell(program->classic, program->classic_length);
    tell(program->context, CONTEXT);
    uint64_t is_accepted = told();
    spent = told();
    return is_accepted ? (void *)program->classic : NULL;
}

static void unload(void *loaded) { (void)loaded; }

static uint64_t run(void *loaded, const struct program *program, unsigned times) {
    uint32_t head[2] = {2, times};
    (void)loaded, (void)program;
    tell(head, sizeof head);
    uint64_t r0 = told();
    spent = told();
    return r0;
}

static double measured(void) { return (double)spent; }

const struct engine go_engine = {"go", absent, begin, end, load, unload, run, NULL, measured, 0};
