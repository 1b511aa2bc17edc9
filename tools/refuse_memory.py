#!/usr/bin/env python3
"""Refuses each request for memory of the built program in turn: tools/refuse_memory.py PROGRAM

A `malloc` and a `realloc` put in front of the C library's fork the program at each request: the child is refused it
and goes on to its end, by itself, while the parent waits and then gets what it asked for. Each child has to end as a
run without a refusal does, or with status 5 and a front of that one's output. The requests of a script are shared out
among as many runs as there are processors. Prints for each script how many children ended either way, and each child
that ended otherwise; ends with 1 where there is one.
"""
import os
import subprocess
import sys
import tempfile

SCRIPTS = {
    "a literal and its value": r'(declare-const x String)(assert (= x "a""b\u{10}"))(check-sat)(get-value (x))',
    "an odd length, closed by a divisor": '(declare-const x String)(declare-const n Int)(assert (str.in_re x (re.* (str.to_re "aa"))))'
    "(assert (= (str.len x) (+ (* 2 n) 1)))(check-sat)",
    "a transducer, two checks": '(define-transducer T (q) q ((q "a" "a" ("0") q) (q "a" "a" ("1") q)) ((q ())))'
    '(declare-const y String)(declare-const x String)(assert (T y x))(assert (str.in_re x (str.to_re "0")))'
    '(push)(assert (str.in_re x (str.to_re "1")))(check-sat)(pop)(check-sat)(get-value (y x))',
    "a page that holds a script, escaped and not": '(declare-const host String)(declare-const page String)(declare-const input String)'
    '(assert (str.in_re host (re.+ (re.union (re.range "a" "z") (str.to_re ".")))))(assert (str.contains page "<script"))'
    '(push)(assert (= page (str.++ "http://" host "/?q=" (str.replace_all input "<" "&lt;"))))(check-sat)(pop)'
    '(assert (= page (str.++ "http://" host "/?q=" input)))(check-sat)(get-value ((str.contains page "<script")))',
    "eight cubes": "(declare-const x String)(assert (or " + " ".join(f'(= x "{c}")' for c in "abcdefgh") + "))"
    '(assert (str.in_re x (str.to_re "f")))(check-sat)(get-value (x))',
}

# Of SHARES runs the run number SHARE takes each SHARES-th request; SHARES 0 refuses none. STATUS and WHOLE are the
# status and the file of what a run without a refusal writes. At its end the parent tells on standard error how many
# requests there were, and how many children ended refused, the same, and otherwise.
SHIM = r"""
#define _GNU_SOURCE
#include <dlfcn.h>
#include <fcntl.h>
#include <stdio.h>
#include <stdlib.h>
#include <string.h>
#include <sys/mman.h>
#include <sys/stat.h>
#include <sys/wait.h>
#include <unistd.h>
enum { REFUSED = 10, SAME, OTHERWISE };
static long requests, child, share, shares, ended[3], signals[128];
static void *(*next_malloc)(size_t), *(*next_realloc)(void *, size_t);
static void (*leave)(int);
static int report;

__attribute__((constructor)) static void start(void) {
    next_malloc = dlsym(RTLD_NEXT, "malloc");
    next_realloc = dlsym(RTLD_NEXT, "realloc");
    leave = (void (*)(int))dlsym(RTLD_NEXT, "_exit");
    report = fcntl(2, F_DUPFD, 100);
    share = atol(getenv("SHARE"));
    shares = atol(getenv("SHARES"));
    requests = 0;
}

static char *contents(int file, off_t *size) {
    struct stat facts;
    fstat(file, &facts);
    *size = facts.st_size;
    return facts.st_size ? mmap(NULL, facts.st_size, PROT_READ, MAP_PRIVATE, file, 0) : "";
}

// The child reads on and writes on by itself.
static void part(void) {
    off_t size;
    int input = open("/proc/self/fd/0", O_RDONLY), output = memfd_create("output", 0);
    char *written = contents(1, &size);
    child = requests;
    lseek(input, lseek(0, 0, SEEK_CUR), SEEK_SET);
    if (write(output, written, size) != size) abort();
    dup2(input, 0);
    dup2(output, 1);
    dup2(open("/dev/null", O_WRONLY), 2);
    alarm(60);
}

static int is_refused(void) {
    int status;
    requests++;
    if (child || !shares || requests % shares != share) return 0;
    pid_t made = fork();
    if (made < 0) abort();
    if (!made) {
        part();
        return 1;
    }
    waitpid(made, &status, 0);
    int way = WIFEXITED(status) ? WEXITSTATUS(status) - REFUSED : OTHERWISE - REFUSED;
    if (way < 0 || way > 2) way = 2;
    ended[way]++;
    if (WIFSIGNALED(status)) signals[WTERMSIG(status)]++;
    return 0;
}

void *malloc(size_t size) {
    if (!next_malloc) next_malloc = dlsym(RTLD_NEXT, "malloc");
    return is_refused() ? NULL : next_malloc(size);
}
void *realloc(void *old, size_t size) { return is_refused() ? NULL : next_realloc(old, size); }

static int judge(int status) {
    off_t size, all;
    char *written = contents(1, &size), *whole = contents(open(getenv("WHOLE"), O_RDONLY), &all);
    if (size <= all && !memcmp(written, whole, size)) {
        if (status == 5) return REFUSED;
        if (size == all && status == atoi(getenv("STATUS"))) return SAME;
    }
    dprintf(report, "request %ld: status %d, output %.*s\n", child, status, (int)size, written);
    return OTHERWISE;
}

void _exit(int status) {
    if (child) leave(judge(status));
    shares = 0;  // what is told takes memory too
    for (int i = 0; i < 128; i++)
        if (signals[i]) dprintf(report, "%ld ended by signal %d\n", signals[i], i);
    dprintf(report, "requests %ld %ld %ld %ld\n", requests, ended[0], ended[1], ended[2]);
    leave(status);
    __builtin_unreachable();
}
"""


def begin(program, room, share, shares, status):
    """Begins a run that refuses the requests of a share."""
    env = {**os.environ, "LD_PRELOAD": f"{room}/shim.so", "SHARE": str(share), "SHARES": str(shares)}
    env |= {"STATUS": str(status), "WHOLE": f"{room}/whole"}
    output = open(f"{room}/whole" if shares == 0 else f"{room}/output{share}", "w+b")
    return subprocess.Popen([program], stdin=open(f"{room}/script"), stdout=output, stderr=subprocess.PIPE, env=env)


def counts(run):
    """What a run told at its end: the requests, and how its children ended; prints what it told before."""
    *told, last = run.communicate()[1].decode(errors="replace").splitlines()
    for line in told:
        print("  " + line)
    return [int(n) for n in last.split()[1:]]


def main():
    program, shares, failed = sys.argv[1], os.cpu_count(), False
    with tempfile.TemporaryDirectory() as room:
        subprocess.run(["cc", "-O2", "-shared", "-fPIC", "-x", "c", "-o", f"{room}/shim.so", "-"], input=SHIM.encode(), check=True)
        for name, script in SCRIPTS.items():
            with open(f"{room}/script", "w") as file:
                file.write(script)
            plain = begin(program, room, 0, 0, 0)
            requests = counts(plain)[0]
            runs = [begin(program, room, share, shares, plain.returncode) for share in range(shares)]
            refused, same, otherwise = (sum(ways) for ways in list(zip(*map(counts, runs)))[1:])
            failed |= otherwise > 0 or refused + same != requests
            print(f"{name}: {requests} requests; {refused} ended with status 5, {same} as without a refusal, {otherwise} otherwise")
    sys.exit(failed)


main()
