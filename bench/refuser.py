"""A small library before the C library's own, which counts a program's requests for memory and refuses one of them:
for the scripts beside this one. It wants a C compiler (`cc`).

What it counts and is told stands in a file of five numbers that the program and the script map (`Control`). It also
has the system give the same random bytes to each run, so that two runs write the same files.
"""
import mmap
import os
import struct
import subprocess

SOURCE = r"""
#define _GNU_SOURCE
#include <dlfcn.h>
#include <fcntl.h>
#include <stdlib.h>
#include <string.h>
#include <sys/mman.h>
#include <sys/socket.h>
#include <unistd.h>

struct control {
    long refused_at;   // the request that is refused, from 1; 0: none
    long counts_each;  // whether requests are counted anew from each input on
    long asked;        // requests so far
    long before_input; // those before the first input
    long inputs;       // how often input was asked for
};
static struct control alone;
static volatile struct control *control = &alone;
static int ready;
static void *(*next_malloc)(size_t);
static void *(*next_calloc)(size_t, size_t);
static void *(*next_realloc)(void *, size_t);
static void *(*next_aligned)(size_t, size_t);
static int (*next_memalign)(void **, size_t, size_t);
static ssize_t (*next_read)(int, void *, size_t);
static int (*next_accept)(int, struct sockaddr *, socklen_t *, int);
static char early[65536]; // what dlsym itself asks for
static size_t early_used;

static void begin(void) {
    if (ready) return;
    ready = 1;
    next_malloc = dlsym(RTLD_NEXT, "malloc");
    next_calloc = dlsym(RTLD_NEXT, "calloc");
    next_realloc = dlsym(RTLD_NEXT, "realloc");
    next_aligned = dlsym(RTLD_NEXT, "aligned_alloc");
    next_memalign = dlsym(RTLD_NEXT, "posix_memalign");
    next_read = dlsym(RTLD_NEXT, "read");
    next_accept = dlsym(RTLD_NEXT, "accept4");
    int file = open(getenv("MEMORY_CONTROL"), O_RDWR);
    control = mmap(0, sizeof alone, PROT_READ | PROT_WRITE, MAP_SHARED, file, 0);
    close(file);
    ready = 2;
}

static int is_refused(void) {
    begin();
    return ++control->asked == control->refused_at;
}

static void input_begins(void) {
    begin();
    if (control->inputs++ == 0) control->before_input = control->asked;
}

static void input_came(void) {
    if (control->counts_each) control->asked = 0;
}

void *malloc(size_t size) { return is_refused() ? 0 : next_malloc(size); }
void *realloc(void *old, size_t size) { return is_refused() ? 0 : next_realloc(old, size); }
void *aligned_alloc(size_t align, size_t size) { return is_refused() ? 0 : next_aligned(align, size); }
int posix_memalign(void **to, size_t align, size_t size) { return is_refused() ? 12 : next_memalign(to, align, size); }

void *calloc(size_t count, size_t size) {
    if (ready == 1) {
        void *found = early + early_used;
        early_used += (count * size + 15) / 16 * 16;
        return found;
    }
    return is_refused() ? 0 : next_calloc(count, size);
}

ssize_t read(int from, void *to, size_t size) {
    if (from != 0) {
        begin();
        return next_read(from, to, size);
    }
    input_begins();
    ssize_t found = next_read(from, to, size);
    input_came();
    return found;
}

int accept4(int from, struct sockaddr *who, socklen_t *size, int flags) {
    input_begins();
    int found = next_accept(from, who, size, flags);
    input_came();
    return found;
}

int getentropy(void *to, size_t size) {
    memset(to, 7, size);
    return 0;
}
"""
NUMBERS = struct.Struct("5q")


def made_in(folder):
    """The library, made in a folder: its path."""
    path = os.path.join(folder, "refuser.so")
    words = ["cc", "-shared", "-fPIC", "-O2", "-x", "c", "-", "-o", path, "-ldl"]
    subprocess.run(words, input=SOURCE.encode(), check=True)
    return path


class Control:
    """The numbers of a program that is run with the library, in a file."""

    def __init__(self, library, path):
        self.environment = {"LD_PRELOAD": library, "MEMORY_CONTROL": path}
        with open(path, "w+b") as file:
            file.truncate(NUMBERS.size)
            self.numbers = mmap.mmap(file.fileno(), NUMBERS.size)

    def begin(self, refused=0, counts_each=False):
        """Sets the numbers before a run."""
        NUMBERS.pack_into(self.numbers, 0, refused, counts_each, 0, 0, 0)

    def refuse(self, number):
        """Has another request refused from now on; 0: none."""
        struct.pack_into("q", self.numbers, 0, number)

    def told(self):
        """How many requests were made, how many of them before the first input, and how often input was asked for."""
        return NUMBERS.unpack_from(self.numbers)[2:]
