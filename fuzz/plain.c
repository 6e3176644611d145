/* plain INPUTS SEED SECONDS FILE: feeds generated inputs to the fuzz target, for a machine without libFuzzer. Each
 * input of a seed is always the same. Ends after so many inputs, or after so many seconds unless they are 0, and prints
 * how many were tried; or leaves the input that failed in FILE and ends with status 1, or 3 where it cannot. */
#include <fcntl.h>
#include <inttypes.h>
#include <signal.h>
#include <stdint.h>
#include <stdio.h>
#include <stdlib.h>
#include <time.h>
#include <unistd.h>

int LLVMFuzzerTestOneInput(const uint8_t *data, size_t size);

enum { HEAD = 48, MOST = 4096 };

static uint8_t input[MOST];
static size_t length;
static const char *leave_in;

static void failed(int sign) {
    int file = open(leave_in, O_WRONLY | O_CREAT | O_TRUNC, 0644);
    (void)sign;
    _exit(file >= 0 && write(file, input, length) == (ssize_t)length ? 1 : 3);
}

static uint64_t state;

static unsigned below(unsigned n) {
    uint64_t z = state += UINT64_C(0x9e3779b97f4a7c15);
    z = (z ^ z >> 30) * UINT64_C(0xbf58476d1ce4e5b9), z = (z ^ z >> 27) * UINT64_C(0x94d049bb133111eb);
    return (unsigned)((z ^ z >> 31) % n);
}

static void put(unsigned byte) {
    if (length < MOST) input[length++] = (uint8_t)byte;
}

/* A byte that the target takes for a line of some kind, with a number below 28 that the kind gives a meaning. */
static void put_item(unsigned kind, unsigned more) { put(kind + 8 * more); }

/* Some of seven sites, then so many lines that keep to the rules, but for the limits, with the other sites among them. */
static void put_good(unsigned lines) {
    unsigned sites = below(8), open = 1;
    for (unsigned s = 0; s < sites; s++) put_item(6, below(28));
    for (; lines > 0; lines--) {
        unsigned kind = sites < 7 && !below(12) ? 6 : below(6);
        if (kind == 5 && open == 1) continue;
        if ((kind == 2 || kind == 3) && !sites) continue;
        sites += kind == 6;
        unsigned more = kind == 2 || kind == 3 ? 1 + below(sites) : 1 + below(27);
        put_item(kind, more);
        if (kind == 0 && more >= 16) put(1 + below(255));
        for (unsigned n = kind == 1 ? 4 + more % 2 * 4 : 0; n > 0; n--) put(below(256));
        open += kind == 2 || kind == 3, open -= kind == 5;
    }
}

/* Anything; or a trace that keeps to the rules; or such a one with a few wrong bytes. */
static void make(void) {
    unsigned how = below(4), lines = below(below(16) ? 64 : 2048);
    length = 0;
    while (length < HEAD + 1) put(below(256));
    if (how == 0)
        while (lines-- > 0) put(below(256));
    else
        put_good(lines);
    for (unsigned wrong = how == 1 ? 1 + below(3) : 0; wrong > 0; wrong--)
        input[HEAD + below(length - HEAD)] = (uint8_t)below(256);
}

int main(int argc, char **argv) {
    if (argc != 5) {
        fprintf(stderr, "usage: plain INPUTS SEED SECONDS FILE\n");
        return 2;
    }
    uint64_t inputs = strtoull(argv[1], NULL, 10), tried = 0;
    time_t seconds = (time_t)strtoull(argv[3], NULL, 10), end = time(NULL) + seconds;
    state = strtoull(argv[2], NULL, 10), leave_in = argv[4];
    signal(SIGABRT, failed), signal(SIGSEGV, failed), signal(SIGBUS, failed);
    for (; tried < inputs && (!seconds || time(NULL) < end); tried++) {
        make();
        LLVMFuzzerTestOneInput(input, length);
    }
    printf("%" PRIu64 "\n", tried);
}
