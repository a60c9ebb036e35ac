/* Makes calls for tools/measure-rigs, and prints how many nanoseconds each takes: the least of five rounds. The words are the file of
 * the program of tools/speed/bench.s, and how many steps it is to make. */
#include <mos65.h>
#include <stdio.h>
#include <stdlib.h>
#include <string.h>
#include <time.h>

#define ROUNDS 5
#define CALLS 200000u

static double now(void) {
    struct timespec t;
    clock_gettime(CLOCK_PROCESS_CPUTIME_ID, &t);
    return (double)t.tv_sec * 1e9 + (double)t.tv_nsec;
}

static void must(int status) {
    if (status == MOS65_OK) return;
    fprintf(stderr, "%s\n", mos65_status_name(status));
    exit(1);
}

/* Fifty steps: LDX, 16 times INX, STX and DEX, and an RTS. */
static size_t routine(uint8_t *out) {
    size_t n = 0;
    out[n++] = 0xA2, out[n++] = 5;
    for (int i = 0; i < 16; i++) out[n++] = 0xE8, out[n++] = 0x86, out[n++] = 0x20, out[n++] = 0xCA;
    out[n++] = 0x60;
    return n;
}

static double steps(const uint8_t *program, size_t n, unsigned long count) {
    mos65_config_t config = MOS65_CONFIG;
    mos65_t m = MOS65_INIT;
    must(mos65_open_bytes(&m, &config, 0x0200, program, n));
    must(mos65_set(&m, MOS65_PC, 0x0200));
    must(mos65_break(&m, 0xFFF9));
    double before = now();
    for (unsigned long i = 0; i < count; i++) must(mos65_step(&m));
    double took = now() - before;
    must(mos65_close(&m));
    return took / (double)count;
}

static double calls(void) {
    mos65_config_t config = MOS65_CONFIG;
    mos65_t m = MOS65_INIT;
    mos65_given_t given = {1, 2, 3, true, true, true};
    mos65_called_t called;
    uint8_t bytes[100];
    must(mos65_open_bytes(&m, &config, 0x0200, bytes, routine(bytes)));
    double before = now();
    for (unsigned i = 0; i < CALLS; i++) must(mos65_call_with(&m, 0x0200, 1000, &given, &called));
    double took = now() - before;
    if (called.ending.did != 50 || called.ending.address != MOS65_RETURN) exit(1);
    must(mos65_close(&m));
    return took / CALLS;
}

static void least(const char *name, double taken[ROUNDS]) {
    double it = taken[0];
    for (int i = 1; i < ROUNDS; i++) it = taken[i] < it ? taken[i] : it;
    printf("%s %.2f\n", name, it);
}

int main(int count, char **words) {
    static uint8_t program[65536];
    FILE *file = count == 3 ? fopen(words[1], "rb") : NULL;
    if (!file) return 1;
    size_t n = fread(program, 1, 0xE000, file);
    fclose(file);
    unsigned long made = strtoul(words[2], NULL, 10);
    double taken[ROUNDS];
    for (int i = 0; i < ROUNDS; i++) taken[i] = steps(program, n, made);
    least("step", taken);
    for (int i = 0; i < ROUNDS; i++) taken[i] = calls();
    least("call", taken);
    return 0;
}
