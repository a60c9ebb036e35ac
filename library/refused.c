/* Makes the calls that take memory, with each request refused in turn: the 1st, the 2nd, and so on, until a round makes fewer. Each
 * answers that memory was refused or does what it does otherwise, and nothing is lost. Link it with -Wl,--wrap=malloc and the like. */
#include "mos65.h"
#include <stdio.h>
#include <string.h>

void *__real_malloc(size_t), *__real_realloc(void *, size_t);
void __real_free(void *);
static long requests, refused_one, blocks;

static bool is_refused(void) { return ++requests == refused_one; }

void *__wrap_malloc(size_t n) {
    void *p = is_refused() ? NULL : __real_malloc(n);
    blocks += p != NULL;
    return p;
}

void *__wrap_realloc(void *old, size_t n) {
    void *p = is_refused() ? NULL : __real_realloc(old, n);
    blocks += p != NULL && old == NULL;
    return p;
}

void __wrap_free(void *p) {
    blocks -= p != NULL;
    __real_free(p);
}

static int passed, failed;
#define CHECK(x) ((x) ? (void)passed++ : (void)(failed++, printf("FAILED: request %ld, line %d: %s\n", refused_one, __LINE__, #x)))

static bool is_for_memory(int status) {
    return status == MOS65_OUT_OF_MEMORY || status == MOS65_SESSION_OUT_OF_MEMORY
        || status == MOS65_SOURCE_OUT_OF_MEMORY || status == MOS65_TAPE_OUT_OF_MEMORY;
}

/* A status, where it is neither done nor for memory. */
static int told(int status) {
    CHECK(status == MOS65_OK || is_for_memory(status));
    return status;
}

static const char source[] = "*=$0200\nroutine: LDA #1 ; \xC3\xA4\n STA $10\n RTS\n*=$FFFC\n.WORD routine\n";
static const char tape[] = ";060200A9418D00F000026F\r\n;0000010001\r\n";

static void session(mos65_t *m) {
    mos65_registers_t before, after;
    mos65_ending_t end;
    CHECK(mos65_registers(m, &before) == MOS65_OK);
    for (uint16_t at = 0; at < 40; at++) told(mos65_break(m, 0x0400 + at)), told(mos65_watch(m, 0x0500 + at));
    bool was_called = told(mos65_call(m, 0x0200, 100, &end)) == MOS65_OK;
    CHECK(mos65_registers(m, &after) == MOS65_OK);
    CHECK(was_called ? end.did > 0 : memcmp(&before, &after, sizeof before) == 0);
    mos65_given_t given = {1, 2, 3, true, true, true};
    mos65_called_t called;
    before = after;
    was_called = told(mos65_call_with(m, 0x0200, 100, &given, &called)) == MOS65_OK;
    CHECK(mos65_registers(m, &after) == MOS65_OK);
    CHECK(was_called ? called.ending.did > 0 : memcmp(&before, &after, sizeof before) == 0);
    CHECK(mos65_step(m) == MOS65_OK && mos65_back(m, 1) == MOS65_OK);
    uint8_t out[2000];
    size_t n = 9;
    bool was_told = told(mos65_record_start(m, out, sizeof out, &n)) == MOS65_OK;
    CHECK(was_told ? n > 9 : n == 9);
    n = 9, end.did = 9;
    was_told = told(mos65_record_run(m, 3, &end, out, sizeof out, &n)) == MOS65_OK;
    CHECK(was_told ? end.did > 0 && n <= end.did * MOS65_RECORD : n == 9 && end.did == 9);
}

static void round_of_calls(void) {
    mos65_config_t config = MOS65_CONFIG;
    mos65_assembly_t a = MOS65_INIT;
    mos65_t m = MOS65_INIT, taped = MOS65_INIT, bare = MOS65_INIT, second = MOS65_INIT;
    mos65_fault_t fault;
    mos65_line_t line;
    uint8_t text[300];
    size_t n;
    config.history = 8;
    if (told(mos65_assemble(&a, &config, (const uint8_t *)source, sizeof source - 1, &fault)) == MOS65_OK) {
        told(mos65_listing(&a, text, sizeof text, &n));
        told(mos65_tape(&a, text, sizeof text, &n));
        CHECK(mos65_line(&a, 0, &line, text, sizeof text, &n) == MOS65_OK && line.number == 1);
        n = 9;
        bool was_told = told(mos65_faults(&config, (const uint8_t *)"x", 1, (const uint8_t *)" LDQ\n", 5, text, sizeof text, &n)) == MOS65_OK;
        CHECK(was_told ? n > 9 : n == 9);
        n = 9;
        was_told = told(mos65_warnings(&config, (const uint8_t *)"x", 1, (const uint8_t *)"a = 1\n", 6, text, sizeof text, &n)) == MOS65_OK;
        CHECK(was_told ? n > 9 : n == 9);
        if (told(mos65_open(&m, &config, &a)) == MOS65_OK) session(&m);
    }
    if (told(mos65_open_tape(&taped, &config, (const uint8_t *)tape, sizeof tape - 1, &fault)) == MOS65_OK) session(&taped);
    told(mos65_open_bytes(&bare, &config, 0x0200, (const uint8_t *)"\x60", 1));
    bool was_open = m.live;
    int status = mos65_open_from(&second, &config, &m);
    CHECK(was_open ? status == MOS65_OK || is_for_memory(status) : status == MOS65_CLOSED);
    CHECK(second.live == (status == MOS65_OK));
    CHECK(mos65_close(&m) == (was_open ? MOS65_OK : MOS65_CLOSED) && !m.live);
    mos65_close(&taped), mos65_close(&bare), mos65_close(&second), mos65_assembly_close(&a);
    CHECK(!taped.live && !bare.live && !second.live && !a.live);
}

int main(void) {
    long seen;
    do {
        long before = blocks;
        refused_one++, requests = 0;
        round_of_calls();
        seen = requests;
        CHECK(blocks == before);
    } while (refused_one <= seen);
    CHECK(refused_one > 20);
    printf("%d passed, %d failed\n", passed, failed);
    return failed != 0;
}
