/* Calls routines for tools/check/random-routines. Each comes on stdin: a line with the length of its source, a limit, the registers that are
 * given (-1 for none) and how many bytes of input there are; then the source, 16 bytes of memory for $10 on, and the input. Each is
 * answered with a line of what came: how the call ended, the registers, the cycles, the output, and a checksum of the memory. */
#include <mos65.h>
#include <stdio.h>
#include <stdlib.h>
#include <string.h>

static uint8_t memory[65536];

/* The checksum of zip files. */
static uint32_t checksum(const uint8_t *bytes, size_t n) {
    uint32_t sum = 0xFFFFFFFFu;
    for (size_t i = 0; i < n; i++) {
        sum ^= bytes[i];
        for (int bit = 0; bit < 8; bit++) sum = (sum >> 1) ^ (sum & 1 ? 0xEDB88320u : 0);
    }
    return ~sum;
}

static void must(int status, const char *what) {
    if (status == MOS65_OK) return;
    printf("%s: %s\n", what, mos65_status_name(status));
    exit(1);
}

static uint8_t byte_of(int value) { return value < 0 ? 0 : (uint8_t)value; }

/* The memory, read in two parts around the port, which reads as 0 in any case. */
static uint32_t memory_now(mos65_t *m) {
    must(mos65_read(m, 0, memory, sizeof memory), "read");
    return checksum(memory, sizeof memory);
}

static void call_one(const uint8_t *source, size_t length, uint32_t limit, int a, int x, int y, const uint8_t *bytes, int inputs) {
    mos65_config_t config = MOS65_CONFIG;
    mos65_assembly_t routine = MOS65_INIT;
    mos65_t m = MOS65_INIT;
    mos65_fault_t fault;
    mos65_given_t given = {byte_of(a), byte_of(x), byte_of(y), a >= 0, x >= 0, y >= 0};
    mos65_called_t called;
    mos65_registers_t before, after, *r = &called.registers;
    int32_t address = 0;
    uint32_t count = 0;
    static uint8_t out[65536];
    config.history = 65536;
    must(mos65_assemble(&routine, &config, source, length, &fault), "assemble");
    must(mos65_symbol(&routine, (const uint8_t *)"routine", 7, &address), "symbol");
    must(mos65_open(&m, &config, &routine), "open");
    must(mos65_write(&m, 0x10, bytes, 16), "write");
    for (int i = 0; i < inputs; i++) must(mos65_input(&m, bytes[16 + i]), "input");
    must(mos65_registers(&m, &before), "registers");
    uint32_t at_first = memory_now(&m);
    must(mos65_call_with(&m, (uint16_t)address, limit, &given, &called), "call");
    must(mos65_output_length(&m, &count), "output");
    must(mos65_output(&m, 0, out, count), "output");
    printf("%u %04X %02X %u %llu %llu %02X %02X %02X %02X %02X %04X [", called.ending.why, called.ending.address, called.ending.opcode,
        called.ending.did, (unsigned long long)called.cycles, (unsigned long long)r->cycles, r->a, r->x, r->y, r->s, r->p, r->pc);
    for (uint32_t i = 0; i < count; i++) printf("%02X", out[i]);
    printf("] %08X", memory_now(&m));
    must(mos65_back(&m, called.ending.did + MOS65_CALL_EVENTS + (a >= 0) + (x >= 0) + (y >= 0)), "back");
    must(mos65_registers(&m, &after), "registers");
    bool is_back = before.cycles == after.cycles && before.pc == after.pc && before.a == after.a && before.x == after.x
        && before.y == after.y && before.s == after.s && before.p == after.p && memory_now(&m) == at_first;
    printf(is_back ? "\n" : " and not back\n");
    must(mos65_close(&m), "close");
    must(mos65_assembly_close(&routine), "close");
}

int main(void) {
    static uint8_t source[65536], bytes[16 + 256];
    size_t length;
    uint32_t limit;
    int a, x, y, inputs;
    while (scanf("%zu %u %d %d %d %d", &length, &limit, &a, &x, &y, &inputs) == 6) {
        if (getchar() != '\n' || length > sizeof source || inputs < 0 || inputs > 256) return 1;
        size_t rest = 16 + (size_t)inputs;
        if (fread(source, 1, length, stdin) != length || fread(bytes, 1, rest, stdin) != rest) return 1;
        call_one(source, length, limit, a, x, y, bytes, inputs);
    }
    return 0;
}
