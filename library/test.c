/* Calls each function of mos65.h once at least, and checks what it answers. Expected values: 200 times 123 is 24600 ($6018); cycles are
 * counted by hand from the table of the MCS6500 manual. */
#include "mos65.h"
#include <stdio.h>
#include <string.h>

_Static_assert(sizeof(mos65_t) == 16 && sizeof(mos65_assembly_t) == 16, "variables");
_Static_assert(sizeof(mos65_config_t) == 12 && sizeof(mos65_fault_t) == 16, "configuration and fault");
_Static_assert(sizeof(mos65_registers_t) == 16 && sizeof(mos65_ending_t) == 16, "registers and ending");
_Static_assert(offsetof(mos65_config_t, has_rom) == 10 && offsetof(mos65_config_t, profile) == 11, "fields");
_Static_assert(sizeof(mos65_line_t) == 16 && offsetof(mos65_line_t, is_instruction) == 12, "lines");
_Static_assert(sizeof(mos65_given_t) == 6 && sizeof(mos65_called_t) == 40, "calls with registers");
_Static_assert(offsetof(mos65_called_t, registers) == 8 && offsetof(mos65_called_t, ending) == 24, "fields");
_Static_assert(offsetof(mos65_ending_t, address) == 12 && offsetof(mos65_ending_t, opcode) == 14, "fields");

static int passed, failed;
#define CHECK(x) ((x) ? (void)passed++ : (void)(failed++, printf("FAILED: line %d: %s\n", __LINE__, #x)))

static const char source[] =
    "*=$0200\n"
    "multiply: LDA #0\n"
    "        LDX #8\n"
    "next:   LSR $10\n"
    "        BCC shift\n"
    "        CLC\n"
    "        ADC $11\n"
    "shift:  ROR A\n"
    "        ROR $12\n"
    "        DEX\n"
    "        BNE next\n"
    "        STA $13\n"
    "        RTS\n"
    "times10: STA $10\n"
    "        ASL A\n"
    "        ASL A\n"
    "        CLC\n"
    "        ADC $10\n"
    "        ASL A\n"
    "        RTS\n"
    "hello:  LDA #72\n"
    "        STA $F000\n"
    "        LDA $F001\n"
    "        STA $F000\n"
    "        BRK\n"
    "*=$FFFC\n"
    ".WORD hello\n";

static int32_t number_of(mos65_assembly_t *a, const char *name) {
    int32_t value = -1;
    CHECK(mos65_symbol(a, (const uint8_t *)name, strlen(name), &value) == MOS65_OK);
    return value;
}

static void sources(mos65_assembly_t *a, const mos65_config_t *config) {
    mos65_fault_t fault = {9, 9, 9};
    mos65_config_t wrong = MOS65_CONFIG;
    mos65_line_t line = {9, 9, 9, true};
    uint8_t name[32], text[4096];
    size_t n = 0;
    int32_t value = -1;
    CHECK(mos65_symbol(a, (const uint8_t *)"x", 1, &value) == MOS65_CLOSED);
    CHECK(mos65_line_count(a, &n) == MOS65_CLOSED && mos65_line(a, 0, &line, text, 0, &n) == MOS65_CLOSED);
    CHECK(mos65_symbol_count(a, &n) == MOS65_CLOSED && mos65_listing(a, text, sizeof text, &n) == MOS65_CLOSED);
    CHECK(mos65_assembly_close(a) == MOS65_CLOSED);
    CHECK(mos65_assemble(a, config, (const uint8_t *)"a1 = 1\na1 = 2\n", 14, &fault) == MOS65_SOURCE_DUPLICATE_NAME);
    CHECK(fault.status == MOS65_SOURCE_DUPLICATE_NAME && fault.line == 2 && fault.offset == 0 && !a->live);
    wrong.port = 0xF001;
    CHECK(mos65_assemble(a, &wrong, (const uint8_t *)"", 0, &fault) == MOS65_BAD_MAP && fault.status == 0);
    wrong = (mos65_config_t)MOS65_CONFIG, wrong.profile = 'X';
    CHECK(mos65_assemble(a, &wrong, (const uint8_t *)"", 0, &fault) == MOS65_MISUSE);
    wrong = (mos65_config_t)MOS65_CONFIG, wrong.history = 65537;
    CHECK(mos65_assemble(a, &wrong, (const uint8_t *)"", 0, &fault) == MOS65_MISUSE);
    CHECK(mos65_assemble(a, config, (const uint8_t *)source, sizeof source - 1, &fault) == MOS65_OK);
    CHECK(a->live && fault.status == 0);
    CHECK(mos65_assemble(a, config, (const uint8_t *)source, sizeof source - 1, &fault) == MOS65_MISUSE);
    CHECK(mos65_symbol_count(a, &n) == MOS65_OK && n == 5);
    CHECK(mos65_symbol_at(a, 0, name, sizeof name, &n, &value) == MOS65_OK);
    CHECK(n == 8 && memcmp(name, "multiply", 8) == 0 && value == 0x0200);
    CHECK(mos65_symbol_at(a, 0, name, 7, &n, &value) == MOS65_MISUSE);
    CHECK(mos65_symbol_at(a, 5, name, sizeof name, &n, &value) == MOS65_NO_SUCH_NAME);
    CHECK(mos65_symbol(a, (const uint8_t *)"gone", 4, &value) == MOS65_NO_SUCH_NAME && value == 0x0200);
    CHECK(mos65_line_count(a, &n) == MOS65_OK && n == 27);
    CHECK(mos65_line(a, 1, &line, text, sizeof text, &n) == MOS65_OK && n == 16 && memcmp(text, "multiply: LDA #0", 16) == 0);
    CHECK(line.number == 2 && line.address == 0x0200 && line.count == 2 && line.is_instruction);
    CHECK(mos65_line(a, 26, &line, text, 11, &n) == MOS65_OK && n == 11 && memcmp(text, ".WORD hello", 11) == 0);
    CHECK(line.number == 27 && line.address == 0xFFFC && line.count == 2 && !line.is_instruction);
    CHECK(mos65_line(a, 1, &line, text, 15, &n) == MOS65_MISUSE && line.number == 27 && n == 11);
    CHECK(mos65_line(a, 27, &line, text, sizeof text, &n) == MOS65_NO_SUCH_LINE && line.number == 27 && n == 11);
    CHECK(mos65_listing(a, text, sizeof text, &n) == MOS65_OK && n > 500 && n < sizeof text);
    CHECK(memcmp(text, "0000            *=$0200\n", 24) == 0);
    CHECK(mos65_listing(a, text, 0, &n) == MOS65_OK && n > 500);
}

/* A source and its text of tests/check.md. */
static void faults(void) {
    static const char wrong[] = "        .ORG $200\n        .ASCII \"x\"\n";
    static const char told[] =
        "directives.a65:1:9: Syntax 4: .ORG is no directive here; write *= and the address\n"
        "        .ORG $200\n"
        "        ^~~~\n"
        "directives.a65:2:9: Syntax 4: .ASCII is no directive here; write .BYTE \"...\"\n"
        "        .ASCII \"x\"\n"
        "        ^~~~~~\n"
        "2 faults\n";
    mos65_config_t config = MOS65_CONFIG;
    const uint8_t *name = (const uint8_t *)"directives.a65", *bytes = (const uint8_t *)wrong;
    uint8_t out[sizeof told];
    size_t n = 9;
    CHECK(mos65_faults(&config, name, 14, bytes, sizeof wrong - 1, out, sizeof out, &n) == MOS65_OK);
    CHECK(n == sizeof told - 1 && memcmp(out, told, n) == 0);
    memset(out, 0, sizeof out);
    CHECK(mos65_faults(&config, name, 14, bytes, sizeof wrong - 1, out, 14, &n) == MOS65_OK);
    CHECK(n == sizeof told - 1 && memcmp(out, "directives.a65\0", 15) == 0);
    CHECK(mos65_faults(&config, name, 14, (const uint8_t *)source, sizeof source - 1, out, sizeof out, &n) == MOS65_OK && n == 0);
    config.port = 0xF001, n = 9;
    CHECK(mos65_faults(&config, name, 14, bytes, sizeof wrong - 1, out, sizeof out, &n) == MOS65_BAD_MAP && n == 9);
    config.profile = 'X';
    CHECK(mos65_faults(&config, name, 14, bytes, sizeof wrong - 1, out, sizeof out, &n) == MOS65_MISUSE && n == 9);
}

/* A source as an editor saves it: a byte-order mark, letters of UTF-8 in comments, and CR alone, CR LF and LF at the ends of lines. By
 * hand: LDA #65 is A9 41, RTS is 60. */
static void letters(void) {
    static const char saved[] = "\xEF\xBB\xBF*=$0200 ; Z\xC3\xA4hler\r LDA #65 ; \xE2\x86\x92\r\n RTS\n";
    static const char wrong[] = "; \xC3\xA4\n LDA #300 ; \xF0\x9F\x98\x80\n\xC3\x84 = 5\n";
    static const char told[] = "a.a65:2:6: ByteRange 21: 300 is outside -128..255\n LDA #300 ; ??\n     ^~~~\na.a65:3:1: NotAscii 3: ";
    mos65_config_t config = MOS65_CONFIG;
    mos65_assembly_t a = MOS65_INIT;
    mos65_t m = MOS65_INIT;
    mos65_fault_t fault;
    mos65_line_t line;
    const uint8_t *name = (const uint8_t *)"a.a65", *bytes = (const uint8_t *)saved;
    uint8_t out[400];
    size_t n = 9;
    CHECK(mos65_faults(&config, name, 5, bytes, sizeof saved - 1, out, sizeof out, &n) == MOS65_OK && n == 0);
    CHECK(mos65_assemble(&a, &config, bytes, sizeof saved - 1, &fault) == MOS65_OK && fault.status == 0);
    CHECK(mos65_line_count(&a, &n) == MOS65_OK && n == 3);
    CHECK(mos65_line(&a, 0, &line, out, sizeof out, &n) == MOS65_OK && n == 16 && memcmp(out, "*=$0200 ; Z?hler", n) == 0);
    CHECK(mos65_line(&a, 1, &line, out, sizeof out, &n) == MOS65_OK && n == 12 && memcmp(out, " LDA #65 ; ?", n) == 0);
    CHECK(line.number == 2 && line.address == 0x0200 && line.count == 2 && line.is_instruction);
    CHECK(mos65_open(&m, &config, &a) == MOS65_OK && mos65_read(&m, 0x0200, out, 4) == MOS65_OK);
    CHECK(memcmp(out, "\xA9\x41\x60\x00", 4) == 0 && mos65_close(&m) == MOS65_OK && mos65_assembly_close(&a) == MOS65_OK);
    bytes = (const uint8_t *)wrong;
    CHECK(mos65_assemble(&a, &config, bytes, sizeof wrong - 1, &fault) == MOS65_SOURCE_NOT_ASCII && fault.line == 3);
    CHECK(mos65_faults(&config, name, 5, bytes, sizeof wrong - 1, out, sizeof out, &n) == MOS65_OK && n < sizeof out);
    CHECK(n > sizeof told && memcmp(out, told, sizeof told - 1) == 0);
}

/* A tape by the KIM-1 manual: a data record, and the end record with the count of the data records. */
static void tape_of(void) {
    static const char two[] = "        *=$0200\n        .BYTE 1,2\n";
    static const char wanted[] = ";02020001020007\r\n;0000010001\r\n";
    mos65_config_t config = MOS65_CONFIG;
    mos65_assembly_t a = MOS65_INIT;
    mos65_fault_t fault;
    uint8_t out[sizeof wanted];
    size_t n = 9;
    CHECK(mos65_tape(&a, out, sizeof out, &n) == MOS65_CLOSED && n == 9);
    CHECK(mos65_assemble(&a, &config, (const uint8_t *)two, sizeof two - 1, &fault) == MOS65_OK);
    CHECK(mos65_tape(&a, out, sizeof out, &n) == MOS65_OK && n == sizeof wanted - 1 && memcmp(out, wanted, n) == 0);
    CHECK(mos65_tape(&a, out, 3, &n) == MOS65_OK && n == sizeof wanted - 1);
    CHECK(mos65_assembly_close(&a) == MOS65_OK);
}

/* Another source and its text of tests/check.md. */
static void warnings(void) {
    static const char plain[] = "        *=$0200\n        LDA 10\n        STA 11\n        LDX 11\n        LDA #10\n"
        "        BRK\n        *=$FFFC\n        .WORD $0200\n";
    static const char told[] =
        "plain.a65:2:13: warning: PlainNumber: 10 is an address, and nothing writes there; for the number write #10\n"
        "        LDA 10\n"
        "            ^~\n"
        "1 warning\n";
    mos65_config_t config = MOS65_CONFIG;
    const uint8_t *name = (const uint8_t *)"plain.a65", *bytes = (const uint8_t *)plain;
    uint8_t out[sizeof told];
    size_t n = 9;
    CHECK(mos65_warnings(&config, name, 9, bytes, sizeof plain - 1, out, sizeof out, &n) == MOS65_OK);
    CHECK(n == sizeof told - 1 && memcmp(out, told, n) == 0);
    config.port = 0xF001, n = 9;
    CHECK(mos65_warnings(&config, name, 9, bytes, sizeof plain - 1, out, sizeof out, &n) == MOS65_BAD_MAP && n == 9);
}

static void calls(mos65_t *m, mos65_assembly_t *a) {
    mos65_registers_t before, after;
    mos65_ending_t end;
    uint8_t got[4];
    uint32_t held = 0;
    static const uint8_t operands[] = {200, 123};
    CHECK(mos65_write(m, 0x10, operands, 2) == MOS65_OK);
    CHECK(mos65_registers(m, &before) == MOS65_OK && before.cycles == 7 && before.s == 0xFD && before.p == 0x24);
    CHECK(mos65_call(m, (uint16_t)number_of(a, "multiply"), 1000, &end) == MOS65_OK);
    CHECK(end.why == MOS65_BREAK && end.address == MOS65_RETURN && end.did == 58 && end.status == 0);
    CHECK(mos65_read(m, 0x12, got, 2) == MOS65_OK && got[0] == 0x18 && got[1] == 0x60);
    CHECK(mos65_registers(m, &after) == MOS65_OK && after.s == 0xFD && after.pc == MOS65_RETURN && after.a == 0x60);
    CHECK(mos65_held(m, &held) == MOS65_OK && held == 1 + MOS65_CALL_EVENTS + 58);
    CHECK(mos65_back(m, end.did + MOS65_CALL_EVENTS) == MOS65_OK);
    CHECK(mos65_registers(m, &after) == MOS65_OK && memcmp(&before, &after, sizeof before) == 0);
    CHECK(mos65_back(m, 2) == MOS65_NO_HISTORY);
    CHECK(mos65_set(m, MOS65_A, 7) == MOS65_OK);
    CHECK(mos65_call(m, (uint16_t)number_of(a, "times10"), 1000, &end) == MOS65_OK && end.did == 7);
    /* STA zp 3, ASL A 2, ASL A 2, CLC 2, ADC zp 3, ASL A 2, RTS 6 */
    CHECK(mos65_registers(m, &after) == MOS65_OK && after.a == 70 && after.cycles - before.cycles == 20);
    CHECK(mos65_call(m, (uint16_t)number_of(a, "times10"), 3, &end) == MOS65_OK && end.why == MOS65_LIMIT && end.did == 3);
    CHECK(mos65_run_to(m, MOS65_RETURN, 1000, &end) == MOS65_OK && end.why == MOS65_BREAK && end.did == 4);
    CHECK(mos65_unbreak(m, MOS65_RETURN) == MOS65_NOT_SET);
}

static void calls_with_registers(mos65_t *m, mos65_assembly_t *a) {
    uint16_t times10 = (uint16_t)number_of(a, "times10");
    mos65_registers_t before, after;
    mos65_given_t given = MOS65_GIVEN;
    mos65_called_t called;
    CHECK(mos65_registers(m, &before) == MOS65_OK);
    given.a = 7, given.has_a = true, given.y = 9, given.has_y = true;
    CHECK(mos65_call_with(m, times10, 1000, &given, &called) == MOS65_OK && called.cycles == 20);
    CHECK(called.registers.a == 70 && called.registers.y == 9 && called.registers.x == before.x && called.registers.s == before.s);
    CHECK(called.ending.why == MOS65_BREAK && called.ending.address == MOS65_RETURN && called.ending.did == 7);
    CHECK(mos65_registers(m, &after) == MOS65_OK && memcmp(&after, &called.registers, 15) == 0);
    CHECK(mos65_back(m, called.ending.did + MOS65_CALL_EVENTS + 2) == MOS65_OK);
    CHECK(mos65_registers(m, &after) == MOS65_OK && memcmp(&before, &after, 15) == 0);
    given.has_a = given.has_y = false;
    CHECK(mos65_set(m, MOS65_A, 3) == MOS65_OK && mos65_call_with(m, times10, 1000, &given, &called) == MOS65_OK);
    CHECK(called.registers.a == 30 && called.registers.y == before.y && mos65_unbreak(m, MOS65_RETURN) == MOS65_NOT_SET);
    /* Where 256 other breakpoints are set, nothing is changed and nothing is told. */
    for (uint16_t at = 0; at < 256; at++) CHECK(mos65_break(m, 0x4000 + at) == MOS65_OK);
    CHECK(mos65_registers(m, &before) == MOS65_OK);
    given.has_x = true, called.cycles = 99;
    CHECK(mos65_call_with(m, times10, 1000, &given, &called) == MOS65_TABLE_FULL && called.cycles == 99);
    CHECK(mos65_registers(m, &after) == MOS65_OK && memcmp(&before, &after, 15) == 0);
    for (uint16_t at = 0; at < 256; at++) CHECK(mos65_unbreak(m, 0x4000 + at) == MOS65_OK);
}

static void runs(mos65_t *m, mos65_assembly_t *a) {
    uint16_t hello = (uint16_t)number_of(a, "hello");
    mos65_registers_t r;
    mos65_ending_t end;
    uint8_t text[13], out[2];
    uint32_t n = 0;
    CHECK(mos65_set(m, MOS65_PC, hello) == MOS65_OK && mos65_step(m) == MOS65_OK);
    CHECK(mos65_disassemble(m, hello + 2, text, sizeof text, &n) == MOS65_OK && n == 3 && strcmp((char *)text, "STA $F000") == 0);
    CHECK(mos65_disassemble(m, hello, text, 12, &n) == MOS65_MISUSE);
    CHECK(mos65_input(m, 'i') == MOS65_OK && mos65_break(m, hello + 11) == MOS65_OK);
    CHECK(mos65_break(m, hello + 11) == MOS65_ALREADY_SET);
    CHECK(mos65_run(m, 100, &end) == MOS65_OK && end.why == MOS65_BREAK && end.did == 3 && end.address == hello + 11);
    CHECK(mos65_output_length(m, &n) == MOS65_OK && n == 2);
    CHECK(mos65_output(m, 0, out, 2) == MOS65_OK && memcmp(out, "Hi", 2) == 0);
    CHECK(mos65_output(m, 1, out, 2) == MOS65_MISUSE);
    CHECK(mos65_unbreak(m, hello + 11) == MOS65_OK);
    CHECK(mos65_watch(m, 0xF000) == MOS65_SESSION_PORT_ADDRESS && mos65_watch(m, 0x01FD) == MOS65_OK);
    CHECK(mos65_run(m, 1, &end) == MOS65_OK && end.why == MOS65_WATCH && end.address == 0x01FD);
    CHECK(mos65_unwatch(m, 0x01FD) == MOS65_OK && mos65_unwatch(m, 0x01FD) == MOS65_NOT_SET);
    CHECK(mos65_patch(m, 0x0300, (const uint8_t *)"\x02", 1) == MOS65_OK && mos65_set(m, MOS65_PC, 0x0300) == MOS65_OK);
    CHECK(mos65_step(m) == MOS65_UNDOCUMENTED);
    CHECK(mos65_run(m, 9, &end) == MOS65_OK && end.why == MOS65_REFUSED && end.status == MOS65_UNDOCUMENTED);
    CHECK(end.did == 0 && end.opcode == 2 && end.address == 0x0300);
    CHECK(mos65_patch(m, 0xF003, out, 1) == MOS65_PORT_ADDRESS && mos65_patch(m, 0xFFFE, text, 3) == MOS65_PAST_END);
    CHECK(mos65_patch(m, 0, out, 0) == MOS65_BAD_LENGTH && mos65_patch(m, 0, text, 4) == MOS65_BAD_LENGTH);
    CHECK(mos65_read(m, 0xFFFF, out, 2) == MOS65_PAST_END && mos65_write(m, 0xFFFF, out, 2) == MOS65_PAST_END);
    CHECK(mos65_set(m, MOS65_A, 256) == MOS65_MISUSE && mos65_set(m, 6, 0) == MOS65_MISUSE);
    CHECK(mos65_irq(m, true) == MOS65_OK && mos65_irq(m, false) == MOS65_OK && mos65_nmi(m) == MOS65_OK);
    CHECK(mos65_reset(m) == MOS65_OK && mos65_registers(m, &r) == MOS65_OK && r.pc == hello);
}

static void accesses(void) {
    mos65_config_t config = MOS65_CONFIG;
    mos65_t m = MOS65_INIT;
    mos65_access_t access = {7, 7, true, true, 7};
    mos65_ending_t end;
    static uint8_t marks[65536];
    /* NOP, INC $3000, PHA, STA ($10),Y with $3010 at $10, JMP $0200 */
    static const uint8_t code[] = {0xEA, 0xEE, 0x00, 0x30, 0x48, 0x91, 0x10, 0x4C, 0x00, 0x02};
    CHECK(mos65_access(&m, &access) == MOS65_CLOSED && access.read == 7 && access.pushes == 7);
    CHECK(mos65_run_to_access(&m, marks, 1, 1, &end) == MOS65_CLOSED);
    CHECK(mos65_open_bytes(&m, &config, 0x0200, code, sizeof code) == MOS65_OK);
    CHECK(mos65_set(&m, MOS65_PC, 0x0200) == MOS65_OK && mos65_set(&m, MOS65_Y, 4) == MOS65_OK);
    CHECK(mos65_patch(&m, 0x10, (const uint8_t *)"\x10\x30", 2) == MOS65_OK);
    CHECK(mos65_access(&m, &access) == MOS65_OK && !access.reads && !access.stores && access.read == 0 && access.pushes == 0);
    CHECK(mos65_run_to_access(&m, marks, 65535, 9, &end) == MOS65_MISUSE);
    CHECK(mos65_run_to_access(&m, marks, 65536, 9, &end) == MOS65_OK && end.why == MOS65_LIMIT && end.did == 9);
    CHECK(mos65_back(&m, 9) == MOS65_OK);
    marks[0x3000] = marks[0x3014] = 1;
    CHECK(mos65_run_to_access(&m, marks, 65536, 9, &end) == MOS65_OK && end.why == MOS65_LIMIT && end.did == 1);
    CHECK(mos65_access(&m, &access) == MOS65_OK && access.reads && access.stores && access.read == 0x3000 && access.store == 0x3000);
    CHECK(mos65_run_to_access(&m, marks, 65536, 9, &end) == MOS65_OK && end.did == 0);
    CHECK(mos65_step(&m) == MOS65_OK && mos65_access(&m, &access) == MOS65_OK && access.pushes == 1 && !access.stores);
    CHECK(mos65_run_to_access(&m, marks, 65536, 9, &end) == MOS65_OK && end.did == 1);
    CHECK(mos65_access(&m, &access) == MOS65_OK && !access.reads && access.stores && access.store == 0x3014);
    CHECK(mos65_step(&m) == MOS65_OK && mos65_break(&m, 0x0200) == MOS65_OK);
    CHECK(mos65_run_to_access(&m, marks, 65536, 9, &end) == MOS65_OK && end.why == MOS65_BREAK && end.did == 1 && end.address == 0x0200);
    CHECK(mos65_patch(&m, 0x0200, (const uint8_t *)"\x02", 1) == MOS65_OK);
    CHECK(mos65_run_to_access(&m, marks, 65536, 9, &end) == MOS65_OK && end.why == MOS65_REFUSED && end.did == 0 && end.opcode == 2);
    CHECK(mos65_close(&m) == MOS65_OK);
}

static const uint8_t nothing[256];

/* The record of an NMI that comes at $0200, and the state before it, where the IRQ line is 1. */
static void record_of_nmi(mos65_t *m) {
    /* 7 cycles, two reads and three stores: S, PC, the signals; $FFFA, $FFFB; PC and P at $01FD, $01FC, $01FB */
    static const uint8_t entry[] = {0xE7, 0xC8, 0x07, 0x02, 0x50, 0xFA, 0xFF, 0xFB, 0xFF,
        0xFD, 0x01, 0x02, 0xFC, 0x01, 0x00, 0xFB, 0x01, 0x24};
    mos65_ending_t end;
    uint8_t out[600];
    size_t n;
    CHECK(mos65_nmi(m) == MOS65_OK && mos65_record_start(m, out, sizeof out, &n) == MOS65_OK && out[527] == 24);
    CHECK(mos65_record_run(m, 1, &end, out, sizeof out, &n) == MOS65_OK && end.did == 1);
    CHECK(n == sizeof entry && memcmp(out, entry, n) == 0 && mos65_back(m, 2) == MOS65_OK);
}

/* A state and three steps as a page holds them, written by hand from crates/page_data/specs/{Start,Format}.antt. */
static void records(void) {
    mos65_config_t config = MOS65_CONFIG;
    mos65_t m = MOS65_INIT;
    mos65_ending_t end = {7, 7, 7, 7, 7};
    /* LDA #$41, STA $F000, INC $10 */
    static const uint8_t code[] = {0xA9, 0x41, 0x8D, 0x00, 0xF0, 0xE6, 0x10};
    /* A, X, Y, S, P, PC; the cycles; the IRQ line; nothing taken; nothing put out; one byte handed in */
    static const uint8_t rest[] = {0, 0, 0, 0xFD, 0x24, 0x00, 0x02, 7, 0, 0, 0, 0, 0, 0, 0, 8,
        0, 0, 0, 0, 0, 0, 0, 0, 0, 0, 0, 0, 0, 0, 0, 0, 1, 0, 0, 0, 0, 0, 0, 0, 'x'};
    static const uint8_t steps[] = {
        0x02, 0x21, 0x41, 0x02,                          /* 2 cycles: A, PC */
        0x44, 0xA0, 0x07, 0x01, 0x00, 0xF0, 0x00, 0x41,  /* 4 cycles, one store: PC, the signals; $F000; the output */
        0x55, 0x20, 0x02, 0x10, 0x00, 0x10, 0x00, 0x01,  /* 5 cycles, one read and one store: PC; $0010; $0010, 0 XOR 1 */
    };
    uint8_t out[600] = {0};
    size_t n = 9;
    CHECK(mos65_record_start(&m, out, sizeof out, &n) == MOS65_CLOSED && n == 9);
    CHECK(mos65_record_run(&m, 9, &end, out, sizeof out, &n) == MOS65_CLOSED && n == 9 && end.did == 7);
    CHECK(mos65_open_bytes(&m, &config, 0x0200, code, sizeof code) == MOS65_OK && mos65_set(&m, MOS65_PC, 0x0200) == MOS65_OK);
    CHECK(mos65_irq(&m, true) == MOS65_OK && mos65_input(&m, 'x') == MOS65_OK && mos65_break(&m, 0x0207) == MOS65_OK);
    CHECK(mos65_record_start(&m, out, sizeof out, &n) == MOS65_OK);
    CHECK(n == 2 + 257 + 253 + sizeof rest && out[0] == 0 && out[1] == 0 && out[2] == 1);
    CHECK(memcmp(out + 3, code, sizeof code) == 0 && memcmp(out + 3 + sizeof code, nothing, 256 - sizeof code) == 0);
    CHECK(memcmp(out + 259, nothing, 253) == 0 && memcmp(out + 512, rest, sizeof rest) == 0);
    CHECK(mos65_record_start(&m, out, 0, &n) == MOS65_OK && out[2] == 1);
    record_of_nmi(&m);
    CHECK(mos65_record_run(&m, 9, &end, out, sizeof out, &n) == MOS65_OK && n == sizeof steps && memcmp(out, steps, n) == 0);
    CHECK(end.why == MOS65_BREAK && end.address == 0x0207 && end.did == 3);
    memset(out, 9, sizeof out);
    CHECK(mos65_back(&m, 3) == MOS65_OK && mos65_record_run(&m, 2, &end, out, 5, &n) == MOS65_OK && n == 12);
    CHECK(end.why == MOS65_LIMIT && end.did == 2 && memcmp(out, steps, 5) == 0 && out[5] == 9);
    CHECK(mos65_patch(&m, 0x0205, (const uint8_t *)"\x02", 1) == MOS65_OK);
    CHECK(mos65_record_run(&m, 2, &end, out, 5, &n) == MOS65_OK && n == 0 && out[0] == steps[0]);
    CHECK(end.why == MOS65_REFUSED && end.did == 0 && end.opcode == 2 && mos65_close(&m) == MOS65_OK);
}

struct counter {
    unsigned reads, writes;
    uint16_t address;
    uint8_t byte;
};

static uint8_t count_read(void *user, uint16_t address) {
    struct counter *counter = user;
    counter->address = address;
    return (uint8_t)(0x40 + ++counter->reads);
}

static void count_write(void *user, uint16_t address, uint8_t byte) {
    struct counter *counter = user;
    counter->writes++, counter->address = address, counter->byte = byte;
}

static void devices(void) {
    mos65_config_t config = MOS65_CONFIG;
    mos65_t m = MOS65_INIT;
    mos65_registers_t r;
    mos65_ending_t end;
    struct counter counter = {0, 0, 0, 0};
    const mos65_device_t device = {0x3000, 0x300F, count_read, count_write, &counter};
    uint32_t held = 0;
    uint8_t byte = 0;
    /* LDA $3001, INC $3002, STA $3003, JMP $0209; RTI at $020C, where all vectors lead */
    static const uint8_t code[] = {0xAD, 0x01, 0x30, 0xEE, 0x02, 0x30, 0x8D, 0x03, 0x30, 0x4C, 0x09, 0x02, 0x40};
    static const uint8_t vectors[] = {0x0C, 0x02, 0x00, 0x02, 0x0C, 0x02};
    CHECK(mos65_run_with(&m, &device, 1, 9, &end) == MOS65_CLOSED);
    CHECK(mos65_open_bytes(&m, &config, 0x0200, code, sizeof code) == MOS65_OK);
    CHECK(mos65_write(&m, 0xFFFA, vectors, 6) == MOS65_OK && mos65_set(&m, MOS65_PC, 0x0200) == MOS65_OK);
    CHECK(mos65_run_with(&m, &device, 1, 1, &end) == MOS65_OK && end.did == 1 && end.why == MOS65_LIMIT);
    CHECK(mos65_registers(&m, &r) == MOS65_OK && r.a == 0x41 && counter.reads == 1 && counter.address == 0x3001);
    /* The NMI comes in place of the INC, which reads and stores nothing then. */
    CHECK(mos65_nmi(&m) == MOS65_OK && mos65_run_with(&m, &device, 1, 2, &end) == MOS65_OK && end.did == 2);
    CHECK(counter.reads == 1 && counter.writes == 0);
    CHECK(mos65_run_with(&m, &device, 1, 1, &end) == MOS65_OK && counter.reads == 2 && counter.writes == 1);
    CHECK(counter.address == 0x3002 && counter.byte == 0x43);
    CHECK(mos65_run_with(&m, &device, 1, 9, &end) == MOS65_OK && end.did == 9 && end.why == MOS65_LIMIT);
    CHECK(counter.address == 0x3003 && counter.byte == 0x41 && counter.writes == 2 && counter.reads == 2);
    /* Two patches of the vectors, PC, two bytes given, the NMI, and 13 steps. */
    CHECK(mos65_held(&m, &held) == MOS65_OK && held == 2 + 1 + 2 + 1 + 13);
    CHECK(mos65_back(&m, held - 3) == MOS65_OK && mos65_registers(&m, &r) == MOS65_OK && r.pc == 0x0200 && r.cycles == 7);
    CHECK(mos65_read(&m, 0x3001, &byte, 1) == MOS65_OK && byte == 0);
    CHECK(mos65_close(&m) == MOS65_OK);
}

/* Devices whose state goes back: one gives a byte more at each read, and a timer asks for an IRQ. */
struct board {
    uint64_t due;
    uint32_t reads;
    uint8_t last;
    bool is_over;
};

enum { STEPS = 120, BYTES = 0x8000 };
static uint8_t rig_marks[65536], rig_kept[STEPS * (sizeof(struct board) + 8)];
static struct board board;

static uint8_t board_read(void *user, uint16_t address) {
    struct board *it = user;
    if (address == 0x3002) return it->is_over = false;
    return (uint8_t)(0x40 + it->reads++);
}

static void board_write(void *user, uint16_t address, uint8_t byte) {
    struct board *it = user;
    (void)address;
    it->last = byte;
}

static void board_at(void *user) {
    struct board *it = user;
    it->due += 50;
    it->is_over = true;
}

static bool board_asks(void *user) {
    return ((struct board *)user)->is_over;
}

/* The board as it begins, due at a cycle, with room for so many states, and a machine at its program: CLI; LDA $3000,
   STA $3001, JMP $0201; at $020A, where all vectors lead: LDA $3002, INC $10, RTI. */
static mos65_rig_t board_opened(mos65_t *m, uint32_t history, size_t room, uint64_t due, uint16_t pc) {
    static const mos65_device_t device = {0x3000, 0x3002, board_read, board_write, &board};
    static const uint8_t code[] = {0x58, 0xAD, 0x00, 0x30, 0x8D, 0x01, 0x30, 0x4C, 0x01, 0x02,
                                   0xAD, 0x02, 0x30, 0xE6, 0x10, 0x40};
    static const uint8_t vectors[] = {0x0A, 0x02, 0x00, 0x02, 0x0A, 0x02};
    mos65_config_t config = MOS65_CONFIG;
    mos65_rig_t rig = {&device, 1, &board, sizeof board, &board.due, board_at, board_asks, &board,
                       rig_marks, rig_kept, room, 0, 0, 0, false};
    config.history = history;
    memset(&board, 0, sizeof board);
    board.due = due;
    mos65_rig_start(&rig);
    CHECK(mos65_open_bytes(m, &config, 0x0200, code, sizeof code) == MOS65_OK);
    CHECK(mos65_write(m, 0xFFFA, vectors, 6) == MOS65_OK && mos65_set(m, MOS65_PC, pc) == MOS65_OK);
    return rig;
}

static bool is_same_board(const struct board *one, const struct board *other) {
    return one->due == other->due && one->reads == other->reads && one->last == other->last
        && one->is_over == other->is_over;
}

/* Back to the end of each step, and to the last one again. */
static void rig_there_and_back(mos65_rig_t *rig, mos65_t *m, const mos65_registers_t *states, const struct board *boards) {
    static uint8_t last[BYTES], memory[BYTES];
    mos65_registers_t r;
    mos65_ending_t end;
    CHECK(mos65_read(m, 0, last, BYTES) == MOS65_OK && last[0x10] > 4);
    for (int step = STEPS; step >= 0; step--) {
        uint32_t left = (uint32_t)(STEPS - step);
        /* What was called at this very cycle, before the step that comes, was called. */
        bool is_called = left > 0 && boards[step].due <= states[step].cycles;
        CHECK(mos65_rig_back_to(rig, m, states[step].cycles) == MOS65_OK);
        CHECK(mos65_registers(m, &r) == MOS65_OK && r.cycles == states[step].cycles && r.pc == states[step].pc);
        CHECK(board.reads == boards[step].reads && board.last == boards[step].last);
        CHECK(board.due == boards[step].due + (is_called ? 50 : 0));
        CHECK(mos65_rig_run(rig, m, left, &end) == MOS65_OK && end.did == left && end.why == MOS65_LIMIT);
        CHECK(mos65_registers(m, &r) == MOS65_OK && memcmp(&r, &states[STEPS], offsetof(mos65_registers_t, p) + 1) == 0);
        CHECK(mos65_read(m, 0, memory, BYTES) == MOS65_OK && memcmp(memory, last, BYTES) == 0);
        CHECK(is_same_board(&board, &boards[STEPS]));
    }
}

static void rigs(void) {
    static mos65_registers_t states[STEPS + 1];
    static struct board boards[STEPS + 1];
    mos65_t m = MOS65_INIT, none = MOS65_INIT;
    mos65_ending_t end;
    mos65_rig_t rig = board_opened(&m, 1024, STEPS, 40, 0x0200);
    CHECK(mos65_rig_run(&rig, &none, 1, &end) == MOS65_CLOSED && mos65_rig_keep(&rig, &none) == MOS65_CLOSED);
    CHECK(mos65_rig_back_to(&rig, &none, 7) == MOS65_CLOSED);
    CHECK(mos65_rig_run(&rig, &m, 0, &end) == MOS65_OK && end.did == 0 && end.why == MOS65_LIMIT);
    for (int step = 0; step <= STEPS; step++) {
        CHECK(mos65_registers(&m, &states[step]) == MOS65_OK);
        boards[step] = board;
        if (step == STEPS) break;
        CHECK(mos65_rig_run(&rig, &m, 1, &end) == MOS65_OK && end.did == 1 && end.why == MOS65_LIMIT);
    }
    /* CLI ends at 9, and rounds begin at 9, 20, 31 and 42, the first step at 40 or later: there comes the entry. */
    CHECK(states[7].cycles == 31 && states[10].cycles == 42 && states[11].cycles == 49 && states[11].pc == 0x020A);
    CHECK(boards[10].due == 40 && boards[11].due == 90 && boards[11].is_over && !boards[12].is_over);
    CHECK(boards[10].reads == 3 && boards[10].last == 0x42 && boards[STEPS].due > 300);
    rig_there_and_back(&rig, &m, states, boards);
    /* What the caller changes between runs goes back too, where it was kept. */
    CHECK(mos65_rig_keep(&rig, &m) == MOS65_OK);
    board.last = 9;
    CHECK(mos65_rig_back_to(&rig, &m, states[STEPS].cycles) == MOS65_OK && board.last == 9);
    CHECK(mos65_rig_back_to(&rig, &m, states[STEPS].cycles - 1) == MOS65_OK && board.last != 9);
    CHECK(mos65_close(&m) == MOS65_OK);
}

/* LDA 7, STA 11, JMP 15, LDA 18, STA 22, JMP 26: the last three steps with the device are at 11, 18 and 22. Room for
   three states, and for none: what is older is not there. Then a machine that holds the last STA and JMP alone. */
static void short_rigs(void) {
    mos65_t m = MOS65_INIT;
    mos65_ending_t end;
    mos65_registers_t r;
    for (size_t room = 0; room < 4; room += 3) {
        int told = room == 0 ? MOS65_NO_HISTORY : MOS65_OK;
        mos65_rig_t rig = board_opened(&m, 1024, room, 1000, 0x0201);
        CHECK(mos65_rig_run(&rig, &m, 6, &end) == MOS65_OK && end.did == 6 && board.reads == 2);
        CHECK(mos65_rig_back_to(&rig, &m, 18) == told && mos65_rig_back_to(&rig, &m, 11) == told);
        CHECK(board.reads == (room == 0 ? 2 : 1) && board.last == (room == 0 ? 0x41 : 0));
        CHECK(mos65_rig_back_to(&rig, &m, 10) == MOS65_NO_HISTORY && mos65_close(&m) == MOS65_OK);
    }
    mos65_rig_t rig = board_opened(&m, 2, STEPS, 1000, 0x0201);
    CHECK(mos65_rig_run(&rig, &m, 6, &end) == MOS65_OK && mos65_rig_back_to(&rig, &m, 18) == MOS65_NO_HISTORY);
    CHECK(mos65_registers(&m, &r) == MOS65_OK && r.cycles == 22 && board.reads == 2 && board.last == 0x40);
    CHECK(mos65_close(&m) == MOS65_OK);
}

/* A second machine from where the first one is: it has the memory and the registers, and each goes its own way. */
static void second(mos65_t *m, mos65_config_t config) {
    static uint8_t one[65536], two[65536];
    mos65_t other = MOS65_INIT, none = MOS65_INIT;
    mos65_registers_t before, after, here;
    mos65_ending_t end;
    const size_t fields = offsetof(mos65_registers_t, p) + 1;
    uint32_t n = 9;
    CHECK(mos65_write(m, 0x10, (const uint8_t[]){200, 123}, 2) == MOS65_OK);
    CHECK(mos65_set(m, MOS65_A, 0x5A) == MOS65_OK && mos65_set(m, MOS65_P, 0xC3) == MOS65_OK);
    CHECK(mos65_set(m, MOS65_PC, 0x0200) == MOS65_OK && mos65_input(m, 'x') == MOS65_OK);
    CHECK(mos65_registers(m, &before) == MOS65_OK && before.p == 0xE3);
    CHECK(mos65_open_from(&other, &config, &none) == MOS65_CLOSED && mos65_open_from(m, &config, &none) == MOS65_MISUSE);
    config.port = 0xF001;
    CHECK(mos65_open_from(&other, &config, m) == MOS65_BAD_MAP && !other.live);
    config.port = 0xF000;
    CHECK(mos65_open_from(&other, &config, m) == MOS65_OK && other.live);
    CHECK(mos65_open_from(&other, &config, m) == MOS65_MISUSE);
    CHECK(mos65_registers(&other, &after) == MOS65_OK && after.cycles == 7);
    after.cycles = before.cycles;
    CHECK(memcmp(&before, &after, fields) == 0);
    CHECK(mos65_read(m, 0, one, sizeof one) == MOS65_OK && mos65_read(&other, 0, two, sizeof two) == MOS65_OK);
    CHECK(memcmp(one, two, sizeof one) == 0);
    CHECK(mos65_held(&other, &n) == MOS65_OK && n == MOS65_FROM_EVENTS);
    CHECK(mos65_output_length(&other, &n) == MOS65_OK && n == 0);
    CHECK(mos65_call(&other, 0x0200, 1000, &end) == MOS65_OK && end.address == MOS65_RETURN);
    CHECK(mos65_read(&other, 0x12, two, 2) == MOS65_OK && two[0] == 0x18 && two[1] == 0x60);
    CHECK(mos65_read(m, 0x10, two, 2) == MOS65_OK && two[0] == 200 && two[1] == 123);
    CHECK(mos65_registers(m, &here) == MOS65_OK && memcmp(&before, &here, fields) == 0);
    CHECK(mos65_close(&other) == MOS65_OK);
    /* A port elsewhere: its four bytes of memory are left out, and those at the old one are 0. */
    config.port = 0x0010;
    CHECK(mos65_open_from(&other, &config, m) == MOS65_BAD_MAP);
    CHECK(mos65_write(m, 0x0300, (const uint8_t[]){1, 2, 3, 4, 5}, 5) == MOS65_OK);
    config.port = 0x0300, config.history = 2;
    CHECK(mos65_open_from(&other, &config, m) == MOS65_OK && mos65_held(&other, &n) == MOS65_OK && n == 2);
    CHECK(mos65_read(&other, 0x02FF, two, 6) == MOS65_OK && memcmp(two, "\0\0\0\0\0\5", 6) == 0);
    CHECK(mos65_close(&other) == MOS65_OK);
    config.port = MOS65_NO_PORT;
    CHECK(mos65_open_from(&other, &config, m) == MOS65_OK && mos65_read(&other, 0x0300, two, 5) == MOS65_OK);
    CHECK(memcmp(two, "\1\2\3\4\5", 5) == 0 && mos65_close(&other) == MOS65_OK);
}

static void closed(mos65_t *m) {
    mos65_registers_t r;
    mos65_ending_t end = {7, 7, 7, 7, 7};
    mos65_given_t given = MOS65_GIVEN;
    mos65_called_t called;
    uint8_t out[13] = "as before";
    uint32_t n = 7;
    CHECK(mos65_call_with(m, 1, 1, &given, &called) == MOS65_CLOSED);
    /* Closed comes before every other refusal. */
    CHECK(mos65_set(m, 6, 0) == MOS65_CLOSED && mos65_patch(m, 0xFFFF, out, 4) == MOS65_CLOSED);
    CHECK(mos65_read(m, 0xFFFF, out, 2) == MOS65_CLOSED && mos65_disassemble(m, 0, out, 1, &n) == MOS65_CLOSED);
    CHECK(mos65_step(m) == MOS65_CLOSED && mos65_reset(m) == MOS65_CLOSED && mos65_irq(m, true) == MOS65_CLOSED);
    CHECK(mos65_nmi(m) == MOS65_CLOSED && mos65_set(m, MOS65_A, 1) == MOS65_CLOSED && mos65_input(m, 1) == MOS65_CLOSED);
    CHECK(mos65_patch(m, 0, out, 1) == MOS65_CLOSED && mos65_write(m, 0, out, 1) == MOS65_CLOSED);
    CHECK(mos65_run(m, 1, &end) == MOS65_CLOSED && mos65_run_to(m, 1, 1, &end) == MOS65_CLOSED);
    CHECK(mos65_call(m, 1, 1, &end) == MOS65_CLOSED && mos65_back(m, 0) == MOS65_CLOSED && mos65_held(m, &n) == MOS65_CLOSED);
    CHECK(mos65_break(m, 1) == MOS65_CLOSED && mos65_unbreak(m, 1) == MOS65_CLOSED);
    CHECK(mos65_watch(m, 1) == MOS65_CLOSED && mos65_unwatch(m, 1) == MOS65_CLOSED);
    CHECK(mos65_registers(m, &r) == MOS65_CLOSED && mos65_read(m, 0, out, 1) == MOS65_CLOSED);
    CHECK(mos65_output_length(m, &n) == MOS65_CLOSED && mos65_output(m, 0, out, 1) == MOS65_CLOSED);
    CHECK(mos65_disassemble(m, 0, out, sizeof out, &n) == MOS65_CLOSED && mos65_close(m) == MOS65_CLOSED);
    CHECK(n == 7 && end.did == 7 && end.opcode == 7 && strcmp((char *)out, "as before") == 0);
}

int main(void) {
    mos65_config_t config = MOS65_CONFIG, rom = {16, 0xF000, 0x8000, 0x8FFF, true, 'C'};
    mos65_assembly_t a = MOS65_INIT;
    mos65_t m = MOS65_INIT, other = MOS65_INIT;
    mos65_fault_t fault;
    static const uint8_t tape[] = ";0000010001\r\n", right[] = ";060200A9418D00F000026F\r\n;0000010001\r\n";
    uint8_t byte = 0;
    CHECK(mos65_version_number() == MOS65_VERSION_NUMBER);
    CHECK(strcmp(mos65_status_name(MOS65_SOURCE_VALUE_DIVIDE_BY_ZERO), "DivideByZero") == 0);
    CHECK(strcmp(mos65_status_name(MOS65_OUT_OF_MEMORY), "OutOfMemory") == 0 && *mos65_status_name(999) == 0);
    int refused = 0;
    for (int status = 0; status < 1000; status++) {
        bool is_named = strcmp(mos65_status_name(status), "OutOfMemory") == 0;
        CHECK(mos65_is_out_of_memory(status) == is_named);
        refused += is_named;
    }
    CHECK(refused == 4);
    closed(&m);
    CHECK(mos65_open(&m, &config, &a) == MOS65_CLOSED);
    sources(&a, &config);
    faults();
    letters();
    warnings();
    tape_of();
    CHECK(mos65_open(&m, &config, &a) == MOS65_OK && m.live && mos65_open(&m, &config, &a) == MOS65_MISUSE);
    calls(&m, &a);
    calls_with_registers(&m, &a);
    accesses();
    records();
    devices();
    rigs();
    short_rigs();
    runs(&m, &a);
    second(&m, config);
    CHECK(mos65_open_bytes(&other, &rom, 0x8000, (const uint8_t *)"\x1A", 1) == MOS65_OK);
    /* $1A is INC A in profile C, and no opcode in profile N. */
    CHECK(mos65_set(&other, MOS65_PC, 0x8000) == MOS65_OK && mos65_step(&other) == MOS65_OK);
    CHECK(mos65_read(&other, 0x8000, &byte, 1) == MOS65_OK && byte == 0x1A && mos65_close(&other) == MOS65_OK);
    CHECK(mos65_open_bytes(&other, &config, 0xF000, &byte, 1) == MOS65_SESSION_PORT_ADDRESS && !other.live);
    CHECK(mos65_open_bytes(&other, &config, 0xFFFF, (const uint8_t *)"ab", 2) == MOS65_MISUSE);
    CHECK(mos65_open_tape(&other, &config, (const uint8_t *)"x", 1, &fault) == MOS65_TAPE_JUNK_BETWEEN && fault.offset == 0);
    config.port = 0xF001;
    CHECK(mos65_open_tape(&other, &config, (const uint8_t *)"x", 1, &fault) == MOS65_BAD_MAP && fault.status == 0);
    config.port = MOS65_NO_PORT;
    CHECK(mos65_open_bytes(&other, &config, 0xF000, (const uint8_t *)"\xA9\x41", 2) == MOS65_OK);
    CHECK(mos65_read(&other, 0xF000, &byte, 1) == MOS65_OK && byte == 0xA9 && mos65_close(&other) == MOS65_OK);
    config.port = 0xF000;
    CHECK(mos65_open_tape(&other, &config, tape, 11, &fault) == MOS65_TAPE_BAD_COUNT && fault.status == MOS65_TAPE_BAD_COUNT);
    CHECK(mos65_open_tape(&other, &config, right, sizeof right - 1, &fault) == MOS65_OK && fault.status == 0);
    CHECK(mos65_read(&other, 0x0200, &byte, 1) == MOS65_OK && byte == 0xA9 && mos65_close(&other) == MOS65_OK);
    CHECK(mos65_close(&m) == MOS65_OK && !m.live && m.opaque == NULL);
    closed(&m);
    CHECK(mos65_assembly_close(&a) == MOS65_OK && mos65_assembly_close(&a) == MOS65_CLOSED);
    printf("%d passed, %d failed\n", passed, failed);
    return failed != 0;
}
