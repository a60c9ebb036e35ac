/* Makes calls at random: random sources, tapes, bytes and sizes, machines that are open, closed or never opened. Each call answers a
 * status of the header. */
#include "mos65.h"
#include <stdio.h>
#include <string.h>

static uint64_t seed = 88172645463325252ull;

static uint32_t draw(uint32_t below) {
    seed ^= seed << 13, seed ^= seed >> 7, seed ^= seed << 17;
    return (uint32_t)((seed >> 16) % below);
}

static int passed, failed;

static int told(int status) {
    bool is_known = status == MOS65_OK || *mos65_status_name(status);
    passed += is_known, failed += !is_known;
    if (!is_known) printf("FAILED: status %d\n", status);
    return status;
}

static uint8_t bytes[65537], out[3000];

/* So many bytes: of any value, or those of which sources and tapes are made. */
static size_t fill(size_t most) {
    static const char some[] = "*=$0200 LDA #1\nab: .BYTE ;06F,X()<>\r\n!\"'";
    size_t n = draw((uint32_t)most + 1);
    bool is_any = draw(2);
    for (size_t i = 0; i < n; i++) bytes[i] = is_any ? (uint8_t)draw(256) : (uint8_t)some[draw(sizeof some - 1)];
    return n;
}

static void open_one(mos65_t *m, mos65_assembly_t *a) {
    mos65_config_t config = {draw(20), 0xF000, 0x8000, 0x8FFF, draw(2), draw(2) ? 'C' : 'N'};
    mos65_fault_t fault;
    if (draw(8) == 0) config.port = (uint16_t)draw(65536);
    if (draw(8) == 0) config.history = draw(70000);
    if (draw(8) == 0) config.profile = (uint8_t)draw(256);
    size_t n = fill(200);
    switch (draw(5)) {
    case 0: told(mos65_assemble(a, &config, bytes, n, &fault)); break;
    case 1: told(mos65_open(m, &config, a)); break;
    case 2: told(mos65_open_tape(m, &config, bytes, n, &fault)); break;
    case 3: told(mos65_assembly_close(a)); break;
    default: told(mos65_open_bytes(m, &config, (uint16_t)draw(65536), bytes, n));
    }
}

static void change_one(mos65_t *m) {
    mos65_ending_t end;
    mos65_given_t given = {(uint8_t)draw(256), (uint8_t)draw(256), (uint8_t)draw(256), draw(2), draw(2), draw(2)};
    mos65_called_t called;
    uint16_t at = (uint16_t)draw(65536);
    size_t n = fill(draw(50) ? 5 : 3000), length;
    switch (draw(16)) {
    case 14: told(mos65_record_run(m, draw(500), &end, out, draw(sizeof out), &length)); break;
    case 13: told(mos65_call_with(m, at, draw(500), &given, &called)); break;
    case 0: told(mos65_step(m)); break;
    case 1: told(mos65_reset(m)); break;
    case 2: told(mos65_irq(m, draw(2))); break;
    case 3: told(mos65_nmi(m)); break;
    case 4: told(mos65_set(m, draw(8), (uint16_t)draw(300))); break;
    case 5: told(mos65_patch(m, at, bytes, n)); break;
    case 6: told(mos65_write(m, at, bytes, n)); break;
    case 7: told(mos65_input(m, (uint8_t)at)); break;
    case 8: told(mos65_run(m, draw(500), &end)); break;
    case 9: told(mos65_run_to(m, at, draw(500), &end)); break;
    case 10: told(mos65_call(m, at, draw(500), &end)); break;
    case 11: told(mos65_back(m, draw(30))); break;
    case 12: told(draw(2) ? mos65_break(m, at & 7) : mos65_unbreak(m, at & 7)); break;
    default: told(draw(2) ? mos65_watch(m, at & 7) : mos65_unwatch(m, at & 7));
    }
}

static void look_at_one(mos65_t *m, mos65_assembly_t *a) {
    mos65_registers_t r;
    uint32_t count;
    size_t length, n = draw(40);
    int32_t value;
    mos65_line_t line;
    mos65_config_t config = {0, 0xF000, 0, 0, false, draw(2) ? 'C' : 'N'};
    switch (draw(15)) {
    case 0: told(mos65_registers(m, &r)); break;
    case 1: told(mos65_read(m, (uint16_t)draw(65536), bytes, draw(65537))); break;
    case 2: told(mos65_output_length(m, &count)); break;
    case 3: told(mos65_output(m, draw(4), bytes, draw(4))); break;
    case 4: told(mos65_disassemble(m, (uint16_t)draw(65536), bytes, draw(20), &count)); break;
    case 5: told(mos65_held(m, &count)); break;
    case 6: told(mos65_symbol_at(a, draw(3), bytes, n, &length, &value)); break;
    case 7: told(mos65_symbol(a, bytes, n, &value)); break;
    case 8: told(mos65_line(a, draw(12), &line, bytes, draw(260), &length)); break;
    case 9: told(mos65_line_count(a, &length)); break;
    case 10: told(mos65_faults(&config, (const uint8_t *)"a.a65", draw(6), bytes, fill(200), out, draw(sizeof out), &length)); break;
    case 11: told(mos65_record_start(m, out, draw(sizeof out), &length)); break;
    case 12: told(mos65_warnings(&config, (const uint8_t *)"a.a65", draw(6), bytes, fill(200), out, draw(sizeof out), &length)); break;
    case 13: told(mos65_tape(a, bytes, draw(300), &length)); break;
    default: told(mos65_listing(a, bytes, draw(300), &length));
    }
}

int main(void) {
    mos65_t m[2] = {MOS65_INIT, MOS65_INIT};
    mos65_assembly_t a = MOS65_INIT;
    for (int i = 0; i < 20000; i++) {
        mos65_t *one = &m[draw(2)];
        switch (draw(10)) {
        case 0: open_one(one, &a); break;
        case 1: look_at_one(one, &a); break;
        case 2: if (draw(20) == 0) told(mos65_close(one)); break;
        default: change_one(one);
        }
    }
    mos65_close(&m[0]), mos65_close(&m[1]), mos65_assembly_close(&a);
    printf("%d passed, %d failed\n", passed, failed);
    return failed != 0;
}
