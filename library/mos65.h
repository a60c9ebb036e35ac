/* mos65.h: an NMOS 6502 with a history of its whole states, for programs and test rigs in C and C++.
 *
 * A call answers a status: MOS65_OK, which is 0, or why it was refused. A refused call changes nothing, and
 * what it was to fill in stays as it was, but for *fault, which always tells. There are two exceptions: mos65_write
 * and what runs devices or goes back with them are many calls, and those before the refused one were made; and
 * where mos65_record_run is refused for memory, some of its steps were made. A call on what is not open answers MOS65_CLOSED before anything else. Four
 * statuses say that memory was refused: mos65_is_out_of_memory knows them.
 * A machine and an assembly are variables of the caller, MOS65_INIT before they are opened and again after
 * they are closed:
 *
 *     mos65_config_t config = MOS65_CONFIG;
 *     mos65_assembly_t routine = MOS65_INIT;
 *     mos65_t m = MOS65_INIT;
 *     mos65_fault_t fault;
 *     mos65_ending_t end;
 *     if (mos65_assemble(&routine, &config, source, length, &fault) != MOS65_OK) ...
 *     if (mos65_open(&m, &config, &routine) != MOS65_OK) ...
 *     mos65_call(&m, 0x0200, 1000, &end);
 *     mos65_close(&m);
 *     mos65_assembly_close(&routine);
 *
 * The library has no globals, starts no thread, opens no file, prints nothing and never ends the process.
 * It is proved; what it is called with is not, so a caller upholds these:
 *
 * - A mos65_t or a mos65_assembly_t is not copied, and nothing but these calls changes its fields.
 * - It stays on the thread that opened it, and has one call at a time, also where the call takes it as const.
 * - No pointer is NULL, also where its length is 0, but for what a device has and what a rig may leave out; and
 *   two pointers of one call do not overlap.
 * - malloc, realloc and free are of one allocator. No call is made from a signal handler, or from the forked
 *   child of a process with threads.
 */
#ifndef MOS65_H
#define MOS65_H
#include <stdbool.h>
#include <stddef.h>
#include <stdint.h>
#include <string.h>
#ifdef __cplusplus
extern "C" {
#endif

#define MOS65_VERSION "0.1.0"
#define MOS65_VERSION_NUMBER 100 /* 10,000 for each major version, 100 for each minor one */

/* Statuses. From 100 on, status % 100 is the fault's number as the program prints it. */
enum {
    MOS65_OK = 0,
    MOS65_CLOSED = 1,       /* no machine or no assembly is open here */
    MOS65_MISUSE = 2,       /* one is open already, or an argument is out of its range */
    MOS65_OUT_OF_MEMORY = 3,
    MOS65_NO_SUCH_NAME = 4,
    MOS65_NO_SUCH_LINE = 5,
    /* 100: an event is refused */
    MOS65_CYCLES_FULL = 101, MOS65_UNDOCUMENTED = 102, MOS65_CONSOLE_FULL = 103, MOS65_PAST_END = 104,
    MOS65_PORT_ADDRESS = 105, MOS65_BAD_LENGTH = 106, MOS65_INPUT_FULL = 107,
    /* 200: a call of the session is refused */
    MOS65_NO_HISTORY = 201, MOS65_TABLE_FULL = 202, MOS65_ALREADY_SET = 203, MOS65_NOT_SET = 204,
    MOS65_SESSION_PORT_ADDRESS = 205, MOS65_SESSION_OUT_OF_MEMORY = 206,
    /* 300: a source is refused, at the fault's line */
    MOS65_SOURCE_TOO_LARGE = 301, MOS65_SOURCE_LINE_TOO_LONG = 302, MOS65_SOURCE_NOT_ASCII = 303,
    MOS65_SOURCE_SYNTAX = 304, MOS65_SOURCE_RESERVED_NAME = 305, MOS65_SOURCE_DUPLICATE_NAME = 306,
    MOS65_SOURCE_UNKNOWN_HERE = 307, MOS65_SOURCE_NO_SUCH_FORM = 308, MOS65_SOURCE_TOO_MANY_NAMES = 309,
    MOS65_SOURCE_ORIGIN_RANGE = 310, MOS65_SOURCE_EXPR_RANGE = 311, MOS65_SOURCE_DIVIDE_BY_ZERO = 312,
    MOS65_SOURCE_UNDEFINED_NAME = 320, MOS65_SOURCE_BYTE_RANGE = 321, MOS65_SOURCE_WORD_RANGE = 322,
    MOS65_SOURCE_BRANCH_RANGE = 323, MOS65_SOURCE_PAST_END = 324, MOS65_SOURCE_OVERLAP = 325,
    MOS65_SOURCE_PORT_ADDRESS = 326, MOS65_SOURCE_VALUE_EXPR_RANGE = 327,
    MOS65_SOURCE_VALUE_DIVIDE_BY_ZERO = 328, MOS65_SOURCE_OUT_OF_MEMORY = 399,
    /* 400: a tape is refused, at the fault's offset */
    MOS65_TAPE_NO_RECORD = 401, MOS65_TAPE_BAD_HEX = 402, MOS65_TAPE_BAD_CHECKSUM = 403,
    MOS65_TAPE_PAST_END = 404, MOS65_TAPE_TRUNCATED = 405, MOS65_TAPE_BAD_COUNT = 406,
    MOS65_TAPE_JUNK_AFTER_END = 407, MOS65_TAPE_JUNK_BETWEEN = 408, MOS65_TAPE_OUT_OF_MEMORY = 409,
    /* 500: the configuration is refused */
    MOS65_BAD_MAP = 501
};

/* Registers, for mos65_set. */
enum { MOS65_A = 0, MOS65_X = 1, MOS65_Y = 2, MOS65_S = 3, MOS65_P = 4, MOS65_PC = 5 };

/* Why a run ended. */
enum { MOS65_LIMIT = 0, MOS65_BREAK = 1, MOS65_WATCH = 2, MOS65_REFUSED = 3 };

#define MOS65_RETURN 0xFFFF  /* where a call ends at its RTS: MOS65_BREAK at this address */
#define MOS65_NO_PORT 0xFFFF /* of a configuration: a machine without a port */
#define MOS65_CALL_EVENTS 4  /* how many events a call makes before its first step */
#define MOS65_FROM_EVENTS 6  /* how many events mos65_open_from makes */
#define MOS65_RECORD 26      /* the most bytes that the record of a step has */

typedef struct mos65 { void *opaque; bool live; } mos65_t;                   /* a machine, or none */
typedef struct mos65_assembly { void *opaque; bool live; } mos65_assembly_t; /* an assembly, or none */
#define MOS65_INIT {0, false}

typedef struct mos65_config {
    uint32_t history;             /* how many events are held: 0 to 65,536 */
    uint16_t port;                /* the port's base: a multiple of 4 in $0200..$FFF4; or MOS65_NO_PORT */
    uint16_t rom_first, rom_last; /* the ROM's first and last address, where has_rom is true */
    bool has_rom;
    uint8_t profile;              /* 'N' or 'C' */
} mos65_config_t;
#define MOS65_CONFIG {1024, 0xF000, 0, 0, false, 'N'}

typedef struct mos65_fault {
    uint32_t status; /* the status that was answered, where it is above 300 and below 500; else 0 */
    uint32_t line;   /* of a source, counted from 1; else 0 */
    uint64_t offset; /* of a tape, in bytes counted from 0; else 0 */
} mos65_fault_t;

typedef struct mos65_line {
    uint32_t number;     /* counted from 1 */
    uint32_t address;    /* 65,536 at most, where only a line without bytes can be */
    uint32_t count;      /* how many bytes the line denotes */
    bool is_instruction; /* and no directive */
} mos65_line_t;

typedef struct mos65_registers {
    uint64_t cycles;          /* since the start, whose reset took 7 */
    uint16_t pc;
    uint8_t a, x, y, s, p;    /* P with bit 5 set and B clear */
} mos65_registers_t;

typedef struct mos65_ending {
    uint32_t did;     /* how many steps were made */
    uint32_t why;     /* MOS65_LIMIT, MOS65_BREAK, MOS65_WATCH or MOS65_REFUSED */
    uint32_t status;  /* where a step is refused: its status; else 0 */
    uint16_t address; /* the breakpoint, the watch, or where the undocumented opcode stands; else 0 */
    uint8_t opcode;   /* the undocumented opcode; else 0 */
} mos65_ending_t;

/* What an instruction reads and stores besides registers, and besides the bytes of its own and of pointers. */
typedef struct mos65_access {
    uint16_t read, store;  /* the address that its operand is read from, and the one that it stores at; else 0 */
    bool reads, stores;
    uint8_t pushes;        /* how many bytes it pushes on the stack */
} mos65_access_t;

/* The registers that a call sets first: those for which has_ is true. */
typedef struct mos65_given {
    uint8_t a, x, y;
    bool has_a, has_x, has_y;
} mos65_given_t;
#define MOS65_GIVEN {0, 0, 0, false, false, false}

/* What a call with registers did. */
typedef struct mos65_called {
    uint64_t cycles;              /* from the subroutine's first instruction to its end */
    mos65_registers_t registers;  /* at its end */
    mos65_ending_t ending;
} mos65_called_t;

/* The library's version as a number, to be compared with MOS65_VERSION_NUMBER. */
uint32_t mos65_version_number(void);

/* ---- sources ---- */

/* A source is read as `mos65 check` reads one: byte-order marks at its start are skipped, a CR alone ends a line,
   and a comment may have letters of any language, for which the text that is assembled, its lines and its listing
   have `?`. A fault has the line and the column of the source that is given. */

/* Assembles n bytes of source. MISUSE where the assembly is open; then MISUSE or BAD_MAP for the
   configuration; then 300 + the fault's number, with its line in *fault. */
int mos65_assemble(mos65_assembly_t *assembly, const mos65_config_t *config, const uint8_t *source, size_t n,
                   mos65_fault_t *fault);
/* Puts the number of a name into *value. NO_SUCH_NAME where the source defines none such. */
int mos65_symbol(const mos65_assembly_t *assembly, const uint8_t *name, size_t n, int32_t *value);
/* Puts the number of names into *count. */
int mos65_symbol_count(const mos65_assembly_t *assembly, size_t *count);
/* Puts the name at an index, in order of definition, into name[0..*length), and its number into *value.
   NO_SUCH_NAME from the count on; MISUSE where n is below the name's length, at most 31. */
int mos65_symbol_at(const mos65_assembly_t *assembly, size_t index, uint8_t *name, size_t n, size_t *length,
                    int32_t *value);
/* Puts the number of lines that were read into *count: all, or up to that of .END. */
int mos65_line_count(const mos65_assembly_t *assembly, size_t *count);
/* Puts the line at an index, counted from 0, into *line, and its text without its end into text[0..*length).
   It takes the same time for each line. NO_SUCH_LINE from the count on; MISUSE where n is below the text's
   length, at most 255. */
int mos65_line(const mos65_assembly_t *assembly, size_t index, mos65_line_t *line, uint8_t *text, size_t n,
               size_t *length);
/* Puts the listing's first n bytes, or all of it, into out, and its whole length into *length. */
int mos65_listing(const mos65_assembly_t *assembly, uint8_t *out, size_t n, size_t *length);
/* Puts the first n bytes of the paper tape of its image, or all of it, into out, and its whole length into
   *length. */
int mos65_tape(const mos65_assembly_t *assembly, uint8_t *out, size_t n, size_t *length);
/* Puts the text of all faults of n bytes of source, as `mos65 check` prints them of a file of this name, into out,
   its first out_n bytes or all of it, and its whole length into *length: 0 where there is no fault. MISUSE or
   BAD_MAP for the configuration. */
int mos65_faults(const mos65_config_t *config, const uint8_t *name, size_t name_n, const uint8_t *source,
                 size_t n, uint8_t *out, size_t out_n, size_t *length);
/* The same of all warnings, as `mos65 check` prints them for a source that has no fault. */
int mos65_warnings(const mos65_config_t *config, const uint8_t *name, size_t name_n, const uint8_t *source,
                   size_t n, uint8_t *out, size_t out_n, size_t *length);
/* Frees an assembly. CLOSED where none is open. A machine that was opened with it goes on. */
int mos65_assembly_close(mos65_assembly_t *assembly);

/* ---- machines opened and closed ---- */

/* Opens a machine that starts with the assembly's image. MISUSE where the machine is open; CLOSED where the
   assembly is not; MISUSE or BAD_MAP for the configuration; SESSION_PORT_ADDRESS where the image has a byte
   at the port. */
int mos65_open(mos65_t *m, const mos65_config_t *config, const mos65_assembly_t *assembly);
/* The same with the image of a tape of n bytes. After the configuration, 400 + the fault's number, with its
   offset in *fault. */
int mos65_open_tape(mos65_t *m, const mos65_config_t *config, const uint8_t *tape, size_t n,
                    mos65_fault_t *fault);
/* The same with n bytes from an address on; MISUSE where they go past $FFFF, before the configuration. */
int mos65_open_bytes(mos65_t *m, const mos65_config_t *config, uint16_t address, const uint8_t *bytes,
                     size_t n);
/* Opens a machine that begins where another one is, for a second way from there: with the bytes of its memory,
   but those at the port of the configuration, and with its registers, which MOS65_FROM_EVENTS events set. What
   led the other one there is not held, its console, lines and breakpoints are not taken over, and the cycles
   begin with 7. MISUSE where m is open; CLOSED where the other one is not; MISUSE or BAD_MAP for the
   configuration, which may be another one. The other machine stays as it is. */
int mos65_open_from(mos65_t *m, const mos65_config_t *config, const mos65_t *other);
/* Frees a machine. CLOSED where none is open. */
int mos65_close(mos65_t *m);

/* ---- events: each that is accepted can be gone back over ---- */

/* One instruction or interrupt entry. UNDOCUMENTED, CONSOLE_FULL or CYCLES_FULL. */
int mos65_step(mos65_t *m);
/* A reset. CYCLES_FULL. */
int mos65_reset(mos65_t *m);
/* The IRQ line, true for the level that asks for an interrupt. */
int mos65_irq(mos65_t *m, bool level);
/* An NMI, pending until it is taken. */
int mos65_nmi(mos65_t *m);
/* A register's value. MISUSE for another register, or above 255 where it is not PC. */
int mos65_set(mos65_t *m, uint32_t reg, uint16_t value);
/* One to three bytes of memory, in ROM too. BAD_LENGTH, PAST_END, PORT_ADDRESS. */
int mos65_patch(mos65_t *m, uint16_t address, const uint8_t *bytes, size_t n);
/* A byte of input. INPUT_FULL. */
int mos65_input(mos65_t *m, uint8_t byte);

/* ---- runs, calls, and going back ---- */

/* Steps up to a limit: to the first that changes a watched byte, leads to a breakpoint, or is refused. */
int mos65_run(mos65_t *m, uint32_t limit, mos65_ending_t *ending);
/* The same, and stops at an address too. TABLE_FULL where 256 other breakpoints are set; SESSION_OUT_OF_MEMORY. */
int mos65_run_to(mos65_t *m, uint16_t address, uint32_t limit, mos65_ending_t *ending);
/* Calls a subroutine as a JSR at $FFFC would, and runs to its RTS: MOS65_BREAK at MOS65_RETURN, and the
   stack pointer is what it was. The JSR's own 6 cycles are not counted. did + MOS65_CALL_EVENTS events. */
int mos65_call(mos65_t *m, uint16_t address, uint32_t limit, mos65_ending_t *ending);
/* The same with registers set before, and tells the registers and the cycles too: one call for all that a
   test of a routine asks. did + MOS65_CALL_EVENTS events, and one for each register that is set. */
int mos65_call_with(mos65_t *m, uint16_t address, uint32_t limit, const mos65_given_t *given,
                    mos65_called_t *called);
/* Runs as mos65_run does, and ends too before an instruction that reads or stores at an address whose mark is
   not 0: why is MOS65_LIMIT then, and did below the limit. What mos65_access tells of the instruction is what
   counts; an interrupt may come in its place. MISUSE where n is not 65,536. */
int mos65_run_to_access(mos65_t *m, const uint8_t *marks, size_t n, uint32_t limit, mos65_ending_t *ending);
/* Goes back over the last count events. NO_HISTORY where fewer are held. */
int mos65_back(mos65_t *m, uint32_t count);
/* Puts into *count how many events can be gone back over. */
int mos65_held(const mos65_t *m, uint32_t *count);
/* Breakpoints, at most 256. ALREADY_SET, TABLE_FULL, SESSION_OUT_OF_MEMORY; NOT_SET. */
int mos65_break(mos65_t *m, uint16_t address);
int mos65_unbreak(mos65_t *m, uint16_t address);
/* Watches, at most 256: a run ends after a step that changes the byte at this address. A store of the byte
   that is there already, a store in ROM, a read, and what mos65_patch changes are not seen.
   SESSION_PORT_ADDRESS, ALREADY_SET, TABLE_FULL, SESSION_OUT_OF_MEMORY; NOT_SET. */
int mos65_watch(mos65_t *m, uint16_t address);
int mos65_unwatch(mos65_t *m, uint16_t address);

/* ---- a run as the data of a page ---- */

/* Puts the state of the machine, as the data of a page begin with it, into out, its first n bytes or all of it,
   and its whole length into *length. */
int mos65_record_start(const mos65_t *m, uint8_t *out, size_t n, size_t *length);
/* Runs as mos65_run does, and puts the records of its steps into out, their first n bytes or all of them, and
   their whole length into *length: at most MOS65_RECORD bytes a step. Where memory is refused, the steps until
   then were made. The forms of both are in crates/page_data/specs, Start.antt and Format.antt. */
int mos65_record_run(mos65_t *m, uint32_t limit, mos65_ending_t *ending, uint8_t *out, size_t n, size_t *length);

/* ---- looking: nothing is changed ---- */

/* The registers and the cycles. */
int mos65_registers(const mos65_t *m, mos65_registers_t *registers);
/* What the instruction at PC reads and stores, before its step is made. An interrupt may come in its place. */
int mos65_access(const mos65_t *m, mos65_access_t *access);
/* n bytes of memory from an address on; 0 at the port. PAST_END where they go past $FFFF. */
int mos65_read(const mos65_t *m, uint16_t address, uint8_t *out, size_t n);
/* How many bytes the console's output has, and n of them from an index on. MISUSE where it has fewer. */
int mos65_output_length(const mos65_t *m, uint32_t *count);
int mos65_output(const mos65_t *m, uint32_t from, uint8_t *out, size_t n);
/* The instruction at an address as text with zero bytes after it, and its bytes of memory in *count.
   MISUSE where n is below 13. */
int mos65_disassemble(const mos65_t *m, uint16_t address, uint8_t *out, size_t n, uint32_t *count);

/* Any number of bytes of memory, as one patch for each three. PAST_END, and nothing is made; PORT_ADDRESS at
   the first patch that meets the port, and those before it were made. */
static inline int mos65_write(mos65_t *m, uint16_t address, const uint8_t *bytes, size_t n) {
    if (n > 65536u - address) return m->live ? MOS65_PAST_END : MOS65_CLOSED;
    for (size_t done = 0; done < n; done += 3) {
        size_t left = n - done;
        int status = mos65_patch(m, (uint16_t)(address + done), bytes + done, left < 3 ? left : 3);
        if (status != MOS65_OK) return status;
    }
    return m->live ? MOS65_OK : MOS65_CLOSED;
}

/* ---- devices ---- */

/* A device at addresses: read gives the byte that an instruction reads at first..last, write takes the one that
   it stores there; NULL where there is none. They may look at the machine, set its lines, and change it by
   events; they make no step, no run and no call of mos65_back. */
typedef struct mos65_device {
    uint16_t first, last;
    uint8_t (*read)(void *user, uint16_t address);
    void (*write)(void *user, uint16_t address, uint8_t byte);
    void *user;
} mos65_device_t;

static inline const mos65_device_t *mos65_device_at(const mos65_device_t *devices, size_t n, uint16_t address,
                                                    bool is_read) {
    for (size_t i = 0; i < n; i++)
        if (devices[i].first <= address && address <= devices[i].last
            && (is_read ? devices[i].read != NULL : devices[i].write != NULL)) return &devices[i];
    return NULL;
}

/* One step with devices, told as a run of one. Where an instruction reads, it is made first and gone back over,
   since only the step tells whether an interrupt comes in its place. Then the byte is put into memory by a
   patch, and the step made. */
static inline int mos65_step_with(mos65_t *m, const mos65_device_t *devices, size_t n, mos65_ending_t *ending) {
    mos65_access_t access;
    mos65_registers_t before, after;
    int status = mos65_access(m, &access);
    if (status != MOS65_OK) return status;
    const mos65_device_t *reader = access.reads ? mos65_device_at(devices, n, access.read, true) : NULL;
    const mos65_device_t *writer = access.stores ? mos65_device_at(devices, n, access.store, false) : NULL;
    mos65_registers(m, &before);
    mos65_run(m, 1, ending);
    mos65_registers(m, &after);
    /* An interrupt's entry takes 7 cycles and pushes three bytes. No instruction that reads or stores does. */
    bool is_entry = after.cycles - before.cycles == 7 && after.s == (uint8_t)(before.s - 3);
    if (ending->did == 0 || is_entry) return MOS65_OK;
    if (reader != NULL) {
        status = mos65_back(m, 1);
        if (status != MOS65_OK) return status;
        uint8_t byte = reader->read(reader->user, access.read);
        status = mos65_patch(m, access.read, &byte, 1);
        if (status != MOS65_OK) return status;
        mos65_run(m, 1, ending);
    }
    if (writer != NULL && ending->did == 1) {
        uint8_t byte = 0;
        mos65_read(m, access.store, &byte, 1);
        writer->write(writer->user, access.store, byte);
    }
    return MOS65_OK;
}

/* Runs as mos65_run does, with devices, of which the first at an address counts. A byte that is given is one
   event more, before its step. NO_HISTORY at the first read where no event is held; PORT_ADDRESS where a device
   is at the port; what was made before stays. */
static inline int mos65_run_with(mos65_t *m, const mos65_device_t *devices, size_t n, uint32_t limit,
                                 mos65_ending_t *ending) {
    uint8_t marks[65536] = {0};
    mos65_ending_t end = {0, MOS65_LIMIT, 0, 0, 0};
    uint32_t did = 0;
    int status = MOS65_OK;
    for (size_t i = 0; i < n; i++)
        for (uint32_t at = devices[i].first; at <= devices[i].last; at++) marks[at] = 1;
    do {
        status = mos65_run_to_access(m, marks, sizeof marks, limit - did, &end);
        if (status != MOS65_OK) return status;
        did += end.did;
        if (end.why != MOS65_LIMIT || did == limit) break;
        status = mos65_step_with(m, devices, n, &end);
        if (status != MOS65_OK) return status;
        did += end.did;
    } while (end.why == MOS65_LIMIT && did < limit);
    *ending = end;
    ending->did = did;
    return MOS65_OK;
}

/* ---- devices whose state goes back ---- */

/* Devices, and all that they change: state[0..size), which goes back with the machine. What is called looks at
   the machine and changes the state, and nothing else: no call of it makes an event. */
typedef struct mos65_rig {
    const mos65_device_t *devices; /* n of them, of which the first at an address counts */
    size_t n;
    void *state;
    size_t size;
    const uint64_t *due;      /* a place in the state: the cycle at which `at` is called; NULL without `at` */
    void (*at)(void *user);   /* called before the first step that begins then or later; it moves *due; or NULL */
    bool (*asks)(void *user); /* whether a device asks for an IRQ, by the state alone; or NULL */
    void *user;
    uint8_t *marks;           /* 65,536 bytes of the caller */
    uint8_t *kept;            /* room of the caller for earlier states, of size + 8 bytes each; NULL for none */
    size_t room;              /* for so many: as many as the machine holds events are always enough */
    size_t first, count;      /* which of them there are, in a ring: the calls' own, as what follows */
    uint64_t lost;            /* the newest state that was dropped is from before this cycle; 0 where none was */
    bool level;               /* of the IRQ line, as the rig has set it */
} mos65_rig_t;

/* The place of an earlier state, counted from the oldest one: a cycle, and the state from before it. */
static inline uint8_t *mos65_rig_place(const mos65_rig_t *rig, size_t index) {
    return rig->kept + (rig->first + index) % rig->room * (rig->size + sizeof(uint64_t));
}

/* Keeps the state as one from before a cycle, unless one from before the same cycle is kept. */
static inline void mos65_rig_keep_before(mos65_rig_t *rig, uint64_t cycle) {
    uint64_t last = 0;
    if (rig->count > 0) memcpy(&last, mos65_rig_place(rig, rig->count - 1), sizeof last);
    if (rig->count > 0 && last == cycle) return;
    if (rig->room == 0) {
        rig->lost = cycle;
        return;
    }
    if (rig->count == rig->room) {
        memcpy(&rig->lost, mos65_rig_place(rig, 0), sizeof rig->lost);
        rig->first = (rig->first + 1) % rig->room;
        rig->count--;
    }
    uint8_t *place = mos65_rig_place(rig, rig->count++);
    memcpy(place, &cycle, sizeof cycle);
    memcpy(place + sizeof cycle, rig->state, rig->size);
}

/* Sets the IRQ line to what the devices ask for, by one event where that has changed. */
static inline int mos65_rig_ask(mos65_rig_t *rig, mos65_t *m) {
    bool level = rig->asks != NULL && rig->asks(rig->user);
    int status = level == rig->level ? MOS65_OK : mos65_irq(m, level);
    if (status == MOS65_OK) rig->level = level;
    return status;
}

/* Begins with the devices, of which the caller has filled in all but the last four fields: the rig keeps no
   earlier state, and takes the IRQ line for 0. Before the state is changed otherwise than by the rig's calls,
   mos65_rig_keep keeps it; MOS65_CLOSED. */
static inline void mos65_rig_start(mos65_rig_t *rig) {
    memset(rig->marks, 0, 65536);
    for (size_t i = 0; i < rig->n; i++)
        for (uint32_t at = rig->devices[i].first; at <= rig->devices[i].last; at++) rig->marks[at] = 1;
    rig->first = rig->count = 0;
    rig->lost = 0;
    rig->level = false;
}
static inline int mos65_rig_keep(mos65_rig_t *rig, const mos65_t *m) {
    mos65_registers_t now;
    int status = mos65_registers(m, &now);
    if (status == MOS65_OK) mos65_rig_keep_before(rig, now.cycles);
    return status;
}

/* Calls `at` where it is due, and puts into *most how many steps are made before it is looked at again. No step
   takes more than 7 cycles. */
static inline int mos65_rig_ready(mos65_rig_t *rig, mos65_t *m, uint32_t *most) {
    mos65_registers_t now;
    int status = mos65_registers(m, &now);
    if (status != MOS65_OK) return status;
    if (rig->at != NULL) {
        if (*rig->due <= now.cycles) {
            mos65_rig_keep_before(rig, now.cycles);
            rig->at(rig->user);
        }
        uint64_t steps = *rig->due <= now.cycles ? 1 : (*rig->due - now.cycles - 1) / 7 + 1;
        if (steps < *most) *most = (uint32_t)steps;
    }
    return mos65_rig_ask(rig, m);
}

/* Runs as mos65_run_with does. A change of the line is one event more: after the step in which a device was
   asked, or before the one that `at` comes before. */
static inline int mos65_rig_run(mos65_rig_t *rig, mos65_t *m, uint32_t limit, mos65_ending_t *ending) {
    mos65_ending_t end = {0, MOS65_LIMIT, 0, 0, 0};
    mos65_registers_t now;
    uint32_t did = 0;
    int status = mos65_registers(m, &now);
    while (status == MOS65_OK && end.why == MOS65_LIMIT && did < limit) {
        uint32_t most = limit - did;
        status = mos65_rig_ready(rig, m, &most);
        if (status == MOS65_OK) status = mos65_run_to_access(m, rig->marks, 65536, most, &end);
        if (status != MOS65_OK) break;
        did += end.did;
        if (end.why != MOS65_LIMIT || end.did == most) continue;
        mos65_registers(m, &now);
        mos65_rig_keep_before(rig, now.cycles + 1);
        status = mos65_step_with(m, rig->devices, rig->n, &end);
        if (status != MOS65_OK) break;
        did += end.did;
        status = mos65_rig_ask(rig, m);
    }
    if (status != MOS65_OK) return status;
    *ending = end;
    ending->did = did;
    return MOS65_OK;
}

/* Goes back, with the state, to the last event after which at most so many cycles have passed. Where the machine
   or the rig holds less, NO_HISTORY: the machine stands at the oldest event that it holds, or where it was to go
   to, and the state is the oldest that is kept. */
static inline int mos65_rig_back_to(mos65_rig_t *rig, mos65_t *m, uint64_t cycle) {
    mos65_registers_t now;
    uint64_t from = 0;
    int status = mos65_registers(m, &now), back = MOS65_OK;
    while (status == MOS65_OK && back == MOS65_OK && now.cycles > cycle) {
        back = mos65_back(m, 1);
        status = mos65_registers(m, &now);
    }
    if (status != MOS65_OK) return status;
    while (rig->count > 0) {
        const uint8_t *place = mos65_rig_place(rig, rig->count - 1);
        memcpy(&from, place, sizeof from);
        if (from <= now.cycles) break;
        memcpy(rig->state, place + sizeof from, rig->size);
        rig->count--;
    }
    rig->level = rig->asks != NULL && rig->asks(rig->user);
    return rig->lost > now.cycles ? MOS65_NO_HISTORY : back;
}

/* Whether a status says that a request for memory was refused. */
static inline bool mos65_is_out_of_memory(int status) {
    return status == MOS65_OUT_OF_MEMORY || status == MOS65_SESSION_OUT_OF_MEMORY
        || status == MOS65_SOURCE_OUT_OF_MEMORY || status == MOS65_TAPE_OUT_OF_MEMORY;
}

/* A status's name, as the program prints it. */
static inline const char *mos65_status_name(int status) {
    static const char *const own[] = {"Ok", "Closed", "Misuse", "OutOfMemory", "NoSuchName",
        "NoSuchLine"};
    static const char *const event[] = {"", "CyclesFull", "Undocumented", "ConsoleFull", "PastEnd",
        "PortAddress", "BadLength", "InputFull"};
    static const char *const session[] = {"", "NoHistory", "TableFull", "AlreadySet", "NotSet",
        "PortAddress", "OutOfMemory"};
    static const char *const source[] = {"", "TooLarge", "LineTooLong", "NotAscii", "Syntax",
        "ReservedName", "DuplicateName", "UnknownHere", "NoSuchForm", "TooManyNames", "OriginRange",
        "ExprRange", "DivideByZero", "NotOneLine", "", "", "", "", "", "", "UndefinedName", "ByteRange",
        "WordRange", "BranchRange", "PastEnd", "Overlap", "PortAddress", "ExprRange", "DivideByZero"};
    static const char *const tape[] = {"", "NoRecord", "BadHex", "BadChecksum", "PastEnd", "Truncated",
        "BadCount", "JunkAfterEnd", "JunkBetween", "OutOfMemory"};
    unsigned number = (unsigned)status % 100;
#define MOS65_NAME_IN(table) (number < sizeof table / sizeof *table ? table[number] : "")
    if (status == MOS65_SOURCE_OUT_OF_MEMORY) return "OutOfMemory";
    if (status == MOS65_BAD_MAP) return "BadMap";
    switch (status / 100) {
    case 0: return MOS65_NAME_IN(own);
    case 1: return MOS65_NAME_IN(event);
    case 2: return MOS65_NAME_IN(session);
    case 3: return MOS65_NAME_IN(source);
    case 4: return MOS65_NAME_IN(tape);
    default: return "";
    }
#undef MOS65_NAME_IN
}

#ifdef __cplusplus
}
#endif
#endif
