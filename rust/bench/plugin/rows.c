/*
 * A plugin of QEMU's user emulation that tells which rows of a table a call loads, and whether for a copy or for a look.
 *
 * The program (rust/bench/src/rows.rs) hands over a mailbox: the bytes of each column, where copies of them can stand, where
 * the records of the recording begin. During a call each load is looked at:
 *
 * - A load is of a row where at that moment all bytes of a column stand around it: in the configuration that the caller lends,
 *   or on the stack. A configuration that is lent needs no copy, but a compiler may make one, and nothing is said beforehand about
 *   where.
 * - What was loaded is followed through the instructions that run. Where a register goes nowhere but into memory by plain moves
 *   until it is overwritten, the load was a copy; the memory is followed too, so that a row put aside and compared later is no
 *   copy. Everything else is a look: compared, added, handed on, dropped unused, or any instruction not known here. So a load
 *   may wrongly be called a look; one that is wrongly called a copy was put into memory and never used, and of a single row the
 *   program takes even that for a look.
 * - A load from a record that was not touched before begins the next event.
 *
 * The answers are written into the program's memory. QEMU's header is in no package, so what is used of it is declared here, as
 * its interface of version 1 has it; guest_base is a variable of QEMU itself, and says where the program's memory stands in it.
 */
#include <stdbool.h>
#include <stddef.h>
#include <stdint.h>
#include <stdio.h>
#include <stdlib.h>
#include <string.h>

typedef uint64_t qemu_plugin_id_t;
typedef uint32_t qemu_plugin_meminfo_t;
struct qemu_plugin_tb;
struct qemu_plugin_insn;
struct qemu_info_t;
enum qemu_plugin_cb_flags { QEMU_PLUGIN_CB_NO_REGS };
enum qemu_plugin_mem_rw { QEMU_PLUGIN_MEM_R = 1, QEMU_PLUGIN_MEM_W, QEMU_PLUGIN_MEM_RW };

extern void qemu_plugin_register_vcpu_tb_trans_cb(qemu_plugin_id_t id, void (*told)(qemu_plugin_id_t, struct qemu_plugin_tb *));
extern void qemu_plugin_register_vcpu_insn_exec_cb(struct qemu_plugin_insn *insn, void (*told)(unsigned, void *),
    enum qemu_plugin_cb_flags flags, void *with);
extern void qemu_plugin_register_vcpu_mem_cb(struct qemu_plugin_insn *insn,
    void (*told)(unsigned, qemu_plugin_meminfo_t, uint64_t, void *), enum qemu_plugin_cb_flags flags, enum qemu_plugin_mem_rw rw,
    void *with);
extern size_t qemu_plugin_tb_n_insns(const struct qemu_plugin_tb *block);
extern struct qemu_plugin_insn *qemu_plugin_tb_get_insn(const struct qemu_plugin_tb *block, size_t at);
extern uint64_t qemu_plugin_insn_vaddr(const struct qemu_plugin_insn *insn);
extern char *qemu_plugin_insn_disas(const struct qemu_plugin_insn *insn);
extern unsigned qemu_plugin_mem_size_shift(qemu_plugin_meminfo_t info);
extern bool qemu_plugin_mem_is_store(qemu_plugin_meminfo_t info);
extern uintptr_t guest_base;

int qemu_plugin_version = 1;

/* ---- what is shared with rust/bench/src/rows.rs, which has the same in the same order ---- */

#define MAGIC 0x7365656e726f7773u
#define COLUMNS 3

enum { PLUGGED = 1, BEGIN = 2, END = 3 };                              /* commands */
enum { OUT_OF_ORDER = 1, NO_ROOM = 2 };                                /* troubles */
enum { LOOKED = 1, COPIED = 2 };                                       /* what a load was for */

struct column {
    uint64_t bytes;     /* where the column's bytes stand, to compare with */
    uint64_t length;    /* how many */
    uint64_t place;     /* where in the configuration */
    uint64_t whole;     /* whether all of the configuration must stand there: a column of zeros is met anywhere */
};

struct load {
    uint64_t pc;
    uint64_t copy;      /* where the copy of the column begins */
    int32_t event;      /* -1 before the first */
    uint8_t column;
    uint8_t row;        /* the first row touched */
    uint8_t rows;       /* how many */
    uint8_t was;
};

struct mailbox {
    uint64_t magic;
    uint64_t command;
    uint64_t stack, stack_end;      /* where copies can stand */
    uint64_t caller, caller_end;    /* the caller's own configuration */
    uint64_t records, nrecords;     /* addresses of records, and behind them the end of the last: nrecords + 1 of them */
    struct column columns[COLUMNS];
    uint64_t loads, room;           /* the answers, and how many fit */
    uint64_t count;
    uint64_t trouble;
};

/* ---- instructions ---- */

typedef uint64_t registers; /* a bit each: 16 general ones, then 32 of vectors */

enum kind { OTHER, LOAD, STORE, OVERWRITE, MEMORY_TO_MEMORY };

struct instruction {
    uint64_t pc;
    registers named;    /* all that it names or uses unnamed */
    registers filled;   /* what it gives a new value, whatever was there before */
    enum kind kind;
    int register_;      /* of LOAD where to, of STORE from where */
};

static int general(const char *name, size_t length) {
    static const char *const stems[] = { "ax", "cx", "dx", "bx", "sp", "bp", "si", "di" };
    if (length >= 2 && name[0] == 'r' && name[1] >= '0' && name[1] <= '9') {
        return atoi(name + 1);
    }
    if (length == 3 && (name[0] == 'r' || name[0] == 'e')) {
        name++, length--;
    }
    for (int k = 0; k < 8; k++) {
        if (length == 2 && strncmp(name, stems[k], 2) == 0) return k;
        if (k < 4 && length == 2 && name[0] == stems[k][0] && (name[1] == 'l' || name[1] == 'h')) return k;
        if (k >= 4 && length == 3 && strncmp(name, stems[k], 2) == 0 && name[2] == 'l') return k;
    }
    return -1;
}

/* The upper part of a vector that a shorter move leaves as it was is taken for gone: nothing looks at it, as code for long
   vectors fills a register before it reads it. */

/* the register of a name behind its %, or -1 for one that holds no data here (rip, segments, masks) */
static int register_of(const char *name, size_t length) {
    if (length > 3 && strchr("xyz", name[0]) && strncmp(name + 1, "mm", 2) == 0) {
        return 16 + atoi(name + 3) % 32;
    }
    return general(name, length);
}

static size_t word(const char *text) {
    size_t length = 0;
    while ((text[length] >= 'a' && text[length] <= 'z') || (text[length] >= '0' && text[length] <= '9')) length++;
    return length;
}

static registers named_in(const char *text) {
    registers named = 0;
    for (const char *at = strchr(text, '%'); at; at = strchr(at + 1, '%')) {
        int found = register_of(at + 1, word(at + 1));
        if (found >= 0) named |= (registers)1 << found;
    }
    return named;
}

static bool starts(const char *text, const char *with) {
    return strncmp(text, with, strlen(with)) == 0;
}

/* the operands, AT&T's order, split at commas outside of parentheses */
static int split(char *text, char *operands[4]) {
    int n = 0, depth = 0;
    while (*text == ' ') text++;
    if (!*text) return 0;
    operands[n++] = text;
    for (; *text; text++) {
        depth += (*text == '(') - (*text == ')');
        if (*text == ',' && depth == 0 && n < 4) {
            *text = 0;
            do text++; while (*text == ' ');
            operands[n++] = text--;
        }
    }
    return n;
}

static bool memory(const char *operand) {
    return strchr(operand, '(') != NULL || strchr(operand, ':') != NULL || (operand[0] != '%' && operand[0] != '$');
}

/* Unnamed uses of general registers: by multiplication and division, by widening, by string instructions, by the system. */
static registers unnamed(const char *name, int operands) {
    const registers ax = 1, cx = 2, dx = 4, si = 64, di = 128, xmm0 = 1 << 16, all = ~(registers)0;
    if (starts(name, "syscall") || starts(name, "int") || starts(name, "cpuid")) return all;
    if (starts(name, "xsave") || starts(name, "fxsave")) return all;
    if (starts(name, "blendv") || starts(name, "pblendv")) return xmm0;
    if (starts(name, "rep")) return cx | si | di;
    bool product = starts(name, "mul") || starts(name, "imul") || starts(name, "div") || starts(name, "idiv");
    if (product && operands == 1) return ax | dx;
    if (starts(name, "c") && operands == 0) return ax | dx; /* cltq, cqto and their like */
    if (starts(name, "cmpxchg") || starts(name, "xlat")) return ax | dx;
    return 0;
}

static struct instruction *decoded(struct qemu_plugin_insn *insn) {
    struct instruction *is = calloc(1, sizeof *is);
    char *text = qemu_plugin_insn_disas(insn);
    if (!is || !text) {
        fprintf(stderr, "rows: this QEMU does not tell what an instruction is: it was built without capstone\n");
        exit(2);
    }
    is->pc = qemu_plugin_insn_vaddr(insn);
    is->register_ = -1;
    is->named = named_in(text);
    char *name = text;
    bool repeated = starts(name, "rep");
    char *rest = text + strcspn(text, " ");
    if (repeated && *rest) { /* the prefix, then the name */
        name = rest + 1;
        rest = name + strcspn(name, " ");
    }
    if (*rest) *rest++ = 0;
    char *operands[4];
    int n = split(rest, operands);
    is->named |= unnamed(repeated ? "rep" : name, n);
    bool move = starts(name, "mov") || starts(name, "vmov") || starts(name, "lddqu") || starts(name, "vlddqu");
    /* some moves fill a part of a vector, and what was there before stays beside it */
    const char *plain = name + (name[0] == 'v');
    bool part = starts(plain, "movh") || starts(plain, "movlp") || starts(plain, "movlh")
        || ((starts(plain, "movss") || starts(plain, "movsd")) && n == 2 && !memory(operands[0]));
    if (n == 2 && move && memory(operands[0]) && memory(operands[1])) {
        is->kind = MEMORY_TO_MEMORY;
    } else if (n == 1 && starts(name, "push")) {
        is->kind = memory(operands[0]) ? MEMORY_TO_MEMORY : STORE;
        if (operands[0][0] == '%') is->register_ = register_of(operands[0] + 1, word(operands[0] + 1));
    } else if (n == 1 && starts(name, "pop") && operands[0][0] == '%') {
        is->kind = OVERWRITE;
        is->filled = named_in(operands[0]);
    } else if (n == 2 && operands[1][0] == '%' && (move || starts(name, "lea"))) {
        int to = register_of(operands[1] + 1, word(operands[1] + 1));
        bool from_memory = move && memory(operands[0]);
        /* eax and rax are filled whole, ax and al in part */
        size_t length = word(operands[1] + 1);
        const char *to_name = operands[1] + 1;
        bool whole = !part && (to >= 16 || (to_name[0] == 'e' && length == 3) || (to_name[0] == 'r' && length >= 2
            && to_name[length - 1] != 'w' && to_name[length - 1] != 'b'));
        is->kind = !from_memory ? OVERWRITE : part ? OTHER : LOAD;
        is->register_ = to;
        if (to >= 0 && whole && !(named_in(operands[0]) & (registers)1 << to)) is->filled = (registers)1 << to;
    } else if (n == 2 && move && operands[0][0] == '%' && memory(operands[1])) {
        is->register_ = register_of(operands[0] + 1, word(operands[0] + 1));
        /* an address made of it is a use */
        bool address = is->register_ >= 0 && named_in(operands[1]) & (registers)1 << is->register_;
        is->kind = address || part ? OTHER : STORE;
    } else if (n >= 2 && (starts(name, "xor") || starts(name, "pxor") || starts(name, "vpxor") || starts(name, "vxorp"))
        && strcmp(operands[0], operands[1]) == 0 && operands[0][0] == '%') {
        /* a register with itself is zero, whatever it was */
        int to = register_of(operands[n - 1] + 1, word(operands[n - 1] + 1));
        size_t length = word(operands[n - 1] + 1);
        is->kind = OVERWRITE;
        if (to >= 0 && (to >= 16 || length >= 3)) is->filled = (registers)1 << to;
        is->named = is->filled;
    }
    free(text);
    return is;
}

/* ---- the run ---- */

static struct mailbox *box;
static uint64_t box_at;             /* the mailbox's address in the program */
static bool on;                     /* a call is under way */
static uint64_t turn;               /* instructions run, to put the parts of one load together */
static int32_t event;
static registers holding;           /* registers that hold rows */
static struct held {
    int n;
    struct { uint32_t load; uint64_t from, to; } parts[8];  /* which bytes of the register, and which load they came by */
} held[48];
static uint32_t *aside;             /* for each two bytes of the stack the load whose rows were put there, plus one */
static uint64_t aside_size;
static uint8_t *stored, *used;      /* of each load */
static uint32_t last;               /* the last load of a row, and its turn */
static uint64_t last_turn;
static uint64_t whole[2], whole_turn[2]; /* where the load and the store of this turn begin: QEMU does a vector in parts */

static void *at(uint64_t address) {
    return (void *)(guest_base + address);
}

static struct load *load_of(uint32_t k) {
    return (struct load *)at(box->loads) + k;
}

static void begin(void) {
    free(aside), free(stored), free(used);
    aside_size = (box->stack_end - box->stack) / 2;
    aside = calloc(aside_size, sizeof *aside);
    stored = calloc(box->room, 1);
    used = calloc(box->room, 1);
    if (!aside || !stored || !used) {
        fprintf(stderr, "rows: no memory\n");
        exit(2);
    }
    holding = 0;
    event = -1;
    turn = 1;
    last_turn = whole_turn[0] = whole_turn[1] = 0;
    box->count = 0;
    box->trouble = 0;
    on = true;
}

static void end(void) {
    on = false;
    for (uint32_t k = 0; k < box->count; k++) {
        load_of(k)->was = stored[k] && !used[k] ? COPIED : LOOKED;
    }
}

/* the rows in a register are put to use, or dropped */
static void release(int r, bool use) {
    for (int k = 0; use && k < held[r].n; k++) used[held[r].parts[k].load] = 1;
    held[r].n = 0;
    holding &= ~((registers)1 << r);
}

/* bytes of a register hold rows of a load */
static void hold(int r, uint32_t load, uint64_t from, uint64_t to) {
    struct held *h = &held[r];
    if (!(holding & (registers)1 << r)) h->n = 0;
    holding |= (registers)1 << r;
    for (int k = 0; k < h->n; k++) {
        if (h->parts[k].load == load && h->parts[k].to == from) {
            h->parts[k].to = to;
            return;
        }
    }
    if (h->n == 8) { /* more than is kept */
        used[load] = 1;
        return;
    }
    h->parts[h->n].load = load;
    h->parts[h->n].from = from;
    h->parts[h->n++].to = to;
}

/* where in its register a part of this turn's load or store stands */
static uint64_t place(int store, uint64_t address) {
    if (whole_turn[store] != turn || address < whole[store]) {
        whole_turn[store] = turn;
        whole[store] = address;
    }
    return address - whole[store];
}

/* before each instruction: what becomes of registers that hold rows */
static void runs(unsigned cpu, void *with) {
    (void)cpu;
    const struct instruction *is = with;
    if (!on) return;
    turn++;
    registers met = holding & is->named;
    if (!met) return;
    for (int r = 0; r < 48; r++) {
        registers one = (registers)1 << r;
        if (!(met & one)) continue;
        if (is->filled & one) {
            release(r, false);
        } else if (!(is->kind == STORE && is->register_ == r)) {
            release(r, true);
        }
    }
}

static bool inside(uint64_t address, uint64_t size, uint64_t from, uint64_t to) {
    return from <= address && address + size <= to;
}

/* whether all of a column stands there now */
static bool stands(const struct column *c, uint64_t copy, uint64_t from, uint64_t to) {
    if (!inside(copy, c->length, from, to)) return false;
    const uint8_t *here = at(copy), *wanted = at(c->bytes);
    if (memcmp(here, wanted, 2) || memcmp(here, wanted, c->length)) return false;
    if (!c->whole) return true;
    const uint8_t *configuration = at(box->caller);
    uint64_t size = box->caller_end - box->caller;
    /* three numbers, and behind a gap the rest */
    return inside(copy - c->place, size, from, to) && memcmp(here - c->place, configuration, 6) == 0
        && memcmp(here - c->place + 8, configuration + 8, size - 8) == 0;
}

static void add(const struct instruction *is, uint8_t column, uint64_t copy, uint64_t address, uint64_t size) {
    const struct column *c = &box->columns[column];
    uint64_t from = address > copy ? address - copy : 0, to = address + size - copy;
    if (to > c->length) to = c->length;
    uint8_t row = from / 2, behind = (to + 1) / 2;
    struct load *load = last_turn == turn && box->count ? load_of(last) : NULL;
    if (load && load->column == column && load->copy == copy && load->row + load->rows >= row && row >= load->row) {
        /* QEMU loads a vector in parts */
        if (behind > load->row + load->rows) load->rows = behind - load->row;
    } else {
        if (box->count == box->room) {
            box->trouble = NO_ROOM;
            return;
        }
        last = box->count++;
        last_turn = turn;
        *load_of(last) = (struct load) { is->pc, copy, event, column, row, behind - row, 0 };
    }
    if (is->kind == LOAD && is->register_ >= 0) {
        uint64_t first = place(0, address);
        if (address < copy) first += copy - address;
        hold(is->register_, last, first, first + to - from);
    } else if (is->kind == MEMORY_TO_MEMORY) {
        stored[last] = 1;
    } else {
        used[last] = 1;
    }
}

static void loads(const struct instruction *is, uint64_t address, uint64_t size) {
    place(0, address);
    const uint64_t *records = at(box->records);
    if (box->nrecords && inside(address, size, records[0], records[box->nrecords])) {
        int32_t k = event < 0 ? 0 : event;
        while (address >= records[k + 1]) k++;
        if (address < records[k] || k > event + 1) box->trouble = OUT_OF_ORDER;
        event = k;
        return;
    }
    bool on_stack = inside(address, size, box->stack, box->stack_end);
    uint64_t from = on_stack ? box->stack : box->caller, to = on_stack ? box->stack_end : box->caller_end;
    if (!inside(address, size, from, to)) return;
    uint64_t rows[COLUMNS][2] = { { 0 } }; /* the bytes of this load that are rows, of each column */
    for (uint8_t column = 0; column < COLUMNS; column++) {
        const struct column *c = &box->columns[column];
        uint64_t first = address >= from + c->length ? address - c->length + 1 : from;
        for (uint64_t copy = first + (first & 1); copy < address + size; copy += 2) {
            if (stands(c, copy, from, to)) {
                add(is, column, copy, address, size);
                rows[column][0] = copy;
                rows[column][1] = copy + c->length;
            }
        }
    }
    if (!on_stack) return;
    /* no row of a whole column, but perhaps one that was put aside */
    for (uint64_t k = (address - box->stack) / 2; k <= (address + size - 1 - box->stack) / 2; k++) {
        bool row = false;
        for (int column = 0; column < COLUMNS; column++) {
            row = row || inside(box->stack + 2 * k, 2, rows[column][0], rows[column][1]);
        }
        if (row || !aside[k]) continue;
        uint32_t load = aside[k] - 1;
        if (is->kind == LOAD && is->register_ >= 0) {
            uint64_t first = box->stack + 2 * k > address ? box->stack + 2 * k - address : 0;
            hold(is->register_, load, place(0, address) + first, place(0, address) + first + 2);
        } else {
            used[load] = 1;
        }
    }
}

static void put(uint64_t address, uint64_t size, uint32_t from) {
    for (uint64_t k = (address - box->stack) / 2; k <= (address + size - 1 - box->stack) / 2; k++) aside[k] = from;
}

static void stores(const struct instruction *is, uint64_t address, uint64_t size) {
    bool followed = inside(address, size, box->stack, box->stack_end);
    if (followed) put(address, size, 0);
    if (is->kind == MEMORY_TO_MEMORY && last_turn == turn && box->count) {
        if (followed) put(address, size, last + 1); else used[last] = 1;
    }
    if (is->kind != STORE || is->register_ < 0 || !(holding & (registers)1 << is->register_)) return;
    uint64_t first = place(1, address);
    const struct held *h = &held[is->register_];
    for (int k = 0; k < h->n; k++) {
        uint64_t from = h->parts[k].from > first ? h->parts[k].from : first;
        uint64_t to = h->parts[k].to < first + size ? h->parts[k].to : first + size;
        if (from >= to) continue;
        stored[h->parts[k].load] = 1;
        /* what leaves the memory that is followed counts as used */
        if (followed) put(address + from - first, to - from, h->parts[k].load + 1); else used[h->parts[k].load] = 1;
    }
}

/* behind each load and store */
static void touches(unsigned cpu, qemu_plugin_meminfo_t info, uint64_t address, void *with) {
    (void)cpu;
    const struct instruction *is = with;
    bool store = qemu_plugin_mem_is_store(info);
    uint64_t size = (uint64_t)1 << qemu_plugin_mem_size_shift(info);
    if (!box) {
        /* the mailbox is where the program stores the magic number */
        if (store && size == 8 && *(uint64_t *)at(address) == MAGIC) {
            box = at(address);
            box_at = address;
            box->command = PLUGGED;
        }
        return;
    }
    if (store && address == box_at + offsetof(struct mailbox, command)) {
        if (box->command == BEGIN) begin();
        if (box->command == END) end();
        return;
    }
    if (!on) return;
    if (store) {
        stores(is, address, size);
    } else {
        loads(is, address, size);
    }
}

static void translated(qemu_plugin_id_t id, struct qemu_plugin_tb *block) {
    (void)id;
    for (size_t k = 0; k < qemu_plugin_tb_n_insns(block); k++) {
        struct qemu_plugin_insn *insn = qemu_plugin_tb_get_insn(block, k);
        struct instruction *is = decoded(insn);
        qemu_plugin_register_vcpu_insn_exec_cb(insn, runs, QEMU_PLUGIN_CB_NO_REGS, is);
        qemu_plugin_register_vcpu_mem_cb(insn, touches, QEMU_PLUGIN_CB_NO_REGS, QEMU_PLUGIN_MEM_RW, is);
    }
}

int qemu_plugin_install(qemu_plugin_id_t id, const struct qemu_info_t *info, int argc, char **argv) {
    (void)info;
    (void)argc;
    (void)argv;
    qemu_plugin_register_vcpu_tb_trans_cb(id, translated);
    return 0;
}
