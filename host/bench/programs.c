// The programs that the benchmark runs, put together word by word.
//
// Low memory is the system's: program bytes below USER_PROGRAM and data addresses below USER_DATA are
// protected from user mode, the control block among them, so every fetch, jump, load and store of user
// mode passes both bounds. Words that are not written are 0, so the nops that must follow retu and reti are
// there. A scene runs for ever; the step limit ends it.
#include "programs.h"

#include <stdbool.h>
#include <stdlib.h>

enum { USER_PROGRAM = 0x400, SYSTEM_DATA = 0x100, USER_DATA = 0x200 };

// ---- an assembler

// Operations by number.
enum {
    NOP, ADD, ADDU, SUB, SUBU, AND, OR, XOR, MULS, MULU, MULUS, MULS_16, MULU_16, MULUS_16,
    SLL, SRL, SRA, SEXT, ADDI, ADDIU, ANDI, ORI, MULI, SLLI, SRLI, SRAI, SEXTI, LD, ST, MOV, NOT,
    MULHI, CMP, CMPI, LLI, LUI, JMP, JAL, JMPR, JALR, BC, BEGT, BELT, BEQ, BGT, BLT, BNE, BNC,
    SCALL, RETU, RETI, CHRS, DI, EI, SWM, TRAP, SCON, RCON,
};

// Conditions.
enum { EQ = 3, GT = 4, LT = 5, NE = 6 };

// A program being written at an address.
struct code {
    uint8_t *bytes;
    uint32_t at;
};

// Puts a 32-bit word at an address.
static void put(struct code *c, uint32_t address, uint32_t word)
{
    c->bytes[address] = (uint8_t)(word >> 24);
    c->bytes[address + 1] = (uint8_t)(word >> 16);
    c->bytes[address + 2] = (uint8_t)(word >> 8);
    c->bytes[address + 3] = (uint8_t)word;
}

// Writes a 32-bit word, and gives its address.
static uint32_t emit(struct code *c, uint32_t word)
{
    uint32_t at = c->at;
    put(c, at, word);
    c->at += 4;
    return at;
}

// Writes a 16-bit word.
static void emit_16(struct code *c, uint32_t half)
{
    c->bytes[c->at] = (uint8_t)(half >> 8);
    c->bytes[c->at + 1] = (uint8_t)half;
    c->at += 2;
}

// An operation on registers.
static uint32_t rrr(uint32_t op, uint32_t dreg, uint32_t sreg1, uint32_t sreg2)
{
    return op << 26 | dreg << 10 | sreg1 << 5 | sreg2;
}

// An operation on a register and a 9-bit immediate; ld and st have the base as source.
static uint32_t rri(uint32_t op, uint32_t dreg, uint32_t sreg1, int32_t immediate)
{
    uint32_t n = (uint32_t)immediate & 0x1FF;
    return op << 26 | (n >> 5) << 15 | dreg << 10 | sreg1 << 5 | (n & 31);
}

// cmp or cmpi to a condition register.
static uint32_t to(uint32_t creg, uint32_t word)
{
    return word | creg << 22;
}

// A word that runs on a condition of a condition register.
static uint32_t when(uint32_t condition, uint32_t creg, uint32_t word)
{
    return word | 1u << 25 | creg << 22 | condition << 19;
}

// lli or lui.
static uint32_t half(uint32_t op, uint32_t dreg, uint32_t immediate)
{
    return op << 26 | dreg << 16 | immediate;
}

// An operation with bits 4..0 or none.
static uint32_t plain(uint32_t op, uint32_t n)
{
    return op << 26 | n;
}

// Half the way from the slot of a jump to its target.
static uint32_t distance(uint32_t from, uint32_t target)
{
    return (uint32_t)((int32_t)(target - (from + 4)) / 2);
}

// Points a jmp or jal to a target.
static void link_jump(struct code *c, uint32_t at, uint32_t op, uint32_t target)
{
    put(c, at, op << 26 | (distance(at, target) & 0x01FFFFFF));
}

// Points a branch on a condition register to a target.
static void link_branch(struct code *c, uint32_t at, uint32_t op, uint32_t creg, uint32_t target)
{
    put(c, at, op << 26 | creg << 22 | (distance(at, target) & 0x003FFFFF));
}

// Leaves room for a jump to a place that is not known yet, and gives its address.
static uint32_t jump_later(struct code *c)
{
    return emit(c, 0);
}

// A jump to a place that is known.
static void jump(struct code *c, uint32_t op, uint32_t target)
{
    link_jump(c, emit(c, 0), op, target);
}

// A branch to a place that is known.
static void branch(struct code *c, uint32_t op, uint32_t creg, uint32_t target)
{
    link_branch(c, emit(c, 0), op, creg, target);
}

// ---- machine images

// Where an image has its numbers.
enum { SET1 = 1, SET2 = 34, PSR = 63, SPSR = 64, CONTROL = 76, PC = 122 };

// Control registers, by their offsets.
enum {
    VECTORS = 0x04, INT_MODE_IL = 0x10, INT_MODE_UM = 0x11, INT_MASK = 0x12, INT_PEND = 0x14,
    EXT_INT_PRI = 0x15, COP_INT_PRI = 0x16, EXCEPTION_CS = 0x17, DMEM_BOUND_LO = 0x1A,
    DMEM_BOUND_HI = 0x1B, IMEM_BOUND_LO = 0x1C, IMEM_BOUND_HI = 0x1D, SYSTEM_ADDR = 0x1F,
    EXCEP_ADDR = 0x20, TMR0_CNT = 0x23, TMR0_MAX_CNT = 0x24, TMR1_MAX_CNT = 0x26, TMR_CONF = 0x27,
    RETI_ADDR = 0x28, RETI_PSR = 0x29, CORE_VER_ID = 0x2C,
};

void set(uint8_t *image, uint32_t n, uint32_t value)
{
    struct code c = { image, 0 };
    put(&c, 4 * n, value);
}

// Sets a control register of an image.
static void set_control(uint8_t *image, uint32_t offset, uint32_t value)
{
    set(image, CONTROL + offset, value);
}

// The image of a machine at USER_PROGRAM, with the control block at data address 0 and low memory
// protected.
static void make_image(uint8_t *image, uint32_t psr)
{
    set(image, 0, 32);
    set(image, 33, 32);
    set(image, 66, 8);
    set(image, 75, 45);
    set(image, 121, 6);
    set(image, 129, 2); // after the stack, which is empty
    set(image, PSR, psr);
    set(image, SPSR, 9);
    set(image, PC, USER_PROGRAM);
    set_control(image, DMEM_BOUND_LO, 0);
    set_control(image, DMEM_BOUND_HI, USER_DATA - 1);
    set_control(image, IMEM_BOUND_LO, 0);
    set_control(image, IMEM_BOUND_HI, USER_PROGRAM - 1);
    set_control(image, RETI_ADDR, 1);
    set_control(image, RETI_PSR, 9);
    set_control(image, CORE_VER_ID, 1);
}

// A sequence of numbers without a pattern.
static uint32_t noise(uint32_t *state)
{
    *state ^= *state << 13;
    *state ^= *state >> 17;
    *state ^= *state << 5;
    return *state;
}

// ---- ALU and branches

// A loop over noise: sums, products, shifts, comparisons, branches both ways, words on conditions, an
// inner loop and a call.
static void write_arithmetic(struct code *c)
{
    emit(c, half(LLI, 1, 0x2545));
    emit(c, half(LUI, 1, 0xF491));
    emit(c, half(LLI, 3, 0x3C6E));
    emit(c, half(LUI, 3, 0x0019));
    uint32_t loop = c->at;

    // R1 is the noise.
    emit(c, rri(SLLI, 4, 1, 13));
    emit(c, rrr(XOR, 1, 1, 4));
    emit(c, rri(SRLI, 4, 1, 17));
    emit(c, rrr(XOR, 1, 1, 4));
    emit(c, rri(SLLI, 4, 1, 5));
    emit(c, rrr(XOR, 1, 1, 4));

    // Either a product or a sum.
    emit(c, rri(ANDI, 5, 1, 3));
    emit(c, to(1, rri(CMPI, 0, 5, 0)));
    uint32_t to_sum = jump_later(c);
    emit(c, rri(ADDIU, 2, 2, 1));
    emit(c, rrr(MULS, 6, 1, 3));
    emit(c, rrr(MULHI, 7, 0, 0));
    emit(c, rrr(ADDU, 3, 6, 7));
    uint32_t to_join = jump_later(c);
    emit(c, rri(ORI, 3, 3, 1));
    link_branch(c, to_sum, BEQ, 1, c->at);
    emit(c, rri(SRAI, 6, 1, 7));
    emit(c, rri(SRAI, 7, 3, 7));
    emit(c, rrr(ADD, 8, 6, 7));
    emit(c, rrr(SUB, 9, 6, 7));
    link_jump(c, to_join, JMP, c->at);

    // The larger of two, by a word on a condition.
    emit(c, to(2, rrr(CMP, 0, 8, 9)));
    emit(c, when(LT, 2, rrr(MOV, 8, 9, 0)));
    emit(c, when(EQ, 2, rri(ADDIU, 10, 10, 1)));
    emit(c, rrr(AND, 11, 8, 3));
    emit(c, rrr(OR, 12, 11, 9));
    emit(c, rrr(SUBU, 13, 12, 1));
    emit(c, rrr(NOT, 13, 13, 0));

    // An inner loop of four.
    emit(c, half(LLI, 14, 4));
    uint32_t inner = c->at;
    emit(c, rri(SRLI, 13, 13, 3));
    emit(c, rrr(XOR, 12, 12, 13));
    emit(c, rri(ADDI, 14, 14, -1));
    emit(c, to(3, rri(CMPI, 0, 14, 0)));
    branch(c, BGT, 3, inner);
    emit(c, rrr(ADDU, 15, 15, 12));

    uint32_t call = jump_later(c);
    emit(c, rrr(MOV, 16, 15, 0));
    jump(c, JMP, loop);
    emit(c, rrr(ADDU, 18, 18, 17));

    // The routine that is called: R17 from R16.
    link_jump(c, call, JAL, c->at);
    emit(c, rri(SEXTI, 17, 16, 11));
    emit(c, rrr(SLL, 17, 17, 5));
    emit(c, rrr(MULU_16, 19, 17, 16));
    emit(c, rrr(JMPR, 0, 31, 0));
    emit(c, rrr(XOR, 17, 17, 19));
}

// ---- loads and stores

// Points R10 and R11 to the first and the last of 1,024 cells, and R12 to where they are copied.
static void write_areas(struct code *c)
{
    emit(c, half(LLI, 10, USER_DATA));
    emit(c, half(LLI, 11, USER_DATA + 1023));
    emit(c, half(LLI, 12, USER_DATA + 2048));
}

// Copies the cells, n at a time, through n registers, the first of them given.
static void write_copy(struct code *c, uint32_t n, uint32_t first)
{
    emit(c, rrr(MOV, 1, 10, 0));
    emit(c, rrr(MOV, 2, 12, 0));
    uint32_t copy = c->at;
    for (uint32_t i = 0; i < n; i++)
        emit(c, rri(LD, first + i, 1, (int32_t)i));
    for (uint32_t i = 0; i < n; i++)
        emit(c, rri(ST, first + i, 2, (int32_t)i));
    emit(c, rri(ADDIU, 1, 1, (int32_t)n));
    emit(c, to(1, rrr(CMP, 0, 1, 11)));
    branch(c, BLT, 1, copy);
    emit(c, rri(ADDIU, 2, 2, (int32_t)n));
}

// Passes over 1,024 cells: neighbours are put in order, then the cells are copied four at a time and
// summed.
static void write_memory(struct code *c)
{
    write_areas(c);
    uint32_t pass = c->at;

    emit(c, rrr(MOV, 1, 10, 0));
    uint32_t order = c->at;
    emit(c, rri(LD, 3, 1, 0));
    emit(c, rri(LD, 4, 1, 1));
    emit(c, rrr(CMP, 0, 3, 4));
    uint32_t ordered = jump_later(c);
    emit(c, rri(ADDIU, 1, 1, 1));
    emit(c, rri(ST, 4, 1, -1));
    emit(c, rri(ST, 3, 1, 0));
    link_branch(c, ordered, BELT, 0, c->at);
    emit(c, to(1, rrr(CMP, 0, 1, 11)));
    branch(c, BLT, 1, order);
    emit(c, rrr(ADDU, 5, 5, 3));

    write_copy(c, 4, 3);

    // A cell gets a new number, so that there is something left to order.
    emit(c, rri(MULI, 7, 7, 61));
    emit(c, rri(ADDIU, 7, 7, 257));
    emit(c, rri(ST, 7, 10, 0));
    jump(c, JMP, pass);
    emit(c, rri(ADDIU, 9, 9, 1));
}

// Passes over 1,024 cells, copied sixteen at a time: eight steps in nine are ld or st.
static void write_memory_only(struct code *c)
{
    write_areas(c);
    uint32_t pass = c->at;
    write_copy(c, 16, 13);
    jump(c, JMP, pass);
    emit(c, rri(ADDIU, 9, 9, 1));
}

// ---- interrupts and system calls

// Where the system's routines are; those that run in user mode are above USER_PROGRAM.
enum {
    SYSTEM_CALL = 0x000, EXCEPTION = 0x080, SERVICE = 0x100, NESTING = 0x180, USER_SERVICE = 0x800,
    USER_SERVICE_16 = 0x880,
};

// Goes back to the caller, whose address is in R31: from a system call or an exception.
static void write_return(struct code *c, bool user)
{
    if (user) {
        emit(c, plain(RETU, 0));
    } else {
        emit(c, plain(EI, 0));
        emit(c, rrr(JMPR, 0, 31, 0));
        emit(c, plain(NOP, 0));
    }
}

// System calls: the number is the caller's R1; a count is kept in TMR0_CNT, whose timer is off, another in a
// cell.
static void write_system_call(struct code *c, bool user)
{
    c->at = SYSTEM_CALL;
    if (user)
        emit(c, plain(CHRS, 2));
    emit(c, rri(ANDI, 16, 1, 1));
    emit(c, plain(CHRS, 3));
    emit(c, to(1, rri(CMPI, 0, 16, 0)));
    uint32_t to_cell = jump_later(c);
    emit(c, half(LLI, 17, SYSTEM_DATA));
    emit(c, half(LLI, 17, TMR0_CNT));
    link_branch(c, to_cell, BEQ, 1, c->at);
    emit(c, rri(LD, 18, 17, 0));
    emit(c, rri(ADDIU, 18, 18, 1));
    emit(c, rri(ST, 18, 17, 0));
    write_return(c, user);
}

// Exceptions: goes on after the instruction.
static void write_exception(struct code *c, bool user)
{
    c->at = EXCEPTION;
    emit(c, half(LLI, 17, EXCEPTION_CS));
    emit(c, rri(LD, 18, 17, 0));
    emit(c, rri(LD, 31, 17, 1));
    emit(c, rri(ADDIU, 31, 31, 4));
    emit(c, rri(LD, 30, 17, 2));
    write_return(c, user);
}

// Counts in a cell, in registers from R19 on.
static void write_count(struct code *c, uint32_t address)
{
    emit(c, half(LLI, 19, address));
    emit(c, rri(LD, 20, 19, 0));
    emit(c, rri(ADDIU, 20, 20, 1));
    emit(c, rri(ST, 20, 19, 0));
}

// The service routines: a short one, one that is itself interrupted, one in user mode, and one in
// 16-bit words.
static void write_services(struct code *c)
{
    c->at = SERVICE;
    write_count(c, COUNT_CELL);
    emit(c, half(LLI, 19, INT_PEND));
    emit(c, rri(LD, 20, 19, 0));
    emit(c, plain(RETI, 0));

    c->at = NESTING;
    emit(c, rrr(SCON, 21, 0, 0));
    emit(c, plain(EI, 0));
    emit(c, half(LLI, 22, 6));
    uint32_t again = c->at;
    emit(c, rri(ADDI, 22, 22, -1));
    emit(c, to(2, rri(CMPI, 0, 22, 0)));
    branch(c, BGT, 2, again);
    emit(c, rri(ADDIU, 23, 23, 1));
    emit(c, plain(DI, 0));
    emit(c, rrr(RCON, 0, 21, 0));
    emit(c, plain(RETI, 0));

    c->at = USER_SERVICE;
    write_count(c, USER_DATA + 1);
    emit(c, plain(RETI, 0));

    // Set 1 has a data address in R25, which is register 1 here.
    c->at = USER_SERVICE_16;
    emit_16(c, LD << 10 | 0 << 6 | 1 << 3 | 2);
    emit_16(c, ADDIU << 10 | 1 << 3 | 2);
    emit_16(c, ST << 10 | 0 << 6 | 1 << 3 | 2);
    emit_16(c, RETI << 10);
}

// Calls the system every few words, with some words of 16 bits and a trap in between.
static void write_main(struct code *c)
{
    c->at = USER_PROGRAM;
    emit(c, half(LLI, 2, USER_DATA + 16));
    emit(c, half(LLI, 3, 0));
    uint32_t loop = c->at;
    emit(c, rri(ADDIU, 1, 1, 1));
    emit(c, rri(LD, 4, 2, 0));
    emit(c, rrr(ADDU, 5, 5, 4));
    emit(c, rri(ST, 5, 2, 1));
    emit(c, plain(SCALL, 0));
    emit(c, plain(NOP, 0));
    emit(c, rrr(MULS, 6, 5, 1));
    emit(c, rrr(MULHI, 7, 0, 0));
    emit(c, rrr(XOR, 5, 6, 7));
    emit(c, rri(ADDIU, 1, 1, 1));
    emit(c, plain(SCALL, 0));
    emit(c, plain(NOP, 0));

    // 16-bit words: R27 and R28. swm goes on three words later.
    emit(c, plain(SWM, 0));
    emit(c, plain(NOP, 0));
    emit(c, plain(NOP, 0));
    emit_16(c, ADDIU << 10 | 3 << 3 | 3);
    emit_16(c, XOR << 10 | 3 << 3 | 4);
    emit_16(c, SRLI << 10 | 1 << 3 | 4);
    emit_16(c, SWM << 10 | 1);
    emit_16(c, NOP << 10);
    emit_16(c, NOP << 10);

    // Every 16th time a trap.
    emit(c, rri(ANDI, 8, 1, 31));
    emit(c, to(4, rri(CMPI, 0, 8, 0)));
    branch(c, BNE, 4, loop);
    emit(c, rri(ADDIU, 3, 3, 1));
    emit(c, plain(TRAP, 3));
    jump(c, JMP, loop);
    emit(c, plain(NOP, 0));
}

// The interrupts of an image: vectors, modes, masks and priorities.
static void set_interrupts(uint8_t *image)
{
    static const uint32_t vectors[12] = {
        SERVICE, SERVICE, SERVICE, NESTING, SERVICE, NESTING, NESTING, USER_SERVICE, USER_SERVICE,
        USER_SERVICE_16, USER_SERVICE_16, SERVICE,
    };
    for (uint32_t source = 0; source < 12; source++)
        set_control(image, VECTORS + source, vectors[source]);
    set_control(image, INT_MODE_UM, 1 << 7 | 1 << 8 | 1 << 9 | 1 << 10);
    set_control(image, INT_MODE_IL, 0xFFF & ~(1 << 9 | 1 << 10));
    set_control(image, INT_MASK, 0x7FF);
    set_control(image, COP_INT_PRI, 0x9421);
    set_control(image, EXT_INT_PRI, 0x17538CA6);
    set_control(image, SYSTEM_ADDR, SYSTEM_CALL);
    set_control(image, EXCEP_ADDR, EXCEPTION);
    set(image, SET1 + 25, USER_DATA + 2);
}

// A request at about every 32nd step.
static void make_requests(struct scene *s)
{
    s->requests = calloc(STEPS, sizeof *s->requests);
    if (s->requests == NULL)
        abort();
    s->requests_len = STEPS;
    uint32_t state = 0x9E3779B9;
    for (size_t i = 0; i < STEPS; i++) {
        uint32_t n = noise(&state);
        if ((n & 31) == 0)
            s->requests[i] = 1u << (n >> 8) % 12;
    }
}

// ---- timers

// A timer's half of TMR_CONF: enabled and continuous, with the other bits given.
static uint32_t timer(uint32_t bits, uint32_t divider)
{
    return 0xC000 | bits | divider;
}

// Both timers count, one at every step, and nothing comes of it.
static void set_counting(uint8_t *image)
{
    set_control(image, TMR0_MAX_CNT, 999);
    set_control(image, TMR1_MAX_CNT, 59);
    set_control(image, TMR_CONF, timer(0, 24) << 16 | timer(0, 0));
}

// Timer 0 requests EXT_INT0 every 200 steps. Timer 1 requests EXT_INT1 every 1,010, with a routine that
// timer 0 interrupts now and then.
static void set_requesting(uint8_t *image)
{
    enum { GINT = 0x2000, INTN = 0x100 };
    set_interrupts(image);
    set_control(image, TMR0_MAX_CNT, 49);
    set_control(image, TMR1_MAX_CNT, 100);
    set_control(image, TMR_CONF, timer(GINT | INTN, 9) << 16 | timer(GINT, 3));
}

// ---- the scenes

struct scene *make_scene(int n)
{
    static const char *const names[KINDS] = {
        [ARITHMETIC] = "ALU and branches",
        [MEMORY] = "loads and stores",
        [MEMORY_ONLY] = "loads and stores only",
        [INTERRUPTS] = "interrupts and system calls",
        [TIMERS] = "timers counting",
        [TIMER_INTERRUPTS] = "timer interrupts",
    };
    struct scene *s = calloc(1, sizeof *s);
    if (s == NULL)
        abort();
    bool user = n % 2 == 1;
    int kind = n / 2;
    s->name = names[kind];
    s->mode = user ? "user" : "super user";
    s->program_len = PROGRAM_ROOM;

    uint32_t psr = user ? 0x09 : 0x0E;
    bool interrupted = kind == INTERRUPTS || kind == TIMER_INTERRUPTS;
    make_image(s->image, interrupted ? psr | 0x10 : psr);
    uint32_t state = 0x12345678;
    for (size_t i = 0; i < CELLS; i++)
        s->cells[i] = noise(&state);

    struct code c = { s->program, USER_PROGRAM };
    switch (kind) {
    case ARITHMETIC:
        write_arithmetic(&c);
        break;
    case MEMORY:
        write_memory(&c);
        break;
    case MEMORY_ONLY:
        write_memory_only(&c);
        break;
    case INTERRUPTS:
        write_main(&c);
        write_system_call(&c, user);
        write_exception(&c, user);
        write_services(&c);
        set_interrupts(s->image);
        make_requests(s);
        break;
    case TIMERS:
        write_arithmetic(&c);
        set_counting(s->image);
        break;
    default:
        write_memory(&c);
        write_services(&c);
        set_requesting(s->image);
        break;
    }
    return s;
}
