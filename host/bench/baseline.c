// The same interpreter as the library's, in plain C: the same machine, questions and answers,
// by the same rules (docs/MANUAL.md). The state is flat, a step is one switch on the
// operation.
#include "baseline.h"

#include <stdbool.h>

// ---- the machine

// Bits of PSR (Manual 1.4).
enum { UM = 1, RSRD = 2, RSWR = 4, IL = 8, IE = 16 };

// PSR of system calls and exceptions.
enum { SUPER_USER = RSRD | RSWR | IL };

// Registers: set 1 from 0, set 2 from 32.
enum { SET2 = 32, PSR = SET2 + 29, SPSR = SET2 + 30, PR31 = SET2 + 31, REGISTERS = 64 };

// The link register of either set.
enum { LINK = 31 };

// Offsets of the control block (Manual 5.1).
enum {
    CCB_BASE = 0x00,
    PCB_BASE = 0x01,
    PCB_END = 0x02,
    PCB_AMASK = 0x03,
    INT_VECTORS = 0x04,
    INT_MODE_IL = 0x10,
    INT_MODE_UM = 0x11,
    INT_MASK = 0x12,
    INT_SERV = 0x13,
    INT_PEND = 0x14,
    EXT_INT_PRI = 0x15,
    COP_INT_PRI = 0x16,
    EXCEPTION_CS = 0x17,
    EXCEPTION_PC = 0x18,
    EXCEPTION_PSR = 0x19,
    DMEM_BOUND_LO = 0x1A,
    DMEM_BOUND_HI = 0x1B,
    IMEM_BOUND_LO = 0x1C,
    IMEM_BOUND_HI = 0x1D,
    MEM_CONF = 0x1E,
    SYSTEM_ADDR = 0x1F,
    EXCEP_ADDR = 0x20,
    BUS_CONF = 0x21,
    COP_CONF = 0x22,
    TMR0_CNT = 0x23,
    TMR0_MAX_CNT = 0x24,
    TMR_CONF = 0x27,
    RETI_ADDR = 0x28,
    RETI_PSR = 0x29,
    RETI_CR0 = 0x2A,
    FPU_STATUS = 0x2B,
    CORE_VER_ID = 0x2C,
    CONTROLS = 45,
};

// Bits of a timer's half of TMR_CONF (Manual 7.1), and where INTN begins; DIV is the lowest
// byte.
enum { EN = 0x8000, CONT = 0x4000, GINT = 0x2000, WDOG = 0x1000, INTN = 8, DIV = 0xFF };

// Both timers.
enum { TIMERS = 2 };

// Interrupt sources, and the most entries of the interrupt stack. The EXT sources come after the COP ones.
enum { EXT = 4, SOURCES = 12 };

// An entry of the interrupt stack.
struct entry {
    uint32_t source, address, psr, c0;
};

// The whole machine but for its memories. The target counts only while slot is 1, the product only
// while held is 1.
struct machine {
    uint32_t registers[REGISTERS];
    uint32_t conditions[8];
    uint32_t control[CONTROLS];
    uint32_t pc, slot, target, held, high, low;
    uint32_t dividers[TIMERS];
    uint32_t depth;
    struct entry stack[SOURCES];
};

// The memories of a call.
struct memories {
    const uint8_t *program;
    size_t program_len;
    uint32_t *cells;
    size_t cells_len;
};

// Operations by number.
enum {
    NOP, ADD, ADDU, SUB, SUBU, AND, OR, XOR, MULS, MULU, MULUS, MULS_16, MULU_16, MULUS_16,
    SLL, SRL, SRA, SEXT, ADDI, ADDIU, ANDI, ORI, MULI, SLLI, SRLI, SRAI, SEXTI, LD, ST, MOV, NOT,
    MULHI, CMP, CMPI, LLI, LUI, JMP, JAL, JMPR, JALR, BC, BEGT, BELT, BEQ, BGT, BLT, BNE, BNC,
    SCALL, RETU, RETI, CHRS, DI, EI, SWM, TRAP, SCON, RCON, CONB, CONH, EXB, EXH, EXBF, EXBFI,
};

// Exception codes (Manual 4.9); 01h does not occur.
enum {
    PROTECTED_INSTRUCTION = 0x00,
    ILLEGAL_INSTRUCTION = 0x02,
    MISALIGNED_JUMP = 0x03,
    JUMP_OVERFLOW = 0x04,
    MISALIGNED_INSTRUCTION = 0x05,
    ARITHMETIC_OVERFLOW = 0x06,
    PROTECTED_DATA = 0x07,
    DATA_OVERFLOW = 0x08,
    PROTECTED_JUMP = 0x09,
    TRAPS = 224,
};

// Stop numbers.
enum {
    NO_PROGRAM = 11, NO_DATA = 12, TRANSFER_IN_SLOT = 13, NO_PRODUCT = 14, NO_INTERRUPT = 15, NO_NOP = 20,
};

// ---- instruction words

// The low k bits of a word, their sign extended.
static inline uint32_t extended(uint32_t word, uint32_t k)
{
    uint32_t sign = 1u << (k - 1);
    return ((word & (sign * 2 - 1)) ^ sign) - sign;
}

// The 9-bit immediate of a 32-bit word, zeros above.
static inline uint32_t immediate(uint32_t word)
{
    return (word >> 10 & 0x1E0) | (word & 0x1F);
}

// The 9-bit immediate, its sign extended.
static inline uint32_t signed_immediate(uint32_t word)
{
    return extended(immediate(word), 9);
}

// A 32-bit word from its operation, registers and 9-bit immediate.
static inline uint32_t assembled(uint32_t op, uint32_t dreg, uint32_t sreg1, uint32_t low9)
{
    return op << 26 | (low9 & 0x1E0) << 10 | dreg << 10 | sreg1 << 5 | (low9 & 0x1F);
}

// The 32-bit word that means what a 16-bit word means.
static uint32_t widened(uint32_t half)
{
    uint32_t op = half >> 10;
    uint32_t sr = (half >> 3 & 7) + 24;
    uint32_t dr = (half & 7) + 24;

    switch (op) {
    case ADDI: case MULI: case CMPI:
        return assembled(op, dr, dr, extended(half >> 3, 7));
    case ADDIU: case ANDI: case ORI: case SLLI: case SRLI: case SRAI: case SEXTI: case EXB: case EXH:
        return assembled(op, dr, dr, half >> 3 & 0x7F);
    case LD: case ST:
        return assembled(op, dr, sr, extended(half >> 6, 4));
    case JMP: case JAL:
        return op << 26 | (extended(half, 10) & 0x01FFFFFF);
    case BC: case BEGT: case BELT: case BEQ: case BGT: case BLT: case BNE: case BNC:
        return op << 26 | (extended(half, 10) & 0x003FFFFF);
    case CHRS: case SWM: case TRAP:
        return op << 26 | (half & 0x1F);
    default:
        return assembled(op, dr, sr, dr);
    }
}

// Whether an operation may be conditional.
static inline bool is_conditional(uint32_t op)
{
    return (op >= ADD && op <= MULHI) || op == JMPR || op == JALR || op == SCALL
        || (op >= CONB && op <= EXBF);
}

// Whether an operation is a control transfer.
static inline bool is_transfer(uint32_t op)
{
    return (op >= JMP && op <= RETI) || op == SWM;
}

// Whether a condition holds of a condition register, Z * 4 + N * 2 + C.
static inline bool holds(uint32_t condition, uint32_t flags)
{
    switch (condition) {
    case 0: return flags & 1;
    case 1: return !(flags & 2);
    case 2: return flags & 6;
    case 3: return flags & 4;
    case 4: return !(flags & 6);
    case 5: return flags & 2;
    case 6: return !(flags & 4);
    default: return !(flags & 1);
    }
}

// ---- interrupts

// The priority number of a source.
static uint32_t priority(const struct machine *m, uint32_t source)
{
    if (source < EXT)
        return m->control[COP_INT_PRI] >> 4 * source & 15;
    return m->control[EXT_INT_PRI] >> 4 * (source - EXT) & 15;
}

// Of the flagged sources the one with the smallest priority number below *floor, which becomes the
// floor; SOURCES if there is none.
static uint32_t most_urgent(const struct machine *m, uint32_t flags, uint32_t *floor)
{
    uint32_t best = SOURCES;
    for (uint32_t source = 0; flags >> source != 0; source++) {
        if (flags >> source & 1) {
            uint32_t number = priority(m, source);
            if (number < *floor) {
                *floor = number;
                best = source;
            }
        }
    }
    return best;
}

// The word at an address that is known to be there, as a 32-bit one.
static inline uint32_t word_at(const uint8_t *program, uint32_t address, bool wide)
{
    const uint8_t *p = program + address;
    if (wide)
        return (uint32_t)p[0] << 24 | (uint32_t)p[1] << 16 | (uint32_t)p[2] << 8 | p[3];
    return widened((uint32_t)p[0] << 8 | p[1]);
}

// Whether one of the program bytes of a word is protected.
static inline bool program_protected(const struct machine *m, uint32_t address, uint32_t size)
{
    uint32_t low = m->control[IMEM_BOUND_LO], high = m->control[IMEM_BOUND_HI];
    return low <= high && low <= address + (size - 1) && address <= high;
}

// Whether all bytes of a word are in program memory.
static inline bool program_present(const struct memories *lent, uint32_t address, uint32_t size)
{
    return (uint64_t)address + size <= lent->program_len;
}

// Whether the next word can be fetched and is mulhi.
static bool next_is_mulhi(const struct machine *m, const struct memories *lent)
{
    uint32_t psr = m->registers[PSR];
    uint32_t size = psr & IL ? 4 : 2;
    return (m->pc & (size - 1)) == 0
        && !((psr & UM) && program_protected(m, m->pc, size))
        && program_present(lent, m->pc, size)
        && word_at(lent->program, m->pc, psr & IL) >> 26 == MULHI;
}

// The source to accept in this step, of those pending and not masked; SOURCES if there is none.
static uint32_t accepted(const struct machine *m, const struct memories *lent, uint32_t waiting)
{
    if (!(m->registers[PSR] & IE) || m->slot)
        return SOURCES;
    if (m->held && next_is_mulhi(m, lent))
        return SOURCES;
    uint32_t floor = 16;
    most_urgent(m, m->control[INT_SERV], &floor);
    return most_urgent(m, waiting, &floor);
}

// RETI_ shows the top of the stack, or 1, 9, 0.
static void show_top(struct machine *m)
{
    struct entry top = { .address = 1, .psr = 9, .c0 = 0 };
    if (m->depth > 0)
        top = m->stack[m->depth - 1];
    m->control[RETI_ADDR] = top.address;
    m->control[RETI_PSR] = top.psr;
    m->control[RETI_CR0] = top.c0;
}

// Accepts an interrupt.
static void accept(struct machine *m, uint32_t source)
{
    uint32_t flag = 1u << source;
    m->control[INT_PEND] &= ~flag;
    m->control[INT_SERV] |= flag;
    m->stack[m->depth++] = (struct entry){
        .source = source, .address = m->pc, .psr = m->registers[PSR], .c0 = m->conditions[0],
    };
    show_top(m);

    uint32_t psr = m->control[INT_MODE_UM] & flag ? UM : RSRD | RSWR;
    if (m->control[INT_MODE_IL] & flag)
        psr |= IL;
    m->registers[PSR] = psr;
    m->pc = m->control[INT_VECTORS + source];
    m->held = 0;
}

// ---- one step

// Enters an exception.
static void raise(struct machine *m, uint32_t code)
{
    m->control[EXCEPTION_CS] = code;
    m->control[EXCEPTION_PC] = m->pc;
    m->control[EXCEPTION_PSR] = m->registers[PSR];
    m->registers[PSR] = SUPER_USER;
    m->pc = m->control[EXCEP_ADDR];
    m->slot = 0;
    m->held = 0;
}

// Writes a register of the set that RSWR names; PSR keeps its value.
static inline void write_register(struct machine *m, uint32_t psr, uint32_t n, uint32_t value)
{
    uint32_t at = (psr & RSWR ? SET2 : 0) + n;
    if (at != PSR)
        m->registers[at] = value;
}

// The flags of a result.
static inline uint32_t result_flags(uint32_t value, bool carry)
{
    return (value == 0) * 4 + (value >> 31) * 2 + carry;
}

// The flags of a comparison.
static inline uint32_t compared(uint32_t a, uint32_t b)
{
    return (a == b) * 4 + ((int32_t)a < (int32_t)b) * 2 + (a >= b);
}

// The field of a value whose length is in bits 10..5 and whose position is in bits 4..0. A length over
// 32 takes no more than there is.
static inline uint32_t extracted(uint32_t value, uint32_t field)
{
    return value >> (field & 31) & (uint32_t)((1ull << (field >> 5 & 63)) - 1);
}

// The bits that a store to a control register leaves in it, but for RETI_; none for one that is only
// read.
static uint32_t stored_bits(uint32_t offset)
{
    switch (offset) {
    case CCB_BASE:
        return 0xFFFFFF00;
    case INT_MODE_IL: case INT_MODE_UM: case INT_MASK: case BUS_CONF:
        return 0xFFF;
    case COP_INT_PRI:
        return 0xFFFF;
    case MEM_CONF:
        return 3;
    case COP_CONF:
        return 0x0FFFFFFF;
    case INT_SERV: case INT_PEND: case EXCEPTION_CS: case EXCEPTION_PC: case EXCEPTION_PSR:
        return 0;
    default:
        return offset < RETI_ADDR ? 0xFFFFFFFF : 0;
    }
}

// Stores to a RETI_ register: replaces what it shows of the stack's top, if there is one. In a
// PSR with UM 1 RSRD and RSWR become 0.
static void store_top(struct machine *m, uint32_t offset, uint32_t value)
{
    if (m->depth == 0)
        return;
    struct entry *top = &m->stack[m->depth - 1];
    if (offset == RETI_ADDR)
        top->address = value;
    else if (offset == RETI_PSR)
        top->psr = value & UM ? value & (UM | IL | IE) : value & 31;
    else
        top->c0 = value & 7;
    show_top(m);
}

// Stores to the control block.
static void store_control(struct machine *m, uint32_t offset, uint32_t value)
{
    if (offset >= RETI_ADDR && offset <= RETI_CR0) {
        store_top(m, offset, value);
        return;
    }
    uint32_t bits = stored_bits(offset);
    if (bits != 0)
        m->control[offset] = value & bits;
}

// Exception 00h for a nop that must follow; no stop has this number.
enum { PROTECTED_NOP = 1 };

// Looks for a missing nop, of so many that must follow the instruction at pc, in its width: 0 if there is
// none, the number of a stop, or PROTECTED_NOP.
static inline uint32_t missing_nop(
    const struct machine *m, const struct memories *lent, uint32_t psr, uint32_t pc, uint32_t size,
    uint32_t count)
{
    uint32_t last = pc + count * size;

    for (uint32_t address = pc + size; address <= last; address += size) {
        if ((psr & UM) && program_protected(m, address, size))
            return PROTECTED_NOP;
        if (!program_present(lent, address, size))
            return NO_PROGRAM;
        // In either width the operation is the top six bits of the first byte.
        if (lent->program[address] >> 2 != NOP)
            return NO_NOP;
    }
    return 0;
}

// Runs the instruction at PC, or enters an exception; the number of a stop, or 0.
static inline uint32_t instruction(struct machine *m, const struct memories *lent)
{
    uint32_t psr = m->registers[PSR];
    uint32_t pc = m->pc;
    uint32_t size = psr & IL ? 4 : 2;
    uint32_t code;

    if (pc & (size - 1)) {
        code = MISALIGNED_INSTRUCTION;
        goto exception;
    }
    if ((psr & UM) && program_protected(m, pc, size)) {
        code = PROTECTED_INSTRUCTION;
        goto exception;
    }
    if (!program_present(lent, pc, size))
        return NO_PROGRAM;
    uint32_t word = word_at(lent->program, pc, psr & IL);
    uint32_t op = word >> 26;

    uint32_t next = pc + size;
    if (m->slot) {
        // retu in user mode is 02h, which comes first.
        if (is_transfer(op) && !(op == RETU && (psr & UM)))
            return TRANSFER_IN_SLOT;
        next = m->target;
    }
    uint32_t creg = word >> 22 & 7;
    if ((word & 1u << 25) && is_conditional(op) && !holds(word >> 19 & 7, m->conditions[creg]))
        goto done;

    const uint32_t *sources = m->registers + (psr & RSRD ? SET2 : 0);
    uint32_t dreg = word >> 10 & 31;
    uint32_t a = sources[word >> 5 & 31];
    uint32_t b = sources[word & 31];
    uint32_t value;
    uint64_t product;
    int64_t target;
    uint32_t missing;

    switch (op) {
    case NOP:
        goto done;

    case ADDI:
        b = signed_immediate(word);
        // fall through
    case ADD:
        value = a + b;
        if ((a ^ value) & (b ^ value) & 0x80000000) {
            code = ARITHMETIC_OVERFLOW;
            goto exception;
        }
        m->conditions[0] = result_flags(value, value < a);
        goto result;
    case ADDIU:
        b = immediate(word);
        // fall through
    case ADDU:
        value = a + b;
        m->conditions[0] = result_flags(value, value < a);
        goto result;
    case SUB:
        value = a - b;
        if ((a ^ b) & (a ^ value) & 0x80000000) {
            code = ARITHMETIC_OVERFLOW;
            goto exception;
        }
        m->conditions[0] = result_flags(value, a >= b);
        goto result;
    case SUBU:
        value = a - b;
        m->conditions[0] = result_flags(value, a >= b);
        goto result;

    case ANDI:
        b = immediate(word);
        // fall through
    case AND:
        value = a & b;
        goto result;
    case ORI:
        b = immediate(word);
        // fall through
    case OR:
        value = a | b;
        goto result;
    case XOR:
        value = a ^ b;
        goto result;
    case NOT:
        value = ~a;
        goto result;
    case MOV:
        value = a;
        goto result;

    case MULI:
        b = signed_immediate(word);
        // fall through
    case MULS:
        product = (uint64_t)((int64_t)(int32_t)a * (int32_t)b);
        goto multiplied;
    case MULU:
        product = (uint64_t)a * b;
        goto multiplied;
    case MULUS:
        product = (uint64_t)((int64_t)a * (int32_t)b);
        goto multiplied;
    case MULHI:
        if (!m->held)
            return NO_PRODUCT;
        value = m->high;
        goto result;
    case MULS_16:
        value = (uint32_t)((int32_t)(int16_t)a * (int16_t)b);
        goto result;
    case MULU_16:
        value = (a & 0xFFFF) * (b & 0xFFFF);
        goto result;
    case MULUS_16:
        value = (a & 0xFFFF) * (uint32_t)(int16_t)b;
        goto result;

    case SLLI:
        b = word;
        // fall through
    case SLL:
        value = a << (b & 31);
        goto result;
    case SRLI:
        b = word;
        // fall through
    case SRL:
        value = a >> (b & 31);
        goto result;
    case SRAI:
        b = word;
        // fall through
    case SRA:
        value = (uint32_t)((int32_t)a >> (b & 31));
        goto result;
    case SEXTI:
        b = word;
        // fall through
    case SEXT:
        value = extended(a, (b & 31) + 1);
        goto result;

    case LD:
    case ST: {
        int64_t sum = (int64_t)a + (int32_t)signed_immediate(word);
        // 07h goes by the address modulo 2^32, and comes before 08h.
        uint32_t address = (uint32_t)sum;
        if ((psr & UM) && m->control[DMEM_BOUND_LO] <= address
            && address <= m->control[DMEM_BOUND_HI]) {
            code = PROTECTED_DATA;
            goto exception;
        }
        if (sum < 0 || sum > 0xFFFFFFFF) {
            code = DATA_OVERFLOW;
            goto exception;
        }
        // The block does not wrap: CCB_BASE has a low byte of 0.
        uint32_t offset = address - m->control[CCB_BASE];
        if (offset < 256) {
            if (op == ST) {
                store_control(m, offset, sources[dreg]);
                goto done;
            }
            value = offset < CONTROLS ? m->control[offset] : 0;
            goto result;
        }
        if (address >= lent->cells_len)
            return NO_DATA;
        if (op == ST) {
            lent->cells[address] = sources[dreg];
            goto done;
        }
        value = lent->cells[address];
        goto result;
    }

    case CMPI:
        b = signed_immediate(word);
        // fall through
    case CMP:
        m->conditions[creg] = compared(a, b);
        goto done;

    case LLI:
    case LUI:
        if (!(psr & IL)) {
            code = ILLEGAL_INSTRUCTION;
            goto exception;
        }
        dreg = word >> 16 & 31;
        value = word & 0xFFFF;
        if (op == LUI)
            value = value << 16 | (m->registers[(psr & RSWR ? SET2 : 0) + dreg] & 0xFFFF);
        goto result;

    case JMP:
    case JAL:
        target = (int64_t)pc + size + 2 * (int64_t)(int32_t)extended(word, 25);
        goto jump;
    case JMPR:
    case JALR:
        target = a;
        goto jump;
    case BC: case BEGT: case BELT: case BEQ: case BGT: case BLT: case BNE: case BNC:
        if (!holds(op - BC, m->conditions[creg]))
            goto done;
        target = (int64_t)pc + size + 2 * (int64_t)(int32_t)extended(word, 22);
        goto jump;

    case SCALL:
        missing = missing_nop(m, lent, psr, pc, size, 1);
        if (missing != 0)
            goto no_nop;
        m->registers[PR31] = pc + 2 * size;
        m->registers[SPSR] = psr;
        m->registers[PSR] = SUPER_USER;
        next = m->control[SYSTEM_ADDR];
        goto done;
    case RETU:
        if (psr & UM) {
            code = ILLEGAL_INSTRUCTION;
            goto exception;
        }
        missing = missing_nop(m, lent, psr, pc, size, 1);
        if (missing != 0)
            goto no_nop;
        m->registers[PSR] = (m->registers[SPSR] & (IE | IL)) | UM;
        next = m->registers[PR31];
        goto done;
    case RETI:
        missing = missing_nop(m, lent, psr, pc, size, 3);
        if (missing != 0)
            goto no_nop;
        if (m->depth == 0)
            return NO_INTERRUPT;
        m->depth--;
        m->control[INT_SERV] &= ~(1u << m->stack[m->depth].source);
        show_top(m);
        m->registers[PSR] = m->stack[m->depth].psr;
        m->conditions[0] = m->stack[m->depth].c0;
        next = m->stack[m->depth].address;
        goto done;
    case CHRS:
        if (psr & UM) {
            code = ILLEGAL_INSTRUCTION;
            goto exception;
        }
        m->registers[PSR] = (psr & ~(uint32_t)(RSRD | RSWR)) | (word & 3) << 1;
        goto done;
    case DI:
        m->registers[PSR] = psr & ~(uint32_t)IE;
        goto done;
    case EI:
        m->registers[PSR] = psr | IE;
        goto done;
    case SWM:
        missing = missing_nop(m, lent, psr, pc, size, 2);
        if (missing != 0)
            goto no_nop;
        m->registers[PSR] = (psr & ~(uint32_t)IL) | (word & 1) << 3;
        next = pc + 3 * size;
        goto done;
    case TRAP:
        code = TRAPS + (word & 31);
        goto exception;

    case SCON:
        value = 0;
        for (uint32_t n = 0; n < 8; n++)
            value |= m->conditions[n] << 3 * n;
        goto result;
    case RCON:
        for (uint32_t n = 0; n < 8; n++)
            m->conditions[n] = a >> 3 * n & 7;
        goto done;

    case CONB:
        value = (a & 0xFF) << 8 | (b & 0xFF);
        goto result;
    case CONH:
        value = a << 16 | (b & 0xFFFF);
        goto result;
    case EXB:
        value = a >> 8 * (word & 3) & 0xFF;
        goto result;
    case EXH:
        value = a >> 16 * (word & 1) & 0xFFFF;
        goto result;
    case EXBF:
        value = extracted(a, b);
        goto result;
    default: // EXBFI
        if (!(psr & IL)) {
            code = ILLEGAL_INSTRUCTION;
            goto exception;
        }
        value = extracted(a, (word >> 14 & 0x7E0) | (word & 31));
        goto result;
    }

jump:
    if (target < 0 || target > 0xFFFFFFFF) {
        code = JUMP_OVERFLOW;
        goto exception;
    }
    if (target & (size - 1)) {
        code = MISALIGNED_JUMP;
        goto exception;
    }
    if ((psr & UM) && program_protected(m, (uint32_t)target, size)) {
        code = PROTECTED_JUMP;
        goto exception;
    }
    if (op == JAL || op == JALR)
        write_register(m, psr, LINK, pc + 2 * size);
    m->pc = next;
    m->slot = 1;
    m->target = (uint32_t)target;
    m->held = 0;
    return 0;

multiplied:
    write_register(m, psr, dreg, (uint32_t)product);
    m->pc = next;
    m->slot = 0;
    m->held = 1;
    m->high = (uint32_t)(product >> 32);
    m->low = (uint32_t)product;
    return 0;

result:
    write_register(m, psr, dreg, value);
done:
    m->pc = next;
    m->slot = 0;
    m->held = 0;
    return 0;

no_nop:
    if (missing != PROTECTED_NOP)
        return missing;
    code = PROTECTED_INSTRUCTION;
exception:
    raise(m, code);
    return 0;
}

// Does one step with its requests; the number of a stop, which leaves everything as before it, or 0.
static inline uint32_t step(struct machine *m, const struct memories *lent, uint32_t requests)
{
    uint32_t pending = m->control[INT_PEND];
    m->control[INT_PEND] = pending | requests;
    uint32_t waiting = (pending | requests) & m->control[INT_MASK];
    if (waiting != 0) {
        uint32_t source = accepted(m, lent, waiting);
        if (source < SOURCES) {
            accept(m, source);
            return 0;
        }
    }
    uint32_t stop = instruction(m, lent);
    if (stop != 0)
        m->control[INT_PEND] = pending;
    return stop;
}

// ---- timers

// The machine at reset (Manual 4.12 and 5.1).
static const struct machine at_reset = {
    .registers = { [PSR] = SUPER_USER, [SPSR] = 9 },
    .control = {
        [CCB_BASE] = 0x10000,
        [PCB_BASE] = 0x10100,
        [PCB_END] = 0x101FF,
        [PCB_AMASK] = 0xFF,
        [INT_VECTORS] = 1, 1, 1, 1, 1, 1, 1, 1, 1, 1, 1, 1,
        [INT_MODE_IL] = 0xFFF,
        [INT_MODE_UM] = 0xFFF,
        [DMEM_BOUND_HI] = 0xFFFFFFFF,
        [IMEM_BOUND_HI] = 0xFFFFFFFF,
        [MEM_CONF] = 3,
        [BUS_CONF] = 0xFFF,
        [RETI_ADDR] = 1,
        [RETI_PSR] = 9,
        [CORE_VER_ID] = 1,
    },
};

// A timer has come to its maximum: resets the core, or requests its interrupt. Whether it was a reset.
static bool at_maximum(struct machine *m, uint32_t conf)
{
    if (conf & WDOG) {
        *m = at_reset;
        return true;
    }
    if (conf & GINT)
        m->control[INT_PEND] |= 1u << (EXT + (conf >> INTN & 7));
    return false;
}

// One clock of timer n, whose half of TMR_CONF is in the low bits of conf. Whether it resets the core.
static inline bool clock_timer(struct machine *m, uint32_t n, uint32_t conf)
{
    if (!(conf & EN)) {
        m->dividers[n] = 0;
        return false;
    }
    if (m->dividers[n] < (conf & DIV)) {
        m->dividers[n]++;
        return false;
    }
    m->dividers[n] = 0;
    uint32_t count = m->control[TMR0_CNT + 2 * n];
    uint32_t maximum = m->control[TMR0_MAX_CNT + 2 * n];
    if (count != maximum)
        count++;
    else if (conf & CONT)
        count = 0;
    else
        return false;
    m->control[TMR0_CNT + 2 * n] = count;
    return count == maximum && at_maximum(m, conf);
}

// The clock after a step: timer 0 goes first, and a reset ends it.
static inline void clock_timers(struct machine *m)
{
    uint32_t conf = m->control[TMR_CONF];
    if (!(conf & (EN | (uint32_t)EN << 16)))
        m->dividers[0] = m->dividers[1] = 0;
    else if (!clock_timer(m, 0, conf))
        clock_timer(m, 1, conf >> 16);
}

// ---- the machine image

// The number in four bytes, high byte first.
static uint32_t number_at(const uint8_t *p)
{
    return (uint32_t)p[0] << 24 | (uint32_t)p[1] << 16 | (uint32_t)p[2] << 8 | p[3];
}

// Reads numbers, and gives the place after them.
static const uint8_t *read_numbers(const uint8_t *p, uint32_t *numbers, size_t count)
{
    for (size_t i = 0; i < count; i++)
        numbers[i] = number_at(p + 4 * i);
    return p + 4 * count;
}

// Writes numbers, and gives the place after them.
static uint8_t *write_numbers(uint8_t *p, const uint32_t *numbers, size_t count)
{
    for (size_t i = 0; i < count; i++) {
        p[4 * i] = (uint8_t)(numbers[i] >> 24);
        p[4 * i + 1] = (uint8_t)(numbers[i] >> 16);
        p[4 * i + 2] = (uint8_t)(numbers[i] >> 8);
        p[4 * i + 3] = (uint8_t)numbers[i];
    }
    return p + 4 * count;
}

// Writes a section: its count, then its numbers.
static uint8_t *write_section(uint8_t *p, const uint32_t *numbers, uint32_t count)
{
    return write_numbers(write_numbers(p, &count, 1), numbers, count);
}

// Whether an image has exactly the sections and counts.
static bool sections_fit(const uint8_t *image, size_t length)
{
    if (length < COFFEE_IMAGE_MIN)
        return false;
    uint32_t depth = number_at(image + COFFEE_IMAGE_ENTRIES);
    return depth <= SOURCES && length == COFFEE_IMAGE_MIN + COFFEE_IMAGE_ENTRY * (size_t)depth
        && number_at(image) == 32 && number_at(image + 132) == 32 && number_at(image + 264) == 8
        && number_at(image + 300) == CONTROLS && number_at(image + 484) == 6
        && number_at(image + length - 4 * (1 + TIMERS)) == TIMERS;
}

// Reads an image that has the sections.
static void read_image(struct machine *m, const uint8_t *image)
{
    read_numbers(image + 4, m->registers, 32);
    read_numbers(image + 136, m->registers + SET2, 32);
    read_numbers(image + 268, m->conditions, 8);
    read_numbers(image + 304, m->control, CONTROLS);
    uint32_t position[6];
    read_numbers(image + 488, position, 6);
    m->pc = position[0];
    m->slot = position[1];
    m->target = position[2];
    m->held = position[3];
    m->high = position[4];
    m->low = position[5];
    m->depth = number_at(image + COFFEE_IMAGE_ENTRIES);
    const uint8_t *p = image + COFFEE_IMAGE_ENTRIES + 4;
    for (uint32_t i = 0; i < m->depth; i++) {
        uint32_t numbers[4];
        p = read_numbers(p, numbers, 4);
        m->stack[i] = (struct entry){ numbers[0], numbers[1], numbers[2], numbers[3] };
    }
    read_numbers(p + 4, m->dividers, TIMERS);
}

// Writes the machine's image to the buffer's front.
static void write_image(const struct machine *m, uint8_t *buffer)
{
    const uint32_t position[6] = {
        m->pc, m->slot, m->slot ? m->target : 0, m->held, m->held ? m->high : 0, m->held ? m->low : 0,
    };
    uint8_t *p = write_section(buffer, m->registers, 32);
    p = write_section(p, m->registers + SET2, 32);
    p = write_section(p, m->conditions, 8);
    p = write_section(p, m->control, CONTROLS);
    p = write_section(p, position, 6);
    p = write_numbers(p, &m->depth, 1);
    for (uint32_t i = 0; i < m->depth; i++) {
        const struct entry *e = &m->stack[i];
        const uint32_t numbers[4] = { e->source, e->address, e->psr, e->c0 };
        p = write_numbers(p, numbers, 4);
    }
    write_section(p, m->dividers, TIMERS);
}

// Whether a control register can hold a number.
static bool can_hold(uint32_t offset, uint32_t value)
{
    switch (offset) {
    case CCB_BASE:
        return (value & 0xFF) == 0;
    case INT_MODE_IL: case INT_MODE_UM: case INT_MASK: case INT_SERV: case INT_PEND: case BUS_CONF:
        return value <= 0xFFF;
    case COP_INT_PRI:
        return value <= 0xFFFF;
    case EXCEPTION_CS: case EXCEPTION_PSR: case RETI_PSR:
        return value <= 0xFF;
    case MEM_CONF:
        return value <= 3;
    case COP_CONF:
        return value <= 0x0FFFFFFF;
    case RETI_CR0:
        return value <= 7;
    case FPU_STATUS:
        return value == 0;
    case CORE_VER_ID:
        return value == 1;
    default:
        return true;
    }
}

// Question 3: whether every number is one that its register can hold.
static bool numbers_fit(const struct machine *m)
{
    for (uint32_t n = 0; n < 8; n++)
        if (m->conditions[n] > 7)
            return false;
    for (uint32_t n = 0; n < CONTROLS; n++)
        if (!can_hold(n, m->control[n]))
            return false;
    for (uint32_t i = 0; i < m->depth; i++)
        if (m->stack[i].psr > 31 || m->stack[i].c0 > 7)
            return false;
    for (uint32_t n = 0; n < TIMERS; n++)
        if (m->dividers[n] > DIV)
            return false;
    return m->registers[PSR] <= 31 && m->slot <= 1 && m->held <= 1
        && (m->slot || m->target == 0) && (m->held || (m->high == 0 && m->low == 0));
}

// Whether a status with UM 1 has RSRD and RSWR 0.
static bool sets_fit(uint32_t psr)
{
    return !(psr & UM) || !(psr & (RSRD | RSWR));
}

// Question 4: whether the current status and every stacked one fits.
static bool modes_fit(const struct machine *m)
{
    for (uint32_t i = 0; i < m->depth; i++)
        if (!sets_fit(m->stack[i].psr))
            return false;
    return sets_fit(m->registers[PSR]);
}

// Question 5: whether the stack's sources are those of INT_SERV, and RETI_ shows its top.
static bool stack_fits(const struct machine *m)
{
    uint32_t flags = 0;
    for (uint32_t i = 0; i < m->depth; i++) {
        uint32_t source = m->stack[i].source;
        if (source >= SOURCES || (flags >> source & 1))
            return false;
        flags |= 1u << source;
    }
    struct entry top = { .address = 1, .psr = 9, .c0 = 0 };
    if (m->depth > 0)
        top = m->stack[m->depth - 1];
    return m->control[INT_SERV] == flags && m->control[RETI_ADDR] == top.address
        && m->control[RETI_PSR] == top.psr && m->control[RETI_CR0] == top.c0;
}

// ---- the call

struct coffee_answer baseline_run(
    const uint8_t *program, size_t program_len,
    uint32_t *cells, size_t cells_len,
    const uint8_t *image, size_t image_len,
    const uint32_t *requests, size_t requests_len,
    uint32_t limit,
    uint8_t *buffer, size_t buffer_len)
{
    struct machine m;
    struct coffee_answer answer = { 0, 0, 0 };

    if (program_len > COFFEE_MEMORY_MAX || cells_len > COFFEE_MEMORY_MAX) {
        answer.refusal = 1;
        return answer;
    }
    if (!sections_fit(image, image_len)) {
        answer.refusal = 2;
        return answer;
    }
    read_image(&m, image);
    if (!numbers_fit(&m)) {
        answer.refusal = 3;
        return answer;
    }
    if (!modes_fit(&m)) {
        answer.refusal = 4;
        return answer;
    }
    if (!stack_fits(&m)) {
        answer.refusal = 5;
        return answer;
    }
    for (size_t i = 0; i < requests_len; i++) {
        if (requests[i] > 0xFFF) {
            answer.refusal = 6;
            return answer;
        }
    }
    if (limit > COFFEE_STEPS_MAX) {
        answer.refusal = 7;
        return answer;
    }
    if (buffer_len < COFFEE_IMAGE_MAX) {
        answer.refusal = 8;
        return answer;
    }

    struct memories lent = { program, program_len, cells, cells_len };
    while (answer.steps < limit) {
        uint32_t requested = answer.steps < requests_len ? requests[answer.steps] : 0;
        answer.ending = step(&m, &lent, requested);
        if (answer.ending != 0)
            break;
        clock_timers(&m);
        answer.steps++;
    }
    write_image(&m, buffer);
    return answer;
}
