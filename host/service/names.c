/* The names of an image's numbers (Manual 5.1 and 8). */
#include "names.h"

#include <stdio.h>

#define ALL 0xFFFFFFFFu

const struct control control_registers[CONTROL_REGISTERS] = {
    {"CCB_BASE", 0xFFFFFF00u, 0}, {"PCB_BASE", ALL, 0},       {"PCB_END", ALL, 0},
    {"PCB_AMASK", ALL, 0},        {"COP0_INT_VEC", ALL, 0},   {"COP1_INT_VEC", ALL, 0},
    {"COP2_INT_VEC", ALL, 0},     {"COP3_INT_VEC", ALL, 0},   {"EXT_INT0_VEC", ALL, 0},
    {"EXT_INT1_VEC", ALL, 0},     {"EXT_INT2_VEC", ALL, 0},   {"EXT_INT3_VEC", ALL, 0},
    {"EXT_INT4_VEC", ALL, 0},     {"EXT_INT5_VEC", ALL, 0},   {"EXT_INT6_VEC", ALL, 0},
    {"EXT_INT7_VEC", ALL, 0},     {"INT_MODE_IL", 0xFFF, 0},  {"INT_MODE_UM", 0xFFF, 0},
    {"INT_MASK", 0xFFF, 0},       {"INT_SERV", 0xFFF, 0},     {"INT_PEND", 0xFFF, 0},
    {"EXT_INT_PRI", ALL, 0},      {"COP_INT_PRI", 0xFFFF, 0}, {"EXCEPTION_CS", 0xFF, 0},
    {"EXCEPTION_PC", ALL, 0},     {"EXCEPTION_PSR", 0xFF, 0}, {"DMEM_BOUND_LO", ALL, 0},
    {"DMEM_BOUND_HI", ALL, 0},    {"IMEM_BOUND_LO", ALL, 0},  {"IMEM_BOUND_HI", ALL, 0},
    {"MEM_CONF", 3, 0},           {"SYSTEM_ADDR", ALL, 0},    {"EXCEP_ADDR", ALL, 0},
    {"BUS_CONF", 0xFFF, 0},       {"COP_CONF", 0xFFFFFFF, 0}, {"TMR0_CNT", ALL, 0},
    {"TMR0_MAX_CNT", ALL, 0},     {"TMR1_CNT", ALL, 0},       {"TMR1_MAX_CNT", ALL, 0},
    {"TMR_CONF", ALL, 0},         {"RETI_ADDR", ALL, 0},      {"RETI_PSR", 0xFF, 0},
    {"RETI_CR0", 7, 0},           {"FPU_STATUS", 0, 0},       {"CORE_VER_ID", 0, 1},
};

const char *const position_names[POSITION_NUMBERS] = {
    "PC", "slot flag", "target", "product flag", "product high", "product low",
};

const char *const source_names[SOURCES] = {
    "COP0_INT", "COP1_INT", "COP2_INT", "COP3_INT", "EXT_INT0", "EXT_INT1",
    "EXT_INT2", "EXT_INT3", "EXT_INT4", "EXT_INT5", "EXT_INT6", "EXT_INT7",
};

/* The numbers of a stack entry. */
static const char *const entry_names[ENTRY_NUMBERS] = {"source", "address", "PSR", "C0"};

const char *stop_meaning(uint32_t stop)
{
    switch (stop) {
    case 11:
        return "a byte of the instruction word, or of a nop that must follow it, is outside program "
               "memory";
    case 12:
        return "a data address is neither in the control block nor a cell";
    case 13:
        return "a control transfer in a branch slot";
    case 14:
        return "mulhi without a product from the step just before";
    case 15:
        return "reti with an empty stack";
    case 20:
        return "another operation than nop where swm (two), scall, retu (one) or reti (three) wants "
               "nops";
    default:
        return "a stop that is not known here";
    }
}

void name_number(size_t entries, size_t place, char name[LONGEST_NAME])
{
    if (place >= divider_place(entries, 0))
        snprintf(name, LONGEST_NAME, "divider of timer %zu", place - divider_place(entries, 0));
    else if (place >= STACK)
        snprintf(name, LONGEST_NAME, "%s of stack entry %zu",
                 entry_names[(place - STACK) % ENTRY_NUMBERS], (place - STACK) / ENTRY_NUMBERS + 1);
    else if (place >= POSITION)
        snprintf(name, LONGEST_NAME, "%s", position_names[place - POSITION]);
    else if (place >= CONTROL)
        snprintf(name, LONGEST_NAME, "%s (%02zXh)", control_registers[place - CONTROL].name,
                 place - CONTROL);
    else if (place >= CONDITION)
        snprintf(name, LONGEST_NAME, "C%zu", place - CONDITION);
    else if (place == PSR)
        snprintf(name, LONGEST_NAME, "PSR");
    else if (place == SPSR)
        snprintf(name, LONGEST_NAME, "SPSR");
    else if (place >= SET_2)
        snprintf(name, LONGEST_NAME, "PR%zu", place - SET_2);
    else
        snprintf(name, LONGEST_NAME, "R%zu", place - SET_1);
}
