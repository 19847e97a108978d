/* Places in an image, counted in words from its front (Manual 5.1 and 8). */
#ifndef PLACES_H
#define PLACES_H

enum {
    SET_1 = 1,
    SET_2 = 34,
    PSR = SET_2 + 29,
    C0 = 67,
    CONTROL = 76,
    POSITION = 122,
    STACK_COUNT = 128,
    ENTRY = 129,

    CCB_BASE = CONTROL,
    EXT_INT0_VEC = CONTROL + 0x08,
    INT_MODE_UM = CONTROL + 0x11,
    INT_MASK = CONTROL + 0x12,
    INT_SERV = CONTROL + 0x13,
    INT_PEND = CONTROL + 0x14,
    EXCEPTION_CS = CONTROL + 0x17,
    EXCEPTION_PC = CONTROL + 0x18,
    EXCEPTION_PSR = CONTROL + 0x19,
    IMEM_BOUND_LO = CONTROL + 0x1C,
    MEM_CONF = CONTROL + 0x1E,
    EXCEP_ADDR = CONTROL + 0x20,
    TMR0_CNT = CONTROL + 0x23,
    TMR0_MAX_CNT = CONTROL + 0x24,
    TMR1_MAX_CNT = CONTROL + 0x26,
    TMR_CONF = CONTROL + 0x27,
    RETI_ADDR = CONTROL + 0x28,
    RETI_PSR = CONTROL + 0x29,
    RETI_CR0 = CONTROL + 0x2A,
    FPU_STATUS = CONTROL + 0x2B,
    CORE_VER_ID = CONTROL + 0x2C,

    /* Of a machine with an empty stack: the count of dividers and the first one, the count of cells
       and cell 0; and in the earlier layout, which has no dividers, the last two. */
    DIVIDER_COUNT = ENTRY,
    DIVIDER,
    CELL_COUNT = DIVIDER + 2,
    CELLS,
    EARLIER_CELL_COUNT = ENTRY,
    EARLIER_CELLS
};

#endif
