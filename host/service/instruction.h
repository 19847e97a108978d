/* An instruction that is typed as a listing prints it, and its word. */
#ifndef INSTRUCTION_H
#define INSTRUCTION_H

#include <stdbool.h>
#include <stdint.h>

/* Makes the word of an instruction. The text has the columns of a line from the condition on, as
   `egt C7 add R31 R30 R29`, with any number of blanks around its parts, and is cut into them. The
   word is listed with exactly these parts; of anything else it complains. */
bool encode_instruction(char *text, bool wide, uint32_t *word);

#endif
