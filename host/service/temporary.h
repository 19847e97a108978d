/* Temporary files: names of fixed length in the folder of the file that they will replace. One
   that no process has locked was left by a killed run. */
#ifndef TEMPORARY_H
#define TEMPORARY_H

#include <sys/types.h>

enum { TEMPORARY_LENGTH = 25 };

/* Makes a temporary file in a folder and locks it; gives it open, or -1 and the reason. */
int make_temporary(int folder, mode_t rights, char name[TEMPORARY_LENGTH + 1]);

/* Removes what killed runs left in a folder. */
void remove_left_overs(int folder);

#endif
