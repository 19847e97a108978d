/* Who may use a file: owner, group, rights and access list. */
#ifndef RIGHTS_H
#define RIGHTS_H

#include <stdbool.h>
#include <sys/stat.h>

/* Gives an open file all of these as another one, of this state, has them; false and the reason
   when it cannot have them. */
bool copy_rights(int from, const struct stat *state, int to);

#endif
