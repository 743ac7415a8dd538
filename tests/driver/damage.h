#ifndef DAMAGE_H
#define DAMAGE_H

#include "sheets.h"

/* Writes the bytes of a draft with one damage, at times two or three. */
void damage_sheet(struct draft *d, struct text *t);

#endif
