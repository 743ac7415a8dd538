#ifndef KINDS_H
#define KINDS_H

#include "tally.h"

/* The kinds of input: each function makes one case from the random numbers. */

void kind_document(void);
void kind_check_run(void);
void kind_compile_judge(void);
void kind_judge_tables(void);
void kind_plan(void);
void kind_realistic(void);
void kind_damaged(void);
void kind_noise(void);
void kind_one_byte(void);
void kind_brute_plan(void);
void kind_brute_judge(void);
void kind_large(void);
void kind_cap(void);

#endif
