#ifndef DRAFTS_H
#define DRAFTS_H

#include "sheets.h"

/* Well-formed sheets, made at random in several manners. */

enum size { TINY, SMALL, MIDDLE, ANY, EDGE, SIZES };

void some_counts(struct draft *d, enum size size);

/* A sheet with random rows. */
void random_draft(struct draft *d, enum size size);

/* The same of some size, more often a small one, with its bytes. */
void make_text(struct draft *d, struct text *t);

/* A sheet like a device's, at times with a need or a rule more or a rule less. */
void realistic_draft(struct draft *d);

/* A sheet that often has plans of one step or more, and often several. */
void reachable_draft(struct draft *d);

/* Many facts, many clauses and few rules. */
void clause_draft(struct draft *d);

/* Many rules of few actions, which make the most rows for the effort. */
void rule_draft(struct draft *d, uint32_t facts);

#endif
