#ifndef LIST_DEFINITION_H
#define LIST_DEFINITION_H

#include "list.h"

/* What reading gives, by the words of the definition alone: a list is what is written for some job, revision and
   length, and the first bad line the lowest n whose first n lines are not a list. It writes every one of these anew, so
   it is for short texts. */
struct reference_list list_by_definition(struct bytes text);

#endif
