/* A pager that lies: a page that was loaded from may be stored to, also where its frame is the page of zeros. Tests have to notice. */
#include "leaf.h"

enum { W = 4, D = 128 };

struct reply __wrap_ask(struct request request) { return ask_and_lie(request, LOAD, W | D); }
