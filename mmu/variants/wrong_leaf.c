/* A pager that lies: after a process is let store to a page, the frame in the page's leaf is another one, by one bit. Tests have to notice. */
#include "leaf.h"

struct reply __wrap_ask(struct request request) { return ask_and_lie(request, TOUCH, 1ul << ENTRY_PAGE); }
