/* For libraries that are preloaded: the function of this name that comes next, the C library's own in the end. */
#ifndef NEXT_H
#define NEXT_H
#include <dlfcn.h>
#define NEXT(name) ({ \
  static __typeof__(&name) next_; \
  if (next_ == NULL) next_ = (__typeof__(&name))dlsym(RTLD_NEXT, #name); \
  next_; \
})
#endif
