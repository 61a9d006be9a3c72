/* The part of the standard header that the C programs here need, for a compiler that comes without its own. */
#ifndef STDDEF_H
#define STDDEF_H

typedef __SIZE_TYPE__ size_t;

#endif
