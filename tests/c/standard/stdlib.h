/* The part of the standard header that ordinary.c needs, where the machine's own is for another processor. */
#ifndef STDLIB_H
#define STDLIB_H

_Noreturn void exit(int status);

#endif
