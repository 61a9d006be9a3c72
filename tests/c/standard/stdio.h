/* The part of the standard header that ordinary.c needs, where the machine's own is for another processor. */
#ifndef STDIO_H
#define STDIO_H

int printf(const char *format, ...);

#endif
