/* What the checks and the example use of the C library, for a compiler that comes without its headers. */
#ifndef KIT_STDIO_H
#define KIT_STDIO_H
typedef struct kit_file FILE;
extern FILE *stderr;
int printf(const char *format, ...);
int fprintf(FILE *file, const char *format, ...);
#endif
