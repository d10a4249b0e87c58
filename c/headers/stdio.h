#pragma once
#include <stddef.h>
typedef struct file FILE;
extern FILE *stderr;
int printf(const char *format, ...) __attribute__((format(printf, 1, 2)));
int fprintf(FILE *f, const char *format, ...) __attribute__((format(printf, 2, 3)));
FILE *fopen(const char *path, const char *mode);
int fgetc(FILE *f);
int fclose(FILE *f);
size_t fread(void *to, size_t size, size_t n, FILE *f);
size_t fwrite(const void *from, size_t size, size_t n, FILE *f);
