/* What replay.c takes of a C library, for the kit's compiler, which has no headers of its own: compile stands it in for each of them. */
#ifndef KIT_H
#define KIT_H

#define bool _Bool
#define true 1
#define false 0
#define NULL ((void *)0)

typedef __SIZE_TYPE__ size_t;
typedef __UINT8_TYPE__ uint8_t;
typedef __UINT32_TYPE__ uint32_t;
#define UINT8_MAX __UINT8_MAX__
#define UINT32_MAX __UINT32_MAX__

typedef __builtin_va_list va_list;
#define va_start(list, last) __builtin_va_start(list, last)
#define va_end(list) __builtin_va_end(list)

typedef struct file FILE;
FILE *fopen(const char *path, const char *way);
size_t fread(void *into, size_t size, size_t count, FILE *file);
size_t fwrite(const void *from, size_t size, size_t count, FILE *file);
int fclose(FILE *file);
int printf(const char *form, ...);
int vprintf(const char *form, va_list values);
int snprintf(char *into, size_t size, const char *form, ...);
int vsnprintf(char *into, size_t size, const char *form, va_list values);

void *realloc(void *old, size_t bytes);
void free(void *old);
void exit(int status);

void *memcpy(void *to, const void *from, size_t bytes);
int strcmp(const char *left, const char *right);
size_t strlen(const char *text);
size_t strcspn(const char *text, const char *stops);
char *strstr(const char *text, const char *part);

#endif
