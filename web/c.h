/* What the command's sources take of C's headers, for a compiler that has none; c.c, print.c and math.c have the
 * functions. */
#pragma once
#define NULL ((void *)0)
#define bool _Bool
#define true 1
#define false 0
#define PRIu32 "u"
#define PRIu64 "llu"
#define PRId64 "lld"
#define SCNu32 "u"
#define SIZE_MAX __SIZE_MAX__
#define UINT32_MAX 0xffffffffu
#define UINT64_MAX 0xffffffffffffffffu
#define INT64_MAX 0x7fffffffffffffff
#define INFINITY __builtin_inf()
#define NAN __builtin_nan("")
#define ENOMEM 12
#define S_ISDIR(mode) ((mode) == 2)
#define va_start __builtin_va_start
#define va_end __builtin_va_end
#define va_copy __builtin_va_copy
#define va_arg __builtin_va_arg
typedef __builtin_va_list va_list;
typedef __SIZE_TYPE__ size_t;
typedef __PTRDIFF_TYPE__ ssize_t;
typedef __INT16_TYPE__ int16_t;
typedef __INT32_TYPE__ int32_t;
typedef __INT64_TYPE__ int64_t;
typedef __UINT8_TYPE__ uint8_t;
typedef __UINT16_TYPE__ uint16_t;
typedef __UINT32_TYPE__ uint32_t;
typedef __UINT64_TYPE__ uint64_t;
int snprintf(char *to, size_t room, const char *format, ...);
int vsnprintf(char *to, size_t room, const char *format, va_list values);
int sscanf(const char *at, const char *format, ...);
void *malloc(size_t size);
void *calloc(size_t count, size_t size);
void *realloc(void *old, size_t size);
void free(void *old);
void qsort(void *bytes, size_t count, size_t size, int (*compare)(const void *one, const void *other));
void *memcpy(void *to, const void *from, size_t length);
void *memset(void *to, int byte, size_t length);
void *memmove(void *to, const void *from, size_t length);
void *memchr(const void *bytes, int wanted, size_t length);
int memcmp(const void *one, const void *other, size_t length);
size_t strlen(const char *string);
int strcmp(const char *one, const char *other);
int strncmp(const char *one, const char *other, size_t length);
char *strchr(const char *string, int wanted);
char *strcpy(char *to, const char *from);
size_t strspn(const char *string, const char *accepted);
size_t strcspn(const char *string, const char *refused);
char *strerror(int number);
__int128 __multi3(__int128 one, __int128 other);

double floor(double x);
double ceil(double x);
double fabs(double x);
double sqrt(double x);
double fmax(double x, double y);
double fmin(double x, double y);
double fmod(double x, double y);
double round(double x);
long long llround(double x);
