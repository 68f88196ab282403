/* What a C library asks of a system, for the tests that print: text over semihosting, and memory for its buffers. The
 * linker puts __wrap_main before main. */
#include "semihosting.h"
#include <stddef.h>
#include <stdio.h>

int __real_main(void);
int __wrap_main(void) {
    __real_main();
    fflush(stdout);
    leave(0);
}

static char line[128];
static size_t used;
static void put(char letter) {
    line[used++] = letter;
    if (letter == '\n' || used == sizeof line - 1) {
        line[used] = 0;
        used = 0;
        print(line);
    }
}

#if defined(__PICOLIBC__)
static int put_letter(char letter, FILE *file) {
    (void)file;
    put(letter);
    return letter;
}
static FILE file = FDEV_SETUP_STREAM(put_letter, NULL, NULL, _FDEV_SETUP_WRITE);
FILE *const stdout = &file;
#else
extern char heap_start[];
int _write(int file, const char *text, int length) {
    (void)file;
    for (int j = 0; j < length; j++) put(text[j]);
    return length;
}
void *_sbrk(ptrdiff_t more) {
    static char *end = heap_start;
    end += more;
    return end - more;
}
void _exit(int status) { leave(status); }
int _close(void) { return -1; }
int _fstat(void) { return -1; }
int _getpid(void) { return 1; }
int _isatty(void) { return 1; }
int _kill(void) { return -1; }
int _lseek(void) { return 0; }
int _read(void) { return 0; }
#endif
