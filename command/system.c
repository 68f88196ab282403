/* What Linux and Windows do in different ways: writes that fail, bytes as they are, files' names, the time, processors
 * and randomness. */
#ifdef _WIN32
#define _CRT_RAND_S
#endif
#include "command.h"
#include <errno.h>
#include <fcntl.h>
#include <stdio.h>
#include <stdlib.h>
#include <string.h>
#include <sys/stat.h>

#ifdef _WIN32
#include <io.h>
#include <windows.h>

/* A command line has at most 32,767 units of 16 bits, and a unit at most three bytes in UTF-8. */
#define UNITS 32768

const char SYSTEM_END_OF_INPUT[] = "Ctrl-Z and Enter";

int main(int count, char **words);

/* Windows hands over the words in UTF-16. As UTF-8 they can name any file. */
int wmain(int count, wchar_t **wide) {
    static char bytes[3 * UNITS], *words[UNITS];
    char *at = bytes;
    for (int j = 0; j < count; j++) {
        words[j] = at;
        at += WideCharToMultiByte(CP_UTF8, 0, wide[j], -1, at, (int)(bytes + sizeof bytes - at), NULL, NULL);
    }
    return main(count, words);
}

static const wchar_t *wide(const char *name) {
    static wchar_t units[2][UNITS]; /* in turn, for calls that take two names */
    static int turn;
    turn = 1 - turn;
    MultiByteToWideChar(CP_UTF8, 0, name, -1, units[turn], UNITS);
    return units[turn];
}

/* Bytes go through as they are: else a line feed is written as two bytes, and Ctrl-Z ends a text. Typed lines alone are
 * read as text. */
void system_start(void) {
    if (!system_terminal(0)) _setmode(0, _O_BINARY);
    _setmode(1, _O_BINARY);
}

bool system_terminal(int file) {
    DWORD mode;
    return GetConsoleMode((HANDLE)_get_osfhandle(file), &mode) != 0;
}

int system_open(const char *name, int flags) { return _wopen(wide(name), flags | _O_BINARY, _S_IREAD | _S_IWRITE); }

unsigned system_mode(const char *name) {
    struct _stat64 found;
    return _wstat64(wide(name), &found) == 0 ? found.st_mode : 0;
}

bool system_writable(const char *name) { return _waccess(wide(name), 2) == 0; }

int system_rename(const char *from, const char *to) {
    errno = EACCES;
    return MoveFileExW(wide(from), wide(to), MOVEFILE_REPLACE_EXISTING) ? 0 : -1;
}

int system_remove(const char *name) { return _wunlink(wide(name)); }

/* A write to a pipe fails only where nobody reads it; Windows has other numbers for that. */
ssize_t system_write(int file, const void *bytes, size_t length) {
    int written = _write(file, bytes, length < 1 << 20 ? (unsigned)length : 1 << 20);
    if (written < 0 && GetFileType((HANDLE)_get_osfhandle(file)) == FILE_TYPE_PIPE) errno = EPIPE;
    return written;
}

double system_seconds(void) { return (double)GetTickCount64() / 1e3; }

uint64_t system_processors(void) {
    SYSTEM_INFO found;
    GetSystemInfo(&found);
    return found.dwNumberOfProcessors;
}

int system_random(uint32_t numbers[6]) {
    for (int j = 0; j < 6; j++) {
        unsigned number;
        if (rand_s(&number) != 0) return trouble("rand_s", strerror(errno));
        numbers[j] = number;
    }
    return DONE;
}

#else
#include <signal.h>
#include <time.h>
#include <unistd.h>

#define SOURCE "/dev/urandom"

const char SYSTEM_END_OF_INPUT[] = "Ctrl-D";

/* A write to a closed pipe, or beyond a limit on files, fails, and is told as any other. */
void system_start(void) {
    signal(SIGPIPE, SIG_IGN);
    signal(SIGXFSZ, SIG_IGN);
}

bool system_terminal(int file) { return isatty(file) != 0; }

int system_open(const char *name, int flags) { return open(name, flags, 0666); }

/* 0 where there is nothing under that name. */
unsigned system_mode(const char *name) {
    struct stat found;
    return stat(name, &found) == 0 ? found.st_mode : 0;
}

bool system_writable(const char *name) { return access(name, W_OK) == 0; }

int system_rename(const char *from, const char *to) { return rename(from, to); }

int system_remove(const char *name) { return unlink(name); }

ssize_t system_write(int file, const void *bytes, size_t length) { return write(file, bytes, length); }

double system_seconds(void) {
    struct timespec now;
    clock_gettime(CLOCK_MONOTONIC, &now);
    return (double)now.tv_sec + (double)now.tv_nsec / 1e9;
}

uint64_t system_processors(void) {
    long found = sysconf(_SC_NPROCESSORS_ONLN);
    return found < 1 ? 1 : (uint64_t)found;
}

int system_random(uint32_t numbers[6]) {
    FILE *source = fopen(SOURCE, "rb");
    bool whole = source != NULL && fread(numbers, sizeof numbers[0], 6, source) == 6;
    int status = whole ? DONE : trouble(SOURCE, strerror(errno));
    if (source != NULL) fclose(source);
    return status;
}
#endif
