// Standard output of picolibc, for programs of suites that print: the characters go nowhere.
#include <stdio.h>

static int put(char c, FILE *file)
{
    (void)file;
    return (unsigned char)c;
}

static FILE sink = FDEV_SETUP_STREAM(put, NULL, NULL, _FDEV_SETUP_WRITE);
FILE *const stdout = &sink;
FILE *const stderr = &sink;
