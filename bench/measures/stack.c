/* Measures how much stack a program takes. This is loaded with the program, and fills the stack with a pattern before the program begins, as bindings/stack.c
   does for the library. At the end it counts how much of the pattern is left.

   usage: cc -O2 -fPIC -shared -o stack.so stack.c && LD_PRELOAD=./stack.so PROGRAM..
          writes the octets below the beginning of the stack to the file that the variable STACK names; arguments and environment are not counted */
#include <stdint.h>
#include <stdio.h>
#include <stdlib.h>

enum { SIZE = 1 << 20, PAINT = 0x5A };

extern void *__libc_stack_end;
static uintptr_t lowest;

__attribute__((constructor, noinline)) static void paint(void) {
    volatile uint8_t room[SIZE];
    for (size_t at = 0; at < SIZE; at++) {
        room[at] = PAINT;
    }
    lowest = (uintptr_t)room;
}

__attribute__((destructor)) static void count(void) {
    const char *name = getenv("STACK");
    FILE *file = name == NULL ? NULL : fopen(name, "w");
    uintptr_t at = lowest;
    while (at < (uintptr_t)__libc_stack_end && *(const volatile uint8_t *)at == PAINT) {
        at++;
    }
    if (file != NULL) {
        fprintf(file, "%zu\n", (size_t)((uintptr_t)__libc_stack_end - at));
        fclose(file);
    }
}
