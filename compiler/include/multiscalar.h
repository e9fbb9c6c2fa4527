/* What a C program says to the machine that multiscalar runs. Elsewhere the words go to standard output. */
#ifndef MULTISCALAR_H
#define MULTISCALAR_H

/* Computes a variable here, and not later, so that the next task gets it early. It changes no value. */
#define SETTLE(variable) __asm__ volatile("" : "+r"(variable))

#if defined(__mips__) && !defined(MULTISCALAR_HOST)

/* Writes a word to the output. */
static inline __attribute__((always_inline)) void out(unsigned word)
{
    __asm__ volatile("out\t%0" : : "r"(word));
}

/* Ends the run, as a return of 0 from main does. */
static inline __attribute__((always_inline, noreturn)) void halt(void)
{
    __asm__ volatile("move\t$2,$0\n\thalt" : : : "$2");
    __builtin_unreachable();
}

#else

#include <stdio.h>
#include <stdlib.h>

static inline void out(unsigned word)
{
    printf("%u\n", word);
}

static inline __attribute__((noreturn)) void halt(void)
{
    exit(0);
}

#endif

#endif
