/* In the place of csmith's own header: its safe arithmetic, and a hash that is shorter than its checksum. */
#ifndef CSMITH_H
#define CSMITH_H

#include <float.h>
#include <limits.h>
#include <stdint.h>
#include "multiscalar.h"

#define printf(...) ((void)0)
#define STATIC static
#define LOG_INDEX
#define LOG_EXEC
#define UNDEFINED(value) (value)
#define FUNC_NAME(name) (safe_##name)
#include "safe_math.h"
#undef FUNC_NAME
#define INT_BIT (sizeof(int) * CHAR_BIT)
#define _CSMITH_BITFIELD(x) (((x) > INT_BIT) ? ((x) % INT_BIT) : (x))

static uint32_t crc32_context = 0xFFFFFFFFu;

static void crc32_gentab(void)
{
}

static void platform_main_begin(void)
{
}

static void __attribute__((noinline)) transparent_crc(uint64_t value, char *name, int flag)
{
    (void)name;
    (void)flag;
    crc32_context = ((crc32_context ^ (uint32_t)value) * 16777619u ^ (uint32_t)(value >> 32)) * 16777619u;
}

static void __attribute__((unused)) transparent_crc_bytes(char *bytes, int count, char *name, int flag)
{
    for (int n = 0; n < count; n++)
        transparent_crc((unsigned char)bytes[n], name, flag);
}

static void platform_main_end(uint32_t hash, int flag)
{
    (void)flag;
    out(hash);
}

#endif
