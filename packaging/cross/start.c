/* Runs the driver on Linux without a C library: the pack comes by standard input, and what the calls hand back goes to standard output. */
/* SPDX-License-Identifier: LicenseRef-Wengeludo */
#include "lengths.h"

void emit(const uint8_t *bytes, uint64_t count);
void drive(const uint8_t *pack, uint64_t length);
void started(void);

#if defined(__x86_64__)
enum { READ = 0, WRITE = 1, EXIT = 60 };
static int64_t asked(int64_t call, int64_t a, const void *b, uint64_t c)
{
    int64_t answer;
    __asm__ volatile("syscall" : "=a"(answer) : "a"(call), "D"(a), "S"(b), "d"(c) : "rcx", "r11", "memory");
    return answer;
}
__asm__(".globl _start\n_start: andq $-16, %rsp\n call started\n");
#elif defined(__aarch64__)
enum { READ = 63, WRITE = 64, EXIT = 93 };
static int64_t asked(int64_t call, int64_t a, const void *b, uint64_t c)
{
    register int64_t number __asm__("x8") = call, first __asm__("x0") = a;
    register const void *second __asm__("x1") = b;
    register uint64_t third __asm__("x2") = c;
    __asm__ volatile("svc 0" : "+r"(first) : "r"(number), "r"(second), "r"(third) : "memory");
    return first;
}
__asm__(".globl _start\n_start: bl started\n");
#else
enum { READ = 63, WRITE = 64, EXIT = 93 };
static int64_t asked(int64_t call, int64_t a, const void *b, uint64_t c)
{
    register int64_t number __asm__("a7") = call, first __asm__("a0") = a;
    register const void *second __asm__("a1") = b;
    register uint64_t third __asm__("a2") = c;
    __asm__ volatile("ecall" : "+r"(first) : "r"(number), "r"(second), "r"(third) : "memory");
    return first;
}
__asm__(".globl _start\n_start:\n.option push\n.option norelax\n la gp, __global_pointer$\n.option pop\n call started\n");
#endif

static uint8_t pack[8 << 20];

void emit(const uint8_t *bytes, uint64_t count)
{
    for (uint64_t done = 0; done < count;) {
        const int64_t more = asked(WRITE, 1, bytes + done, count - done);
        if (more <= 0)
            asked(EXIT, 1, NULL, 0);
        done += (uint64_t)more;
    }
}

__attribute__((used)) void started(void)
{
    uint64_t length = 0;
    int64_t more;
    while ((more = asked(READ, 0, pack + length, sizeof pack - length)) > 0)
        length += (uint64_t)more;
    drive(pack, length);
    asked(EXIT, more != 0, NULL, 0);
}
