/* Preloaded: ends the process by SIGKILL at the WENGELUDO_KILL-th call that writes to a file, cuts it, forces it out, or removes it. */
/* SPDX-License-Identifier: LicenseRef-Wengeludo */
#define _GNU_SOURCE
#include <dlfcn.h>
#include <signal.h>
#include <stdlib.h>
#include <sys/types.h>
#include <unistd.h>

static long calls;

static void count(void) {
    const char *at = getenv("WENGELUDO_KILL");
    if (at && ++calls == atol(at))
        kill(getpid(), SIGKILL);
}

#define PASS(type, name, parameters, arguments)                      \
    type name parameters {                                           \
        type(*real) parameters = (type(*) parameters)dlsym(RTLD_NEXT, #name); \
        count();                                                     \
        return real arguments;                                       \
    }

PASS(ssize_t, pwrite64, (int file, const void *bytes, size_t length, off64_t at), (file, bytes, length, at))
PASS(ssize_t, pwrite, (int file, const void *bytes, size_t length, off_t at), (file, bytes, length, at))
PASS(int, fsync, (int file), (file))
PASS(int, fdatasync, (int file), (file))
PASS(int, ftruncate64, (int file, off64_t length), (file, length))
PASS(int, ftruncate, (int file, off_t length), (file, length))
PASS(int, unlink, (const char *path), (path))
