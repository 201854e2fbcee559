/* Tells the program into which it is loaded by LD_PRELOAD that it may run on 64 processors, whatever the machine has: `kendo run` starts no
   more workers than that, so `--workers 64` starts 64 threads. The kernel still runs them on the processors that there are. */
#define _GNU_SOURCE
#include <dlfcn.h>
#include <sched.h>
#include <sys/types.h>
#include <unistd.h>

enum { PROCESSORS = 64 };

typedef long ReadLimit(int);

int sched_getaffinity(pid_t process, size_t size, cpu_set_t *set) {
    (void)process;
    CPU_ZERO_S(size, set);
    for (int number = 0; number < PROCESSORS; number++)
        CPU_SET_S(number, size, set);
    return 0;
}

long sysconf(int name) {
    if (name == _SC_NPROCESSORS_ONLN)
        return PROCESSORS;
    ReadLimit *read_limit = (ReadLimit *)dlsym(RTLD_NEXT, "sysconf");
    return read_limit ? read_limit(name) : -1;
}
