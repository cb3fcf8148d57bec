/* Loaded before a program (LD_PRELOAD), puts a byte more into the file that THREADS_STARTED names for each thread that the
 * program starts. Build: cc -O1 -shared -fPIC -o count_threads.so count_threads.c -ldl */
#define _GNU_SOURCE
#include <dlfcn.h>
#include <fcntl.h>
#include <pthread.h>
#include <stdlib.h>
#include <unistd.h>

typedef int start(pthread_t *, const pthread_attr_t *, void *(*)(void *), void *);

int pthread_create(pthread_t *thread, const pthread_attr_t *how, void *(*run)(void *), void *with) {
    const char *started = getenv("THREADS_STARTED");
    int file = started ? open(started, O_CREAT | O_WRONLY | O_APPEND, 0644) : -1;
    if (file < 0 || write(file, ".", 1) != 1)
        abort();
    close(file);
    return ((start *)dlsym(RTLD_NEXT, "pthread_create"))(thread, how, run, with);
}
