/* How fast each processor is, time and again: what of a core it has while another guest may use the other half.

   usage: speed SECONDS

   On each processor a thread before all others adds 30,000 times, each two milliseconds: a hundredth of its time or
   less. At the end a line is printed of each: the processor, the time by CLOCK_MONOTONIC in seconds at which it began,
   and how many additions it made a nanosecond. */
#define _GNU_SOURCE
#include <pthread.h>
#include <sched.h>
#include <stdio.h>
#include <stdlib.h>
#include <time.h>
#include <unistd.h>

enum { ADDITIONS = 30000, MOST_PROCESSORS = 256 };

struct trace {
    int processor;
    size_t length, room;
    double *began, *speed;
};

static double seconds;

static double now(void) {
    struct timespec at;
    clock_gettime(CLOCK_MONOTONIC, &at);
    return at.tv_sec + at.tv_nsec * 1e-9;
}

static void *watch(void *given) {
    struct trace *trace = given;
    struct timespec pause = {0, 2000000};
    struct sched_param first = {.sched_priority = 50};
    cpu_set_t own;
    CPU_ZERO(&own);
    CPU_SET(trace->processor, &own);
    if (sched_setaffinity(0, sizeof own, &own) || sched_setscheduler(0, SCHED_FIFO, &first)) {
        perror("speed");
        exit(1);
    }
    for (double end = now() + seconds; trace->length < trace->room && now() < end; nanosleep(&pause, NULL)) {
        double began = now();
        unsigned long sum = 0;
        for (int i = 0; i < ADDITIONS; i++) {
            sum += 1;
            __asm__ volatile("" ::"r"(sum));
        }
        trace->began[trace->length] = began;
        trace->speed[trace->length++] = ADDITIONS / ((now() - began) * 1e9);
    }
    return NULL;
}

int main(int count, char **words) {
    static struct trace traces[MOST_PROCESSORS];
    static pthread_t threads[MOST_PROCESSORS];
    long processors = sysconf(_SC_NPROCESSORS_ONLN);
    if (count != 2 || (seconds = atof(words[1])) <= 0 || processors > MOST_PROCESSORS) {
        fputs("usage: speed SECONDS\n", stderr);
        return 2;
    }
    for (int i = 0; i < processors; i++) {
        size_t room = seconds * 500 + 1;
        traces[i] = (struct trace){i, 0, room, malloc(room * sizeof(double)), malloc(room * sizeof(double))};
        if (!traces[i].began || !traces[i].speed || pthread_create(&threads[i], NULL, watch, &traces[i])) {
            fputs("speed: no memory, or no thread\n", stderr);
            return 1;
        }
    }
    for (int i = 0; i < processors; i++) {
        pthread_join(threads[i], NULL);
        for (size_t at = 0; at < traces[i].length; at++)
            printf("%d %.9f %.3f\n", i, traces[i].began[at], traces[i].speed[at]);
    }
}
