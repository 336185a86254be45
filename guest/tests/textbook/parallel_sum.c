/* The sum of an array, a slice for each thread. */
#include <pthread.h>
#include <stdio.h>
#include <stdlib.h>

#define THREADS 4
#define COUNT 100

struct slice {
    const int *numbers;
    int begin, end;
    long sum;
};

static long total;

static void *sum_slice(void *arg)
{
    struct slice *slice = arg;
    for (int i = slice->begin; i < slice->end; i++)
        slice->sum += slice->numbers[i];
#ifdef RACE
    total += slice->sum; // race
#endif
    return NULL;
}

int main(void)
{
    pthread_t threads[THREADS];
    struct slice slices[THREADS];
    int *numbers = malloc(COUNT * sizeof *numbers);

    for (int i = 0; i < COUNT; i++)
        numbers[i] = i + 1;
    for (int t = 0; t < THREADS; t++) {
        slices[t] = (struct slice){numbers, t * COUNT / THREADS, (t + 1) * COUNT / THREADS, 0};
        pthread_create(&threads[t], NULL, sum_slice, &slices[t]);
    }
    for (int t = 0; t < THREADS; t++)
        pthread_join(threads[t], NULL);
#ifndef RACE
    for (int t = 0; t < THREADS; t++)
        total += slices[t].sum;
    printf("sum %ld\n", total);
#else
    puts(total > 0 ? "sum" : "nothing");
#endif
    free(numbers);
    return 0;
}
