// Tries <pthread.h>, <semaphore.h>, the clock, the heap and what the kit has of the C library, one thread
// after another or under locks. Puts `ok`, or the line of the first thing that is wrong, and ends with
// status 1. There is no race in it.
#include <errno.h>
#include <pthread.h>
#include <sched.h>
#include <semaphore.h>
#include <setjmp.h>
#include <stdint.h>
#include <stdio.h>
#include <stdlib.h>
#include <string.h>
#include <time.h>
#include <unistd.h>

static void check_at(int right, int line)
{
    if (!right) {
        printf("wrong: line %d\n", line);
        exit(1);
    }
}

#define check(right) check_at((right), __LINE__)

static void start(pthread_t *thread, void *(*function)(void *), void *argument)
{
    check(pthread_create(thread, NULL, function, argument) == 0);
}

static void *join(pthread_t thread)
{
    void *result = NULL;
    check(pthread_join(thread, &result) == 0);
    return result;
}

// ---- threads

static sem_t go;

static void *same(void *argument)
{
    check(pthread_self() != 1024 && pthread_equal(pthread_self(), pthread_self()));
    return argument;
}

static void *wait_then_same(void *argument)
{
    check(sem_wait(&go) == 0);
    return argument;
}

static void *detach_itself(void *argument)
{
    check(pthread_detach(pthread_self()) == 0);
    return argument;
}

static void try_threads(void)
{
    pthread_t one, other;
    check(pthread_self() == 1024 && !pthread_equal(pthread_self(), 0));
    start(&one, same, &go);
    check(join(one) == &go && pthread_join(one, NULL) == ESRCH);
    check(pthread_join(0, NULL) == ESRCH && pthread_join(pthread_self(), NULL) == EDEADLK);
    check(pthread_cancel(pthread_self()) == ENOTSUP && pthread_cancel(one) == ESRCH);
    check(sem_init(&go, 0, 0) == 0);
    start(&one, wait_then_same, (void *)5);
    start(&other, wait_then_same, (void *)6);
    void *result = NULL;
    struct timespec until;
    check(pthread_tryjoin_np(one, &result) == EBUSY);
    clock_gettime(CLOCK_REALTIME, &until);
    until.tv_nsec += 5000000;
    check(pthread_timedjoin_np(one, &result, &until) == ETIMEDOUT);
    sem_post(&go);
    sem_post(&go);
    check(join(one) == (void *)5);
    until.tv_sec += 10;
    check(pthread_timedjoin_np(other, &result, &until) == 0 && result == (void *)6);
    start(&one, wait_then_same, NULL);
    check(pthread_detach(one) == 0 && pthread_detach(one) == EINVAL && pthread_join(one, NULL) == EINVAL);
    sem_post(&go);
    usleep(20000);
    start(&one, detach_itself, NULL);
    usleep(20000);
    check(pthread_join(one, NULL) == EINVAL);
    pthread_attr_t attributes;
    int state = -1;
    check(pthread_attr_init(&attributes) == 0);
    check(pthread_attr_setdetachstate(&attributes, PTHREAD_CREATE_DETACHED) == 0);
    check(pthread_attr_getdetachstate(&attributes, &state) == 0 && state == PTHREAD_CREATE_DETACHED);
    check(pthread_create(&one, &attributes, same, NULL) == 0 && pthread_join(one, NULL) == EINVAL);
    usleep(20000);
    // more threads than there are stacks, with and without a join
    for (long i = 0; i < 70; i += 1) {
        int is_joined = i % 2 == 0;
        while (pthread_create(&one, is_joined ? NULL : &attributes, same, (void *)i) == EAGAIN) {
            usleep(1000);
        }
        check(!is_joined || join(one) == (void *)i);
    }
}

// ---- what runs where a thread ends

static pthread_key_t key;
static char trace[64];

static void mark(void *text)
{
    strcat(trace, text);
}

static void *end_inside(void *argument)
{
    pthread_setspecific(key, "k");
    pthread_cleanup_push(mark, "1");
    pthread_cleanup_push(mark, "2");
    pthread_cleanup_push(mark, "3");
    pthread_cleanup_pop(1);
    pthread_cleanup_push(mark, "4");
    pthread_cleanup_pop(0);
    pthread_exit(argument);
    pthread_cleanup_pop(0);
    pthread_cleanup_pop(0);
    return NULL;
}

static void try_ends(void)
{
    pthread_t thread;
    check(pthread_key_create(&key, mark) == 0 && pthread_getspecific(key) == NULL);
    check(pthread_setspecific(key, trace) == 0 && pthread_getspecific(key) == trace);
    start(&thread, end_inside, trace);
    check(join(thread) == trace && strcmp(trace, "321k") == 0);
    check(pthread_getspecific(key) == trace && pthread_key_delete(key) == 0);
    check(pthread_key_delete(key) == EINVAL && pthread_setspecific(key, trace) == EINVAL);
}

// ---- mutexes

static pthread_mutex_t mutex = PTHREAD_MUTEX_INITIALIZER;
static pthread_mutex_t other_mutex;
static long sum;

static void *try_to_lock(void *argument)
{
    (void)argument;
    struct timespec until;
    clock_gettime(CLOCK_REALTIME, &until);
    until.tv_sec += 1;
    check(pthread_mutex_trylock(&mutex) == EBUSY);
    check(pthread_mutex_timedlock(&mutex, &until) == ETIMEDOUT);
    check(pthread_mutex_unlock(&other_mutex) == EPERM);
    return NULL;
}

static void *add(void *argument)
{
    for (int i = 0; i < 20; i += 1) {
        check(pthread_mutex_lock(&mutex) == 0);
        sum += (long)argument;
        check(pthread_mutex_unlock(&mutex) == 0);
    }
    return NULL;
}

static void try_mutexes(void)
{
    pthread_t one, other;
    pthread_mutexattr_t attributes;
    int kind = -1;
    check(pthread_mutexattr_init(&attributes) == 0 && pthread_mutexattr_settype(&attributes, 9) == EINVAL);
    check(pthread_mutexattr_settype(&attributes, PTHREAD_MUTEX_RECURSIVE) == 0);
    check(pthread_mutexattr_gettype(&attributes, &kind) == 0 && kind == PTHREAD_MUTEX_RECURSIVE);
    check(pthread_mutex_init(&other_mutex, &attributes) == 0);
    check(pthread_mutex_lock(&other_mutex) == 0 && pthread_mutex_lock(&other_mutex) == 0);
    check(pthread_mutex_trylock(&other_mutex) == 0 && pthread_mutex_lock(&mutex) == 0);
    start(&one, try_to_lock, NULL);
    join(one);
    check(pthread_mutex_unlock(&mutex) == 0 && pthread_mutex_unlock(&other_mutex) == 0);
    check(pthread_mutex_unlock(&other_mutex) == 0 && pthread_mutex_unlock(&other_mutex) == 0);
    check(pthread_mutex_unlock(&other_mutex) == EPERM && pthread_mutex_destroy(&other_mutex) == 0);
    check(pthread_mutexattr_settype(&attributes, PTHREAD_MUTEX_ERRORCHECK) == 0);
    check(pthread_mutex_init(&other_mutex, &attributes) == 0 && pthread_mutex_lock(&other_mutex) == 0);
    check(pthread_mutex_lock(&other_mutex) == EDEADLK && pthread_mutex_trylock(&other_mutex) == EBUSY);
    check(pthread_mutex_destroy(&other_mutex) == EBUSY && pthread_mutex_unlock(&other_mutex) == 0);
    start(&one, add, (void *)1);
    start(&other, add, (void *)2);
    add((void *)3);
    join(one);
    join(other);
    check(sum == 120);
}

// ---- conditions

static pthread_cond_t condition = PTHREAD_COND_INITIALIZER;
static int waiting, woken, allowed;

static void *wait_once(void *argument)
{
    (void)argument;
    pthread_mutex_lock(&mutex);
    waiting += 1;
    while (allowed == 0) {
        check(pthread_cond_wait(&condition, &mutex) == 0);
    }
    allowed -= 1;
    woken += 1;
    pthread_mutex_unlock(&mutex);
    return NULL;
}

static int read_locked(int *number)
{
    pthread_mutex_lock(&mutex);
    int answer = *number;
    pthread_mutex_unlock(&mutex);
    return answer;
}

static void allow(int count, int all)
{
    pthread_mutex_lock(&mutex);
    allowed += count;
    check((all ? pthread_cond_broadcast(&condition) : pthread_cond_signal(&condition)) == 0);
    pthread_mutex_unlock(&mutex);
}

static void try_conditions(void)
{
    pthread_t threads[3];
    struct timespec until;
    for (int i = 0; i < 3; i += 1) {
        start(&threads[i], wait_once, NULL);
    }
    while (read_locked(&waiting) < 3) {
    }
    allow(1, 0);
    while (read_locked(&woken) < 1) {
    }
    allow(2, 1);
    for (int i = 0; i < 3; i += 1) {
        join(threads[i]);
    }
    check(woken == 3 && allowed == 0);
    pthread_mutex_lock(&mutex);
    clock_gettime(CLOCK_REALTIME, &until);
    until.tv_sec += 1;
    check(pthread_cond_timedwait(&condition, &mutex, &until) == ETIMEDOUT);
    pthread_mutex_unlock(&mutex);
    struct timespec now;
    clock_gettime(CLOCK_REALTIME, &now);
    check(now.tv_sec >= until.tv_sec);
    pthread_condattr_t attributes;
    pthread_cond_t timed;
    check(pthread_condattr_init(&attributes) == 0);
    check(pthread_condattr_setclock(&attributes, CLOCK_MONOTONIC) == 0);
    check(pthread_cond_init(&timed, &attributes) == 0);
    clock_gettime(CLOCK_MONOTONIC, &until);
    until.tv_nsec = 0;
    until.tv_sec += 2;
    pthread_mutex_lock(&mutex);
    check(pthread_cond_timedwait(&timed, &mutex, &until) == ETIMEDOUT);
    pthread_mutex_unlock(&mutex);
    check(pthread_cond_destroy(&timed) == 0);
}

// ---- read-write locks, barriers, once, spin locks, semaphores

static pthread_rwlock_t rwlock = PTHREAD_RWLOCK_INITIALIZER;
static pthread_barrier_t barrier;
static pthread_once_t once = PTHREAD_ONCE_INIT;
static pthread_spinlock_t spin;
static int made, serial, by_round[3], number;

static void make(void)
{
    made += 1;
}

static void *try_rwlock(void *argument)
{
    (void)argument;
    check(pthread_rwlock_tryrdlock(&rwlock) == 0 && pthread_rwlock_unlock(&rwlock) == 0);
    check(pthread_rwlock_trywrlock(&rwlock) == EBUSY);
    return NULL;
}

static void *use_all(void *argument)
{
    (void)argument;
    check(pthread_once(&once, make) == 0 && made == 1);
    for (int round = 0; round < 3; round += 1) {
        check(pthread_spin_lock(&spin) == 0);
        by_round[round] += 1;
        check(pthread_spin_unlock(&spin) == 0);
        int answer = pthread_barrier_wait(&barrier);
        check(answer == 0 || answer == PTHREAD_BARRIER_SERIAL_THREAD);
        check(by_round[round] == 3);
        if (answer != 0) {
            check(pthread_rwlock_wrlock(&rwlock) == 0);
            serial += 1;
            check(pthread_rwlock_unlock(&rwlock) == 0);
        }
        check(pthread_rwlock_rdlock(&rwlock) == 0);
        check(serial >= round && serial <= 3);
        check(pthread_rwlock_unlock(&rwlock) == 0);
    }
    return NULL;
}

static void try_others(void)
{
    pthread_t one, other;
    check(pthread_rwlock_rdlock(&rwlock) == 0);
    start(&one, try_rwlock, NULL);
    join(one);
    check(pthread_rwlock_unlock(&rwlock) == 0);
    check(pthread_barrier_init(&barrier, NULL, 0) == EINVAL);
    check(pthread_barrier_init(&barrier, NULL, 3) == 0 && pthread_spin_init(&spin, 0) == 0);
    start(&one, use_all, NULL);
    start(&other, use_all, NULL);
    use_all(NULL);
    join(one);
    join(other);
    check(serial == 3 && pthread_barrier_destroy(&barrier) == 0);
    check(pthread_spin_trylock(&spin) == 0 && pthread_spin_trylock(&spin) == EBUSY);
    check(pthread_spin_unlock(&spin) == 0 && pthread_spin_destroy(&spin) == 0);
    check(pthread_rwlock_destroy(&rwlock) == 0);
    sem_t semaphore;
    struct timespec until;
    check(sem_init(&semaphore, 0, 2) == 0 && sem_wait(&semaphore) == 0 && sem_trywait(&semaphore) == 0);
    check(sem_trywait(&semaphore) == -1 && errno == EAGAIN);
    clock_gettime(CLOCK_REALTIME, &until);
    check(sem_timedwait(&semaphore, &until) == -1 && errno == ETIMEDOUT);
    check(sem_post(&semaphore) == 0 && sem_getvalue(&semaphore, &number) == 0 && number == 1);
    check(sem_destroy(&semaphore) == 0 && sched_yield() == 0);
}

// ---- time: who sleeps shorter wakes first

static char order[8];

static void *sleep_and_mark(void *text)
{
    // so long that the others have begun, also with turns of 10,000 instructions
    sleep((unsigned)(*(char *)text - '0') * 1000);
    pthread_mutex_lock(&mutex);
    strcat(order, text);
    pthread_mutex_unlock(&mutex);
    return NULL;
}

static void try_time(void)
{
    pthread_t threads[3];
    static char *texts[3] = {"8", "1", "4"};
    time_t before = time(NULL);
    for (int i = 0; i < 3; i += 1) {
        start(&threads[i], sleep_and_mark, texts[i]);
    }
    for (int i = 0; i < 3; i += 1) {
        join(threads[i]);
    }
    check(strcmp(order, "148") == 0);
    struct timespec wrong = {0, -1};
    check(nanosleep(&wrong, NULL) == -1 && errno == EINVAL && sleep(2) == 0);
    check(time(NULL) - before >= 2 && clock() > 0);
}

// ---- the heap

static void *free_it(void *memory)
{
    free(memory);
    return malloc(10000);
}

static void try_heap(void)
{
    static void *blocks[200];
    for (int i = 0; i < 200; i += 1) {
        blocks[i] = malloc((size_t)i * 7);
        check(blocks[i] != NULL && (uintptr_t)blocks[i] % 16 == 0);
        memset(blocks[i], i, (size_t)i * 7);
    }
    for (int i = 0; i < 200; i += 1) {
        for (int j = 0; j < i * 7; j += 50) {
            check(((unsigned char *)blocks[i])[j] == i);
        }
        free(blocks[i]);
    }
    char *text = strdup("heap");
    check(strcmp(text, "heap") == 0);
    text = realloc(text, 3000);
    check(strcmp(text, "heap") == 0 && (text = realloc(text, 2)) != NULL && text[1] == 'e');
    free(text);
    long *zeros = calloc(50, 8);
    for (int i = 0; i < 50; i += 1) {
        check(zeros[i] == 0);
    }
    free(zeros);
    free(NULL);
    for (size_t alignment = 8; alignment <= 4096; alignment *= 2) {
        char *aligned = aligned_alloc(alignment, 40);
        check(aligned != NULL && (uintptr_t)aligned % alignment == 0);
        aligned[39] = 1;
        free(aligned);
    }
    errno = 0;
    volatile size_t much = (size_t)-1;
    check(malloc(much / 1000) == NULL && errno == ENOMEM && calloc(much, 2) == NULL);
    // all that there is, and again what was given back, also by another thread
    void *all = NULL, *next;
    int count = 0;
    while ((next = malloc(10000)) != NULL) {
        *(void **)next = all;
        all = next;
        count += 1;
    }
    check(count > 50 && errno == ENOMEM);
    pthread_t thread;
    next = *(void **)all;
    start(&thread, free_it, all);
    void *last = join(thread);
    check(last != NULL && malloc(10000) == NULL);
    free(last);
    while (next != NULL) {
        all = *(void **)next;
        free(next);
        next = all;
    }
    check(malloc(10000) != NULL);
}

// ---- strings, jumps, output

static jmp_buf back;

__attribute__((noinline)) static void leave(int depth)
{
    if (depth == 0) {
        longjmp(back, 5);
    }
    if (depth > 0) {
        leave(depth - 1);
        number += 1;
    }
}

static int compare(const void *one, const void *other)
{
    return *(const int *)one - *(const int *)other;
}

static void try_library(void)
{
    char text[32] = "ab";
    check(strlen(text) == 2 && strnlen(text, 1) == 1 && strcmp(text, "ac") < 0 && strcmp("", "") == 0);
    check(strncmp(text, "ax", 1) == 0 && strncmp(text, "ax", 2) < 0 && strchr(text, 'b') == text + 1);
    check(strchr(text, 'x') == NULL && strchr(text, 0) == text + 2 && strrchr("aa", 'a') != NULL);
    check(strcmp(strcat(text, "cd"), "abcd") == 0 && strcmp(strncat(text, "efg", 2), "abcdef") == 0);
    check(strcmp(strcpy(text, "xyz"), "xyz") == 0 && memchr(text, 'y', 3) == text + 1);
    check(strncpy(text, "12", 4) == text && text[2] == 0 && text[3] == 0);
    static int jumps;
    for (int i = 0; i < 1000; i += 1) {
        // the frames of the functions that are left: more than a thread's stack of them holds
        if (setjmp(back) == 5) {
            jumps += 1;
        } else {
            leave(9);
        }
    }
    check(jumps == 1000);
    int numbers[6] = {5, 3, 9, -1, 0, 3};
    qsort(numbers, 6, sizeof numbers[0], compare);
    check(numbers[0] == -1 && numbers[2] == 3 && numbers[5] == 9);
    srand(1);
    int first = rand();
    srand(1);
    check(first == rand());
    char line[40];
    check(snprintf(line, sizeof line, "%05d %s %.2f %lx", 42, "text", 1.5, 0xfful) == 18);
    check(strcmp(line, "00042 text 1.50 ff") == 0);
    check(write(1, "written\n", 8) == 8 && write(7, "", 0) == -1 && errno == EBADF && getchar() == EOF);
}

int main(int argc, char **argv)
{
    check(argc == 1 && argv[1] == NULL);
    setvbuf(stdout, NULL, _IONBF, 0);
    printf("%s: %d%c", "numbers", 7, '\n');
    fputs("fputs\n", stderr);
    fwrite("fwrite\n", 1, 7, stdout);
    putchar('c');
    puts("");
    try_threads();
    try_ends();
    try_mutexes();
    try_conditions();
    try_others();
    try_time();
    try_heap();
    try_library();
    puts("ok");
}
