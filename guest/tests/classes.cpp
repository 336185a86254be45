// C++ without a library: constructors of static objects, virtual functions, new and delete, static variables of
// functions, destructors at the end.
#include <pthread.h>
#include <stdio.h>
#include <stdlib.h>

namespace {

int made, ended;

struct Counted {
    Counted() { made += 1; }
    ~Counted()
    {
        ended += 1;
        if (ended == 2) {
            puts("destroyed");
        }
    }
    int value = 7;
};

Counted before_main;

struct Shape {
    virtual ~Shape() {}
    virtual int area() const = 0;
};

struct Square : Shape {
    explicit Square(int side) : side(side) {}
    int area() const override { return side * side; }
    int side;
};

// made by whichever thread comes first, and ordered before the others' uses
int &shared()
{
    static Counted once;
    return once.value;
}

void *use(void *argument)
{
    Shape *shape = new Square(static_cast<int>(reinterpret_cast<long>(argument)));
    long area = shape->area() + shared();
    delete shape;
    int *numbers = new int[10]();
    area += numbers[9];
    delete[] numbers;
    return reinterpret_cast<void *>(area);
}

} // namespace

int main()
{
    pthread_t threads[3];
    long sum = 0;
    if (made != 1) {
        return 1;
    }
    for (long i = 0; i < 3; i += 1) {
        pthread_create(&threads[i], nullptr, use, reinterpret_cast<void *>(i + 2));
    }
    for (pthread_t thread : threads) {
        void *result;
        pthread_join(thread, &result);
        sum += reinterpret_cast<long>(result);
    }
    printf("%ld %d\n", sum, made);
    return 0;
}
