/* Sorts 4,096 integers by heapsort, again and again. */
#include "bench.h"

#define COUNT 4096

static uint32_t numbers[COUNT];

static void sift_down(uint32_t root, uint32_t end)
{
    for (;;) {
        uint32_t child = 2 * root + 1;
        if (child >= end)
            return;
        if (child + 1 < end && numbers[child] < numbers[child + 1])
            child++;
        if (numbers[root] >= numbers[child])
            return;
        uint32_t held = numbers[root];
        numbers[root] = numbers[child];
        numbers[child] = held;
        root = child;
    }
}

static void sort(void)
{
    for (uint32_t root = COUNT / 2; root-- > 0;)
        sift_down(root, COUNT);
    for (uint32_t end = COUNT; end-- > 1;) {
        uint32_t held = numbers[0];
        numbers[0] = numbers[end];
        numbers[end] = held;
        sift_down(0, end);
    }
}

int main(void)
{
    uint32_t random = 1, sum = 0;
    for (int round = 0; round < 140; round++) {
        for (uint32_t i = 0; i < COUNT; i++)
            numbers[i] = next_random(&random);
        sort();
        sum += numbers[COUNT / 2];
    }
    print_hex(sum);
    return 0;
}
