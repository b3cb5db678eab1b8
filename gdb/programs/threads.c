/* Two threads that share the work: each sums up every second number, and the first one waits for the other's sum. */
#define COUNT 60

static volatile int numbers[COUNT];
static volatile int sums[2], is_done;
char stack[512] __attribute__((aligned(16)));

/* Asks for a thread that begins at `from`; the answer is its number. */
static int begin(void (*from)(int), int number) {
    register int place asm("a0") = (int)from;
    register int first asm("a1") = number;
    register int call asm("a7") = 1000;
    asm volatile("ecall" : "+r"(place) : "r"(first), "r"(call) : "memory");
    return place;
}

static void sum_up(int which) {
    for (int place = which; place < COUNT; place += 2)
        sums[which] += numbers[place];
}

void second(int which) {
    sum_up(which);
    is_done = 1;
    for (;;)
        ;
}

/* A thread begins without a stack. */
asm(".globl start_second\nstart_second: la sp, stack + 512\n j second");
extern void start_second(int);

int main(void) {
    for (int place = 0; place < COUNT; place++)
        numbers[place] = place + 1;
    if (begin(start_second, 1) != 2)
        return 255;
    sum_up(0);
    while (!is_done)
        ;
    return (sums[0] + sums[1]) % 251;
}
