/* Heap sort of numbers that a generator draws; the status is how many places are in order, and a few bits of the numbers. */
#define COUNT 80

static unsigned numbers[COUNT];

static void draw(void) {
    unsigned state = 2463534242u;
    for (int place = 0; place < COUNT; place++) {
        state ^= state << 13;
        state ^= state >> 17;
        state ^= state << 5;
        numbers[place] = state;
    }
}

static void sink(int place, int count) {
    unsigned number = numbers[place];
    while (2 * place + 1 < count) {
        int child = 2 * place + 1;
        if (child + 1 < count && numbers[child + 1] > numbers[child])
            child++;
        if (numbers[child] <= number)
            break;
        numbers[place] = numbers[child];
        place = child;
    }
    numbers[place] = number;
}

int main(void) {
    int ordered = 0;
    draw();
    for (int place = COUNT / 2 - 1; place >= 0; place--)
        sink(place, COUNT);
    for (int count = COUNT - 1; count > 0; count--) {
        unsigned largest = numbers[0];
        numbers[0] = numbers[count];
        numbers[count] = largest;
        sink(0, count);
    }
    for (int place = 1; place < COUNT; place++)
        ordered += numbers[place - 1] <= numbers[place];
    return (ordered + (numbers[COUNT / 2] >> 24)) & 127;
}
