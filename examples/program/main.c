/* Sorts four numbers where they lie, and answers the sum of their squares. */

static int numbers[4] = {5, 0, 4, 1};

/* Insertion sort: each number moves down past the larger ones before it. */
__attribute__((noinline)) void sort(int *list, int count) {
    for (int next = 1; next < count; next++) {
        int number = list[next];
        int place = next;
        while (place > 0 && list[place - 1] > number) {
            list[place] = list[place - 1];
            place--;
        }
        list[place] = number;
    }
}

int main(void) {
    int sum = 0;
    sort(numbers, 4);
    for (int place = 0; place < 4; place++)
        sum += numbers[place] * numbers[place];
    return sum;
}
