/* Calls that call themselves: Fibonacci's numbers, the towers of Hanoi, and five queens on a board. */
static int moves;

static int fibonacci(int number) { return number < 2 ? number : fibonacci(number - 1) + fibonacci(number - 2); }

static void hanoi(int height, int from, int over, int to) {
    if (height == 0)
        return;
    hanoi(height - 1, from, to, over);
    moves++;
    hanoi(height - 1, over, from, to);
}

static int queens(unsigned columns, unsigned rising, unsigned falling) {
    int found = 0;
    if (columns == 31)
        return 1;
    for (unsigned column = 1; column < 32; column <<= 1)
        if (!(column & (columns | rising | falling)))
            found += queens(columns | column, (rising | column) << 1, (falling | column) >> 1);
    return found;
}

int main(void) {
    hanoi(5, 1, 2, 3);
    return fibonacci(9) + moves + queens(0, 0, 0);
}
