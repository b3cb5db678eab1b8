/* Goes on for ever, and writes all the time. */
volatile unsigned turns;

int main(void) {
    for (;;)
        turns++;
}
