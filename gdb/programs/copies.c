/* Copies of bytes, halves and words between all alignments, forward and backward. The status counts what came out right. */
static unsigned char from[32], to[32];

static void bytes(unsigned char *target, const unsigned char *source, int count) {
    while (count--)
        *target++ = *source++;
}

static void halves(unsigned char *target, const unsigned char *source, int count) {
    for (; count > 1; count -= 2, target += 2, source += 2)
        *(volatile short *)target = *(volatile const short *)source;
    bytes(target, source, count);
}

static void words(unsigned char *target, const unsigned char *source, int count) {
    for (; count > 3; count -= 4, target += 4, source += 4)
        *(volatile int *)target = *(volatile const int *)source;
    bytes(target, source, count);
}

static void backward(unsigned char *target, const unsigned char *source, int count) {
    while (count--)
        target[count] = source[count];
}

static void (*const ways[])(unsigned char *, const unsigned char *, int) = {bytes, halves, words, backward};

int main(void) {
    int right = 0;
    for (int place = 0; place < 32; place++)
        from[place] = 7 * place + 3;
    for (int way = 0; way < 4; way++)
        for (int source = 0; source < 4; source++)
            for (int target = 0; target < 4; target++) {
                int count = 5 + source + target, same = 1;
                ways[way](to + target, from + source, count);
                for (int place = 0; place < count; place++)
                    same &= to[target + place] == from[source + place];
                right += same && (signed char)to[target] == (signed char)from[source];
            }
    return right;
}
