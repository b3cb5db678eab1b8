/* Numbers of 64 bits, which the compiler's own library multiplies, divides and shifts, and of floating point. */
typedef long long wide;
typedef unsigned long long natural;

static volatile wide operands[] = {1, -1, 7, 1000000007, -123456789012345, 0x7fffffffffffffff, 0x100000000};
static volatile double fraction = 2.5;

int main(void) {
    natural sum = 0;
    int count = sizeof operands / sizeof operands[0];
    for (int left = 0; left < count; left++)
        for (int right = 0; right < count; right++) {
            wide one = operands[left], two = operands[right];
            sum += one * two;
            sum ^= (natural)(one / two) + (one % two << 1);
            sum += (natural)one / (natural)two ^ (natural)one % (natural)two;
            sum = sum << (two & 31) | sum >> (one & 15);
        }
    for (int turn = 0; turn < 4; turn++)
        fraction = fraction * 1.5 + fraction / 3;
    return (int)(sum ^ sum >> 32 ^ (natural)(wide)fraction) & 255;
}
