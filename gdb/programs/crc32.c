/* CRC-32 of a text, bit by bit and by a table for half a byte. The status is 1 where both are the known one. */
static const char text[] = "123456789";
static unsigned table[16];

static unsigned shifted(unsigned crc, int bits) {
    for (int bit = 0; bit < bits; bit++)
        crc = crc >> 1 ^ (crc & 1 ? 0xedb88320u : 0);
    return crc;
}

int main(void) {
    unsigned slow = ~0u, fast = ~0u;
    for (unsigned half = 0; half < 16; half++)
        table[half] = shifted(half, 4);
    for (const char *byte = text; *byte; byte++) {
        slow = shifted(slow ^ *byte, 8);
        fast = fast >> 4 ^ table[(fast ^ *byte) & 15];
        fast = fast >> 4 ^ table[(fast ^ *byte >> 4) & 15];
    }
    return ~slow == 0xcbf43926u && ~fast == 0xcbf43926u;
}
