/* SHA-256 of "abc" (FIPS 180-4). The status is 1 where the digest is the known one. */
static const unsigned rounds[64] = {
    0x428a2f98, 0x71374491, 0xb5c0fbcf, 0xe9b5dba5, 0x3956c25b, 0x59f111f1, 0x923f82a4, 0xab1c5ed5,
    0xd807aa98, 0x12835b01, 0x243185be, 0x550c7dc3, 0x72be5d74, 0x80deb1fe, 0x9bdc06a7, 0xc19bf174,
    0xe49b69c1, 0xefbe4786, 0x0fc19dc6, 0x240ca1cc, 0x2de92c6f, 0x4a7484aa, 0x5cb0a9dc, 0x76f988da,
    0x983e5152, 0xa831c66d, 0xb00327c8, 0xbf597fc7, 0xc6e00bf3, 0xd5a79147, 0x06ca6351, 0x14292967,
    0x27b70a85, 0x2e1b2138, 0x4d2c6dfc, 0x53380d13, 0x650a7354, 0x766a0abb, 0x81c2c92e, 0x92722c85,
    0xa2bfe8a1, 0xa81a664b, 0xc24b8b70, 0xc76c51a3, 0xd192e819, 0xd6990624, 0xf40e3585, 0x106aa070,
    0x19a4c116, 0x1e376c08, 0x2748774c, 0x34b0bcb5, 0x391c0cb3, 0x4ed8aa4a, 0x5b9cca4f, 0x682e6ff3,
    0x748f82ee, 0x78a5636f, 0x84c87814, 0x8cc70208, 0x90befffa, 0xa4506ceb, 0xbef9a3f7, 0xc67178f2};

static unsigned hash[8];

static unsigned turned(unsigned word, int by) { return word >> by | word << (32 - by); }

static void begin(void) {
    static const unsigned first[8] = {0x6a09e667, 0xbb67ae85, 0x3c6ef372, 0xa54ff53a,
                                      0x510e527f, 0x9b05688c, 0x1f83d9ab, 0x5be0cd19};
    for (int place = 0; place < 8; place++)
        hash[place] = first[place];
}

static void take(const unsigned char *block) {
    unsigned words[64], state[8];
    for (int place = 0; place < 16; place++, block += 4)
        words[place] = (unsigned)block[0] << 24 | block[1] << 16 | block[2] << 8 | block[3];
    for (int place = 16; place < 64; place++) {
        unsigned early = words[place - 15], late = words[place - 2];
        words[place] = words[place - 16] + (turned(early, 7) ^ turned(early, 18) ^ early >> 3) + words[place - 7]
                     + (turned(late, 17) ^ turned(late, 19) ^ late >> 10);
    }
    for (int place = 0; place < 8; place++)
        state[place] = hash[place];
    for (int place = 0; place < 64; place++) {
        unsigned e = state[4], a = state[0];
        unsigned one = state[7] + (turned(e, 6) ^ turned(e, 11) ^ turned(e, 25)) + ((e & state[5]) ^ (~e & state[6]))
                     + rounds[place] + words[place];
        unsigned two = (turned(a, 2) ^ turned(a, 13) ^ turned(a, 22)) + ((a & state[1]) ^ (a & state[2]) ^ (state[1] & state[2]));
        for (int other = 7; other > 0; other--)
            state[other] = state[other - 1];
        state[4] += one;
        state[0] = one + two;
    }
    for (int place = 0; place < 8; place++)
        hash[place] += state[place];
}

static void digest(const char *message, unsigned length) {
    unsigned char block[64] = {0};
    for (unsigned place = 0; place < length; place++)
        block[place] = message[place];
    block[length] = 0x80;
    block[63] = length * 8;
    begin();
    take(block);
}

/* what the compiler calls for arrays */
void *memset(void *to, int byte, unsigned count) {
    for (unsigned char *place = to; count; count--)
        *place++ = byte;
    return to;
}

void *memcpy(void *to, const void *from, unsigned count) {
    unsigned char *place = to;
    for (const unsigned char *next = from; count; count--)
        *place++ = *next++;
    return to;
}

int main(void) {
    digest("abc", 3);
    return hash[0] == 0xba7816bf && hash[1] == 0x8f01cfea && hash[6] == 0xb410ff61 && hash[7] == 0xf20015ad;
}
