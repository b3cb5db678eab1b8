/* The baseline of the measurements: the lines of a TCF stream's messages, in plain C.
 *
 * It reads the file whole, takes out the escapes message by message, checks each message and appends its line to one
 * buffer, which is written every 64 KiB. It prints what `tcf show` prints. */
#include <stdint.h>
#include <stdio.h>
#include <stdlib.h>
#include <string.h>
#include <unistd.h>

enum { MESSAGE_LIMIT = 1049600, BODY_LIMIT = 1048576, TOKEN_LIMIT = 255, PIECE = 65536 };

static uint8_t *text;
static size_t text_size, text_room;

static void room_for(size_t more) {
    if (text_size + more <= text_room) return;
    text_room = 2 * (text_size + more);
    text = realloc(text, text_room);
    if (text == NULL) exit(7);
}

static void put(const void *bytes, size_t size) {
    room_for(size);
    memcpy(text + text_size, bytes, size);
    text_size += size;
}

static void put_byte(uint8_t byte) {
    room_for(1);
    text[text_size++] = byte;
}

static void flush(void) {
    size_t done = 0;
    while (done < text_size) {
        ssize_t count = write(1, text + done, text_size - done);
        if (count <= 0) exit(4);
        done += (size_t)count;
    }
    text_size = 0;
}

static void show(const uint8_t *part, size_t size) {
    static const char digits[] = "0123456789ABCDEF";
    if (size == 0) put_byte('-');
    for (size_t i = 0; i < size; i++) {
        uint8_t byte = part[i];
        if (byte <= 32 || byte == '%' || byte == 127) {
            uint8_t shown[3] = {'%', (uint8_t)digits[byte >> 4], (uint8_t)digits[byte & 15]};
            put(shown, 3);
        } else {
            put_byte(byte);
        }
    }
}

static void show_word(const uint8_t *word, size_t size) {
    put_byte(' ');
    show(word, size);
}

static void show_args(const uint8_t *body, size_t size) {
    for (;;) {
        const uint8_t *zero = memchr(body, 0, size);
        if (zero == NULL) break;
        show_word(body, (size_t)(zero - body));
        size -= (size_t)(zero - body) + 1;
        body = zero + 1;
    }
    if (size > 0) {
        put(" !", 2);
        show(body, size);
    }
}

struct field {
    const uint8_t *at;
    size_t size;
};

/* The field at the front of what is left, or the end of the run. */
static struct field next_field(const uint8_t **at, size_t *left, size_t offset) {
    const uint8_t *zero = *left == 0 ? NULL : memchr(*at, 0, *left);
    if (zero == NULL) {
        char last[64];
        put(last, (size_t)sprintf(last, "bad stream at %zu: field\n", offset));
        flush();
        exit(8);
    }
    struct field field = {*at, (size_t)(zero - *at)};
    *left -= field.size + 1;
    *at = zero + 1;
    return field;
}

static void bad(const char *what, size_t offset) {
    char last[64];
    put(last, (size_t)sprintf(last, "bad stream at %zu: %s\n", offset, what));
    flush();
    exit(8);
}

static struct field next_token(const uint8_t **at, size_t *left, size_t offset) {
    struct field token = next_field(at, left, offset);
    if (token.size == 0 || token.size > TOKEN_LIMIT) bad("token", offset);
    return token;
}

static int is_level(struct field f) {
    char digits[8];
    if (f.size == 0 || f.size > 4) return 0;
    memcpy(digits, f.at, f.size);
    digits[f.size] = 0;
    char back[16];
    long level = strtol(digits, NULL, 10);
    snprintf(back, sizeof back, "%ld", level);
    return level >= -100 && level <= 100 && strcmp(back, digits) == 0;
}

static void show_message(const uint8_t *bytes, size_t size, size_t offset) {
    if (size == 0) bad("empty", offset);
    const uint8_t *at = bytes;
    size_t left = size;
    struct field kind = next_field(&at, &left, offset);
    uint8_t letter = kind.size == 1 ? kind.at[0] : 0;
    if (letter == 0 || strchr("CRPNEF", letter) == NULL) bad("kind", offset);
    struct field token = {0}, service = {0}, name = {0};
    if (letter != 'E' && letter != 'F') token = next_token(&at, &left, offset);
    if (letter == 'F') {
        token = next_field(&at, &left, offset);
        if (!is_level(token)) bad("level", offset);
    }
    if (letter == 'C' || letter == 'E') {
        service = next_field(&at, &left, offset);
        name = next_field(&at, &left, offset);
    }
    if ((letter == 'N' || letter == 'F') && left > 0) bad("trailing", offset);
    if (service.size + name.size + left > BODY_LIMIT) bad("body", offset);
    put_byte(letter);
    if (letter != 'E') show_word(token.at, token.size);
    if (letter == 'C' || letter == 'E') {
        show_word(service.at, service.size);
        show_word(name.at, name.size);
    }
    show_args(at, left);
    put_byte('\n');
}

int main(int count, char **words) {
    if (count != 2) return 1;
    FILE *file = fopen(words[1], "rb");
    if (file == NULL) return 3;
    fseek(file, 0, SEEK_END);
    size_t size = (size_t)ftell(file);
    rewind(file);
    uint8_t *bytes = malloc(size + 1), *message = malloc(MESSAGE_LIMIT);
    if (bytes == NULL || message == NULL) return 7;
    if (fread(bytes, 1, size, file) != size) return 3;
    size_t length = 0, start = 0, i = 0;
    while (i < size) {
        const uint8_t *three = memchr(bytes + i, 3, size - i);
        size_t run = three == NULL ? size - i : (size_t)(three - (bytes + i));
        if (length + run > MESSAGE_LIMIT) bad("long", i + MESSAGE_LIMIT - length);
        memcpy(message + length, bytes + i, run);
        length += run;
        i += run;
        if (i == size) break;
        if (i + 1 == size) bad("unended", size);
        uint8_t next = bytes[i + 1];
        if (next > 2) bad("escape", i + 1);
        if (next == 0) {
            if (length == MESSAGE_LIMIT) bad("long", i + 1);
            message[length++] = 3;
        } else if (next == 1) {
            show_message(message, length, start);
            length = 0;
            start = i + 2;
        } else {
            put("EOS\n", 4);
            if (i + 2 < size) bad("after-end", i + 2);
            length = 0;
        }
        i += 2;
        if (text_size >= PIECE) flush();
    }
    if (length > 0) bad("unended", size);
    flush();
    return 0;
}
