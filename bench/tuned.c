/* A yardstick: the translation of frames by hand, with large reads, memchr and one gathered write for each of them, and
   the checks of `relay`. `tuned IN OUT` with framings as those of `relay copy`; it ends with the same statuses. */
#include <stdint.h>
#include <stdlib.h>
#include <string.h>
#include <unistd.h>

enum { MAX = 65536, ROOM = 262144, HEAD = 4 };
enum framing { LEN4, LEN2, LINE };

static unsigned char in[ROOM], out[5 * ROOM];
static size_t filled, gathered;

static enum framing framing_of(const char *word) {
    return strcmp(word, "len4") == 0 ? LEN4 : strcmp(word, "len2") == 0 ? LEN2 : LINE;
}

static void write_gathered(void) {
    for (size_t at = 0; at < gathered;) {
        ssize_t n = write(1, out + at, gathered - at);
        if (n < 0) exit(5);
        at += n;
    }
    gathered = 0;
}

static void refuse(int status) {
    write_gathered();
    exit(status);
}

static void put(enum framing to, const unsigned char *payload, size_t len) {
    unsigned char *p = out + gathered;
    if (to == LEN4) {
        uint32_t head = __builtin_bswap32(len);
        memcpy(p, &head, 4);
        p += 4;
    } else if (to == LEN2) {
        if (len > 65535) refuse(2);
        uint16_t head = __builtin_bswap16(len);
        memcpy(p, &head, 2);
        p += 2;
    } else if (memchr(payload, '\n', len)) {
        refuse(2);
    }
    memcpy(p, payload, len);
    p += len;
    if (to == LINE) *p++ = '\n';
    gathered = p - out;
}

/* Puts the frames that are whole, and answers how many bytes they have. */
static size_t cut(enum framing from, enum framing to, int at_end) {
    size_t at = 0;
    for (;;) {
        const unsigned char *p = in + at;
        size_t left = filled - at, head = from == LEN4 ? 4 : from == LEN2 ? 2 : 0, len;
        if (from == LINE) {
            const unsigned char *feed = memchr(p, '\n', left);
            if (!feed && left > MAX) refuse(2);
            if (!feed && !(at_end && left)) return at;
            len = feed ? (size_t)(feed - p) : left;
            if (len > MAX) refuse(2);
            put(to, p, len);
            at += feed ? len + 1 : len;
            continue;
        }
        if (left < head) return at;
        uint32_t word = 0;
        memcpy(&word, p, head);
        len = from == LEN4 ? __builtin_bswap32(word) : __builtin_bswap16(word);
        if (len > MAX) refuse(2);
        if (left - head < len) return at;
        put(to, p + head, len);
        at += head + len;
    }
}

int main(int argc, char **argv) {
    if (argc != 3) return 1;
    enum framing from = framing_of(argv[1]), to = framing_of(argv[2]);
    for (;;) {
        ssize_t n = read(0, in + filled, ROOM - filled);
        if (n < 0) refuse(4);
        filled += n;
        size_t used = cut(from, to, n == 0);
        write_gathered();
        memmove(in, in + used, filled - used);
        filled -= used;
        if (n == 0) return filled ? 3 : 0;
    }
}
