/* runtime.c: what the compiler calls by name in the page's WebAssembly module. */

typedef unsigned long word; /* 64 bits */
typedef unsigned __int128 pair;

/* The product of two numbers of 128 bits, by halves of 64 bits and quarters of 32 bits. */
pair __multi3(pair a, pair b) {
    word x = (word)a, y = (word)b, low = 0xffffffff;
    word first = (x & low) * (y & low), second = (x >> 32) * (y & low), third = (x & low) * (y >> 32);
    word middle = (first >> 32) + (second & low) + (third & low);
    word high = (x >> 32) * (y >> 32) + (second >> 32) + (third >> 32) + (middle >> 32);
    high += (word)(a >> 64) * y + x * (word)(b >> 64);
    return (pair)high << 64 | (middle << 32 | (first & low));
}

int memcmp(const void *some, const void *other, word count) {
    const unsigned char *a = some, *b = other;
    for (word at = 0; at < count; at++)
        if (a[at] != b[at]) return a[at] < b[at] ? -1 : 1;
    return 0;
}

int bcmp(const void *some, const void *other, word count) { return memcmp(some, other, count); }

/* A number of 128 bits, moved to the left or to the right by fewer bits than it has. */
pair __ashlti3(pair a, int bits) {
    word low = (word)a, high = (word)(a >> 64);
    if (bits >= 64) return (pair)(low << (bits - 64)) << 64;
    if (bits) high = high << bits | low >> (64 - bits);
    return (pair)high << 64 | low << bits;
}

pair __lshrti3(pair a, int bits) {
    word low = (word)a, high = (word)(a >> 64);
    if (bits >= 64) return high >> (bits - 64);
    if (bits) low = low >> bits | high << (64 - bits);
    return (pair)(high >> bits) << 64 | low;
}
