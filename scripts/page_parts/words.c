/* What the compiler leaves calls of where the processor has no instruction: bytes that are copied, and numbers
 * of 128 bits, by the names of compiler-rt. */
typedef unsigned long word;
typedef unsigned char byte;
typedef __int128 wide;

union halves {
    wide all;
    struct {
        word low, high;
    } part;
};

void *memcpy(void *to, const void *from, word size) {
    byte *a = to;
    const byte *b = from;
    for (word k = 0; k < size; k++) a[k] = b[k];
    return to;
}

void *memmove(void *to, const void *from, word size) {
    byte *a = to;
    const byte *b = from;
    if (a <= b)
        for (word k = 0; k < size; k++) a[k] = b[k];
    else
        for (word k = size; k > 0; k--) a[k - 1] = b[k - 1];
    return to;
}

void *memset(void *to, int value, word size) {
    byte *a = to;
    for (word k = 0; k < size; k++) a[k] = (byte)value;
    return to;
}

int memcmp(const void *one, const void *other, word size) {
    const byte *a = one, *b = other;
    for (word k = 0; k < size; k++)
        if (a[k] != b[k]) return a[k] - b[k];
    return 0;
}

int bcmp(const void *one, const void *other, word size) {
    return memcmp(one, other, size);
}

wide __multi3(wide one, wide other) {
    union halves a = {one}, b = {other}, product;
    word a_low = (unsigned)a.part.low, a_high = a.part.low >> 32;
    word b_low = (unsigned)b.part.low, b_high = b.part.low >> 32;
    word low = a_low * b_low, left = a_high * b_low, right = a_low * b_high;
    word middle = (low >> 32) + (unsigned)left + (unsigned)right;
    product.part.low = (middle << 32) | (unsigned)low;
    product.part.high = a_high * b_high + (left >> 32) + (right >> 32) + (middle >> 32) + a.part.high * b.part.low +
                        a.part.low * b.part.high;
    return product.all;
}

wide __ashlti3(wide number, int count) {
    union halves from = {number}, to;
    if (count == 0) return number;
    if (count & 64) {
        to.part.low = 0;
        to.part.high = from.part.low << (count & 63);
    } else {
        to.part.low = from.part.low << count;
        to.part.high = (from.part.high << count) | (from.part.low >> (64 - count));
    }
    return to.all;
}

wide __lshrti3(wide number, int count) {
    union halves from = {number}, to;
    if (count == 0) return number;
    if (count & 64) {
        to.part.high = 0;
        to.part.low = from.part.high >> (count & 63);
    } else {
        to.part.high = from.part.high >> count;
        to.part.low = (from.part.low >> count) | (from.part.high << (64 - count));
    }
    return to.all;
}
