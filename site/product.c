/* The product of two numbers of 128 bits, which clang calls for on a processor that has no such instruction and whose
   library is missing here. By halves of 32 bits. Nothing proves it. */
typedef __UINT64_TYPE__ word;
typedef __int128 wide;

union halves {
    wide whole;
    struct {
        word low, high;
    } part;
};

/* the product of two words, in two words */
static union halves product(word a, word b) {
    word a0 = a & 0xffffffff, a1 = a >> 32, b0 = b & 0xffffffff, b1 = b >> 32;
    word low = a0 * b0;
    word middle = a1 * b0 + (low >> 32);
    word rest = a0 * b1 + (middle & 0xffffffff);
    union halves found;
    found.part.low = (rest << 32) | (low & 0xffffffff);
    found.part.high = a1 * b1 + (middle >> 32) + (rest >> 32);
    return found;
}

wide __multi3(wide x, wide y) {
    union halves a, b, found;
    a.whole = x;
    b.whole = y;
    found = product(a.part.low, b.part.low);
    found.part.high += a.part.low * b.part.high + a.part.high * b.part.low;
    return found.whole;
}
