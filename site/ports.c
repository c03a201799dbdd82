/* What the library orders of a file, which a browser doesn't have: each order fails. The page opens no file. */
typedef __SIZE_TYPE__ size_t;

long write(int port, const void *bytes, size_t n) {
    (void)port, (void)bytes, (void)n;
    return -1;
}

long read(int port, void *at, size_t n) {
    (void)port, (void)at, (void)n;
    return -1;
}
