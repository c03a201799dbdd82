/* What opens a file does with descriptors. It is for the C beside the libraries, and isn't installed. */
#ifndef ENVY_OPEN_H
#define ENVY_OPEN_H

#include <errno.h>
#include <fcntl.h>
#include <unistd.h>

enum { STANDARD_STREAMS = 3 };

/* Opens each descriptor of a standard stream that is closed, so that no file has its number and no printf writes to that
   file. Each is opened the other way, so that its use fails, as that of a closed one does. A program that is started by
   this one has them too. */
static inline void hold_standard_streams(void) {
    for (int stream = 0; stream < STANDARD_STREAMS; stream++) {
        if (fcntl(stream, F_GETFD) >= 0 || errno != EBADF) continue;
        int held = open("/dev/null", stream == STDIN_FILENO ? O_WRONLY : O_RDONLY);
        if (held >= STANDARD_STREAMS) close(held);
    }
}

/* The same open file under a descriptor that is no standard stream's, or -1. What the system refused stays in errno. */
static inline int above_standard_streams(int descriptor) {
    if (descriptor < 0 || descriptor >= STANDARD_STREAMS) return descriptor;
    int above = fcntl(descriptor, F_DUPFD_CLOEXEC, STANDARD_STREAMS);
    int why = errno;
    close(descriptor);
    errno = why;
    return above;
}

#endif
