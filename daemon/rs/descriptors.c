/* How many descriptors can be opened still. See descriptors.h. */
#include "descriptors.h"
#include <errno.h>
#include <fcntl.h>
#include <unistd.h>

bool descriptors_are_there(int wanted) {
    wanted += DESCRIPTORS_LEFT;
    int opened[wanted], count = 0;
    while (count < wanted && (opened[count] = fcntl(STDIN_FILENO, F_DUPFD_CLOEXEC, 0)) >= 0) count++;
    int error = errno;
    for (int i = 0; i < count; i++) close(opened[i]);
    errno = error;
    return count == wanted;
}
