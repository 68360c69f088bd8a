/* How a server hears where drivers are: it subscribes at dsrs to their labels, and its table learns what a check shows. */
#ifndef MACHINE_LABELS_H
#define MACHINE_LABELS_H

#include <stdint.h>

/* Subscribes to the labels that a pattern matches. It exits if the process isn't a server that dsrs started. */
void labels_open(const char *pattern);
/* The descriptor to read from. */
int labels_file(void);
/* Takes what dsrs said: pings are answered, notices are followed by a check, and the table learns. It exits once dsrs has ended. */
void labels_hear(void);
/* Complains of an instance of a driver. */
void labels_complain(uint32_t generation, uint16_t slot);

#endif
