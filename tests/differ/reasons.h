/* Why libcrypto doesn't take a file, and how often: by the call and the first error that it left. */
#ifndef REASONS_H
#define REASONS_H

void count_reason(const char *call);
void show_reasons(void);

#endif
