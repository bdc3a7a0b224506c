/* What xarm_why tells of a thread's last failure. */
#ifndef XARM_WHY_H
#define XARM_WHY_H

__attribute__((format(printf, 1, 2))) void why_set(const char *form, ...);

/* The text of an errno, in memory of the thread. */
const char *words_of(int error);

#endif
