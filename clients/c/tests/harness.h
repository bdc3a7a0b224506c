/* What the tests of the C library share: a test prints a line, and ends with the first thing that isn't as it has to be. */
#ifndef HARNESS_H
#define HARNESS_H

#include <stdbool.h>
#include <stddef.h>

#include "xarm.h"

/* Runs a test, and prints 'c: NAME ... ok' or what was wrong. */
void test(const char *name, void (*body)(void));

/* In a test's own thread: a call has the code. */
#define CODE(expected, call) expect_code(__FILE__, __LINE__, #call, (expected), (call))
/* Something holds. */
#define HOLDS(what) expect_holds(__FILE__, __LINE__, #what, (what))

void expect_code(const char *file, int line, const char *what, long expected, long found);
void expect_holds(const char *file, int line, const char *what, bool holds);
/* Ends the test with what is wrong, as of printf. */
__attribute__((format(printf, 1, 2), noreturn)) void fail(const char *form, ...);

/* Before the first test. Whichever one runs after this many seconds has failed. */
void begin_tests(const char *the_program, const char *the_folder, int seconds);
/* How many passed and failed, printed; the status of the program. */
int end_of_tests(void);

/* What was given to the tests: the program xarm, and a folder for files. */
extern const char *program, *folder;

/* The tests. */
void info_tests(void);
void entry_tests(void);
void record_tests(void);
void state_tests(void);
void broken_tests(void);
void reply_tests(void);
void thread_tests(void);
void recover_tests(void);
void hash_tests(void);
void login_tests(void);
void secret_tests(void);

#endif
