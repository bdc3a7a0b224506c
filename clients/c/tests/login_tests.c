/* Logins, at a server in the test that lets in who has RFC 7677's password, and at a live one if it takes logins. */
#define _GNU_SOURCE
#include <fcntl.h>
#include <stdio.h>
#include <stdlib.h>
#include <string.h>
#include <sys/socket.h>
#include <sys/stat.h>
#include <unistd.h>

#include "guard.h"
#include "src/scram.h"
#include "work.h"

enum { RMID = 1, OTHER = 2, PARTS = 3 };

#define U60 "uuuuuuuuuuuuuuuuuuuuuuuuuuuuuuuuuuuuuuuuuuuuuuuuuuuuuuuuuuuu"

#define USER(name, role) "[" name "]\nrole = \"" role "\"\nverifier = \"" VERIFIER "\"\n"

static const char login[] = " 74 75", well[] = " 74 75 1";
static struct guard *guard;
static struct server server;
static char path[100], info[MAXINFOSIZE];

static void write_file(const char *to, const void *bytes, size_t length, mode_t mode)
{
    unlink(to);
    int file = open(to, O_WRONLY | O_CREAT | O_CLOEXEC, 0600);
    HOLDS(file >= 0);
    ssize_t written = write(file, bytes, length);
    HOLDS(written == (ssize_t)length && fchmod(file, mode) == 0);
    close(file);
}

static void password(const char *text)
{
    write_file(path, text, strlen(text), 0600);
}

static void asked(const char *wanted, const char *found)
{
    if (strcmp(wanted, found) != 0)
        fail("it was asked for%s", found);
}

static void begin(void)
{
    guard = guard_make();
    HOLDS(snprintf(path, sizeof path, "%s/p%d", folder, (int)getpid()) < (int)sizeof path);
    snprintf(info, sizeof info, "port=%d name=fake user=user password_file=%s timeout=20", guard_port(guard), path);
}

/* The branch is the server's business: it answers a forget without a body. */
static int ask(int rmid)
{
    XID xid = fresh();
    return xa_forget(&xid, rmid);
}

static void welcome(void)
{
    char first[300];
    unsigned char nonce[NONCE_BYTES];
    password("pencil\n");
    CODE(XA_OK, xa_open(info, RMID));
    CODE(XA_OK, ask(RMID));
    snprintf(first, sizeof first, "%s", guard_first(guard));
    HOLDS(strncmp(first, "n,,n=user,r=", 12) == 0);
    CODE(NONCE_BYTES, base64_read((const unsigned char *)first + 12, strlen(first + 12), nonce, sizeof nonce));
    CODE(XA_OK, xa_close(RMID));
    asked(" 74 75 1 9 2", guard_ended(guard));
    CODE(XA_OK, xa_open(info, RMID));
    HOLDS(strcmp(first, guard_first(guard)) != 0);
    CODE(XA_OK, xa_close(RMID));
    asked(" 74 75 1 2", guard_ended(guard));
}

/* What the file has after the first line doesn't count. */
static void files(void)
{
    static const char *const texts[] = {"pencil", "pencil\n", "pencil\r\n", "pencil\r", "pencil\nPencil\n", "pencil\n\n"};
    char text[2000];
    for (size_t at = 0; at < sizeof texts / sizeof texts[0]; at++) {
        password(texts[at]);
        CODE(XA_OK, xa_open(info, RMID));
        CODE(XA_OK, xa_close(RMID));
        asked(" 74 75 1 2", guard_ended(guard));
    }
    memset(text, 'p', sizeof text);
    memcpy(text, "pencil\n", 7);
    write_file(path, text, sizeof text, 0400);
    CODE(XA_OK, xa_open(info, RMID));
    CODE(XA_OK, xa_close(RMID));
    asked(" 74 75 1 2", guard_ended(guard));
}

static void by_environment(void)
{
    char words[MAXINFOSIZE];
    password("pencil\n");
    snprintf(words, sizeof words, "user=user name=fake port=%d", guard_port(guard));
    setenv("XARM_PASSWORD_FILE", path, 1);
    CODE(XA_OK, xa_open(words, RMID));
    CODE(XA_OK, xa_close(RMID));
    asked(" 74 75 1 2", guard_ended(guard));
    setenv("XARM_PASSWORD_FILE", "/nowhere", 1);
    CODE(XA_OK, xa_open(info, RMID));
    CODE(XA_OK, xa_close(RMID));
    asked(" 74 75 1 2", guard_ended(guard));
    CODE(XAER_INVAL, xa_open(words, RMID));
    HOLDS(strstr(xarm_why(), "login as user: /nowhere: No such file or directory"));
    setenv("XARM_PASSWORD_FILE", "", 1);
    CODE(XAER_INVAL, xa_open(words, RMID));
    unsetenv("XARM_PASSWORD_FILE");
    CODE(XAER_INVAL, xa_open(words, RMID));
    HOLDS(strstr(xarm_why(), "login as user: neither password_file nor XARM_PASSWORD_FILE"));
    asked("", guard_asked(guard));
}

static void no_password(const char *why)
{
    CODE(XAER_INVAL, xa_open(info, RMID));
    if (!strstr(xarm_why(), why) || !strstr(xarm_why(), path))
        fail("it is told '%s'", xarm_why());
}

/* Nothing is sent then, nor a connection made. */
static void bad_files(void)
{
    static const mode_t modes[] = {0640, 0604, 0660, 0601, 0610, 0777};
    char text[1100];
    memset(text, 'p', sizeof text);
    unlink(path);
    no_password("No such file or directory");
    password("");
    no_password("is empty");
    password("\npencil\n");
    no_password("is empty");
    password("\r\n");
    no_password("is empty");
    for (size_t length = 1025; length <= 1028; length++) {
        write_file(path, text, length, 0600);
        no_password("more than 1,024 bytes");
    }
    text[1025] = '\n';
    write_file(path, text, sizeof text, 0600);
    no_password("more than 1,024 bytes");
    for (size_t at = 0; at < sizeof modes / sizeof modes[0]; at++) {
        write_file(path, "pencil\n", 7, modes[at]);
        no_password("its owner's alone");
    }
    unlink(path);
    HOLDS(mkdir(path, 0700) == 0);
    no_password("Is a directory");
    HOLDS(rmdir(path) == 0 && mkfifo(path, 0600) == 0);
    no_password("is empty");
    asked("", guard_asked(guard));
}

/* xa_open is XAER_INVAL, and nothing more is asked. */
static void wrong(void)
{
    static const char *const texts[] = {"Pencil", "pencil ", " pencil", "\xd0\xbf"};
    char text[1024];
    for (size_t at = 0; at < sizeof texts / sizeof texts[0]; at++) {
        password(texts[at]);
        CODE(XAER_INVAL, xa_open(info, RMID));
        asked(login, guard_ended(guard));
    }
    memset(text, '\0', sizeof text);
    write_file(path, text, sizeof text, 0600);
    CODE(XAER_INVAL, xa_open(info, RMID));
    asked(login, guard_ended(guard));
    CODE(XAER_PROTO, ask(RMID));
}

static void stranger(void)
{
    static const char *const last[] = {
        "v=6rriTRBi23WpRR/wtup+mMhUZUn/dB5nLTJRsjl95G4=", "", "v=", "v=AAAAAAAAAAAAAAAAAAAAAAAAAAAAAAAAAAAAAAAAAAA=", "e=other-error",
    };
    password("pencil");
    for (size_t at = 0; at < sizeof last / sizeof last[0]; at++) {
        guard_answer(guard, FINAL_STEP, XA_OK, 0, WELCOMED, last[at], -1);
        CODE(XAER_RMERR, xa_open(info, RMID));
        HOLDS(strstr(xarm_why(), "it isn't who it says"));
        asked(login, guard_ended(guard));
    }
    guard_answer_well(guard);
}

static void no_replies(void)
{
    char many[258];
    memset(many, 'r', sizeof many - 1);
    many[sizeof many - 1] = '\0';
    for (int step = FIRST_STEP; step <= FINAL_STEP; step++) {
        int kind = step == FIRST_STEP ? CHALLENGED : WELCOMED;
        const struct {
            int code, kind;
            const char *body;
        } rows[] = {
            {XA_OK, 0, ""}, {XA_OK, 1, "12345678"}, {XA_OK, CHALLENGED + WELCOMED - kind, "r=x,s=AAAA,i=4096"}, {XA_OK, kind, many},
            {XA_OK, kind, "r=x"}, {XAER_INVAL, kind, ""}, {1, 0, ""},
        };
        for (size_t at = 0; at < sizeof rows / sizeof rows[0]; at++) {
            guard_answer(guard, step, rows[at].code, 0, rows[at].kind, rows[at].body, -1);
            CODE(XAER_RMERR, xa_open(info, RMID));
            asked(step == FIRST_STEP ? " 74" : login, guard_ended(guard));
        }
        guard_answer_well(guard);
    }
}

static void without_logins(void)
{
    guard_answer(guard, FIRST_STEP, XAER_INVAL, 6, 0, "", -1);
    CODE(XAER_INVAL, xa_open(info, RMID));
    HOLDS(strstr(xarm_why(), "takes no logins"));
    asked(" 74", guard_ended(guard));
    guard_answer(guard, FIRST_STEP, XAER_RMFAIL, 1, 0, "", -1);
    CODE(XAER_RMERR, xa_open(info, RMID));
    asked(" 74", guard_ended(guard));
    guard_answer_well(guard);
}

static void without_user(void)
{
    char words[MAXINFOSIZE];
    snprintf(words, sizeof words, "name=fake port=%d", guard_port(guard));
    CODE(XAER_INVAL, xa_open(words, RMID));
    HOLDS(strstr(xarm_why(), "the server wants a login, and there is no user"));
    asked(" 1", guard_ended(guard));
}

/* The connection ends in the midst of a login: of xa_open it is XAER_RMERR, of another call XAER_RMFAIL; and the next one logs in. */
static void broken(void)
{
    static const int parts[PARTS] = {0, 3, 18};
    password("pencil");
    CODE(XA_OK, xa_open(info, OTHER));
    asked(well, guard_asked(guard));
    for (int at = 0; at < 2 * PARTS; at++) {
        int step = at < PARTS ? FIRST_STEP : FINAL_STEP;
        const char *came = step == FIRST_STEP ? " 74" : login;
        guard_answer(guard, step, XA_OK, 0, CHALLENGED, "r=x", parts[at % PARTS]);
        CODE(XAER_RMERR, xa_open(info, RMID));
        HOLDS(strstr(xarm_why(), "login at 127.0.0.1:") && strstr(xarm_why(), " as user: "));
        asked(came, guard_ended(guard));
        guard_answer_well(guard);
        CODE(XA_OK, xa_open(info, RMID));
        CODE(XA_OK, ask(RMID));
        CODE(XA_OK, xa_close(RMID));
        asked(" 74 75 1 9 2", guard_ended(guard));
    }
    CODE(XA_OK, xa_close(OTHER));
    asked(" 2", guard_ended(guard));
}

/* A connection that is made anew logs in again, with the password that the file has by then. */
static void again(void)
{
    CODE(XA_OK, xa_open(info, RMID));
    asked(well, guard_asked(guard));
    guard_break(guard);
    asked("", guard_ended(guard));
    CODE(XA_OK, ask(RMID));
    asked(" 74 75 1 9", guard_asked(guard));
    password("Pencil");
    guard_break(guard);
    asked("", guard_ended(guard));
    CODE(XAER_RMFAIL, ask(RMID));
    HOLDS(strstr(xarm_why(), "refuses the name or the password"));
    asked(login, guard_ended(guard));
    unlink(path);
    CODE(XAER_RMFAIL, ask(RMID));
    HOLDS(strstr(xarm_why(), "No such file or directory"));
    CODE(XAER_INVAL, xa_open(info, RMID));
    password("pencil");
    CODE(XA_OK, ask(RMID));
    asked(" 74 75 1 9", guard_asked(guard));
    CODE(XA_OK, xa_open(info, RMID));
    CODE(XA_OK, xa_close(RMID));
    asked(" 2", guard_ended(guard));
}

/* Another user, or another file, is another info string. */
static void opened(void)
{
    char words[MAXINFOSIZE];
    CODE(XA_OK, xa_open(info, RMID));
    snprintf(words, sizeof words, "port=%d name=fake user=other password_file=%s timeout=20", guard_port(guard), path);
    CODE(XAER_INVAL, xa_open(words, RMID));
    snprintf(words, sizeof words, "port=%d name=fake user=user password_file=%sx timeout=20", guard_port(guard), path);
    CODE(XAER_INVAL, xa_open(words, RMID));
    snprintf(words, sizeof words, "password_file=%s user=user port=%d name=fake timeout=20", path, guard_port(guard));
    CODE(XA_OK, xa_open(words, RMID));
    CODE(XA_OK, xa_close(RMID));
    asked(" 74 75 1 2", guard_ended(guard));
}

static void bad_infos(void)
{
    static const char *const rows[] = {
        "user=", "user=a,b", "user=a=b", "user=user user=user", "user=us/er", "user=\xc3\xa9", "password_file=/f",
        "user=user password_file=", "user=user password_file=/f password_file=/f", "USER=user", "password=pencil user=user",
        "user=" U60 "uuuuu",
    };
    char words[MAXINFOSIZE];
    for (size_t at = 0; at < sizeof rows / sizeof rows[0]; at++) {
        snprintf(words, sizeof words, "port=%d name=fake %s", guard_port(guard), rows[at]);
        int code = xa_open(words, RMID);
        if (code != XAER_INVAL)
            fail("'%s' is %d", words, code);
        HOLDS(strstr(xarm_why(), "the info string"));
    }
    asked("", guard_asked(guard));
    snprintf(words, sizeof words, "port=%d name=fake password_file=%s user=%s-._@", guard_port(guard), path, U60);
    CODE(XA_OK, xa_open(words, RMID));
    CODE(XA_OK, xa_close(RMID));
    asked(" 74 75 1 2", guard_ended(guard));
}

static void told(void)
{
    char wanted[200];
    password("Secret");
    CODE(XAER_INVAL, xa_open(info, RMID));
    snprintf(wanted, sizeof wanted, "login at 127.0.0.1:%d as user: the server refuses the name or the password", guard_port(guard));
    HOLDS(strcmp(xarm_why(), wanted) == 0);
    asked(login, guard_ended(guard));
}

static int open_live(const char *user, int rmid)
{
    char words[600];
    snprintf(words, sizeof words, "%s user=%s password_file=%s", server.info, user, path);
    return xa_open(words, rmid);
}

static void live_without_logins(void)
{
    password("pencil\n");
    make_server(&server, "plain");
    CODE(XAER_INVAL, open_live("user", RMID));
    HOLDS(strstr(xarm_why(), "the server takes no logins"));
    CODE(XA_OK, xa_open(server.info, RMID));
    expect_value(RMID, "g0", NULL);
    CODE(XA_OK, xa_close(RMID));
    server_kill(&server);
}

/* A live server with users of each role, and the same password. */
static void make_live(void)
{
    static const char users[] = USER("user", "client") USER("duty", "operator") USER("eve", "monitor");
    make_server(&server, "live");
    server_kill(&server);
    snprintf(server.users, sizeof server.users, "%s/u%d", folder, (int)getpid());
    write_file(server.users, users, sizeof users - 1, 0600);
    start_server(&server);
    password("pencil\n");
}

static void live_works(void)
{
    XID xid = fresh();
    CODE(XA_OK, open_live("user", RMID));
    CODE(XA_OK, open_live("duty", OTHER));
    prepare_work(OTHER, &xid, "g", "v");
    server_kill(&server);
    start_server(&server);
    CODE(XA_OK, xa_commit(&xid, RMID, TMNOFLAGS));
    expect_value(RMID, "g", "v");
    CODE(XA_OK, xa_close(RMID));
    CODE(XA_OK, xa_close(OTHER));
}

static void live_refuses(void)
{
    CODE(XAER_INVAL, xa_open(server.info, RMID));
    HOLDS(strstr(xarm_why(), "wants a login"));
    CODE(XAER_INVAL, open_live("eve", RMID));
    HOLDS(strstr(xarm_why(), "may not open"));
    CODE(XAER_INVAL, open_live("nobody", RMID));
    HOLDS(strstr(xarm_why(), "refuses the name or the password"));
    password("Pencil\n");
    CODE(XAER_INVAL, open_live("user", RMID));
    HOLDS(strstr(xarm_why(), "refuses the name or the password"));
}

static bool takes_logins(void)
{
    char line[1000];
    bool found = false;
    snprintf(line, sizeof line, "'%s' serve --help", program);
    FILE *printed = popen(line, "r");
    while (printed && fgets(line, sizeof line, printed))
        found = found || strstr(line, "--users");
    if (printed)
        pclose(printed);
    return found;
}

void login_tests(void)
{
    test("a server that takes logins is made", begin);
    test("who has the password is let in, with another nonce each time", welcome);
    test("the password is the file's first line, whatever ends it", files);
    test("the environment variable names the file if the info string doesn't", by_environment);
    test("a file that is no password, or not its owner's alone, is XAER_INVAL, and nothing is sent", bad_files);
    test("a wrong password is XAER_INVAL, and nothing more is asked", wrong);
    test("a server that doesn't know the verifier is XAER_RMERR, and asked for nothing more", stranger);
    test("what is no reply to a login's message is XAER_RMERR", no_replies);
    test("a server that takes no logins is XAER_INVAL, and one without memory XAER_RMERR", without_logins);
    test("a server that wants a login is XAER_INVAL to who has none", without_user);
    test("a connection that breaks in a login is XAER_RMERR, and the next one logs in", broken);
    test("a connection that is made anew logs in again, with the file's password of then", again);
    test("another user or file is another info string", opened);
    test("each bad info string of a login is XAER_INVAL, and nothing is sent", bad_infos);
    test("xarm_why names the server and the user, and doesn't tell the password", told);
    test("a live server that takes no logins is XAER_INVAL, and serves who doesn't log in", live_without_logins);
    if (!takes_logins()) {
        printf("c: logins at a live server were not tried, since the program takes none\n");
        return;
    }
    test("a live server takes logins", make_live);
    test("users commit branches at a live server, and log in again once it was started anew", live_works);
    test("a live server refuses no login, a monitor, an unknown name and a wrong password", live_refuses);
    server_kill(&server);
}
