/* Linked with each of the programs. A limit on a file's size is to be a write that fails, as a full disk is, so its signal is ignored before
 * the program begins. A pipe that nobody reads ends the program, as the system has it: the library's start would have that signal ignored,
 * and is not heard (the linker's --wrap=__sysv_signal). */
#define _XOPEN_SOURCE 700
#include <signal.h>

typedef void (*handler)(int);

handler __real___sysv_signal(int number, handler h);
handler __wrap___sysv_signal(int number, handler h);

handler __wrap___sysv_signal(int number, handler h)
{
    return number == SIGPIPE ? SIG_DFL : __real___sysv_signal(number, h);
}

__attribute__((constructor)) static void limits_fail(void)
{
    signal(SIGXFSZ, SIG_IGN);
}
