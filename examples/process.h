/* Processes of a program's own that end with it. Needs Linux. */
#ifndef PROCESS_H
#define PROCESS_H

#include <errno.h>
#include <signal.h>
#include <sys/prctl.h>
#include <sys/types.h>
#include <sys/wait.h>
#include <unistd.h>

#include "program.h"

/* A child is killed when its parent ends; where that came before the request, it ends by itself. */
static void end_with(pid_t parent)
{
    if (prctl(PR_SET_PDEATHSIG, SIGKILL) != 0)
        fail("prctl");
    if (getppid() != parent)
        _exit(1);
}

/* Gives 0 in the child, which ends with this process. */
static pid_t start_process(void)
{
    pid_t parent = getpid(), child = fork();
    if (child < 0)
        fail("fork");
    if (child == 0)
        end_with(parent);
    return child;
}

/* Waits for a child, -1 being any; gives whether it ended by itself and with status 0. */
static int ended_well(pid_t child)
{
    int status;
    while (waitpid(child, &status, 0) < 0)
        if (errno != EINTR)
            fail("wait");
    return WIFEXITED(status) && WEXITSTATUS(status) == 0;
}

#endif
