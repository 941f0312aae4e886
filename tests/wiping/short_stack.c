/* Makes a call that is refused at once, on stacks of 16 to 64 KB: on the shorter ones there is no room for what is wiped after it.
   Below each stack is its guard page, and below that are 64 KB of 0xa5. The call may end by the guard page, and writes nothing below
   it. The last line is 'N passed, M failed'. */
#define _GNU_SOURCE
#include <paseto.h>
#include <pthread.h>
#include <stdio.h>
#include <string.h>
#include <sys/mman.h>
#include <sys/wait.h>
#include <unistd.h>

enum { PAGE = 4096, BELOW = 16 * PAGE };

static void *refused(void *status) {
    static const struct paseto_key none;
    static const struct paseto_options options = {.size = sizeof options};
    uint8_t room[8];
    size_t written, told;
    *(paseto_status *)status = paseto_admit(&none, NULL, 0, NULL, 0, 0, NULL, 0, NULL, 0, &options, room, sizeof room, &written, NULL, 0, &told);
    return NULL;
}

/* The status of a child that makes the call on a stack of this length, and whether it kept what is below. */
static int run(size_t length, int *kept) {
    uint8_t *all = mmap(NULL, BELOW + PAGE + length, PROT_READ | PROT_WRITE, MAP_SHARED | MAP_ANONYMOUS, -1, 0);
    int status = -1;
    if (all == MAP_FAILED) return -1;
    memset(all, 0xa5, BELOW);
    mprotect(all + BELOW, PAGE, PROT_NONE);
    pid_t child = fork();
    if (child == 0) {
        pthread_attr_t attributes;
        pthread_t thread;
        paseto_status answer = PASETO_OK;
        pthread_attr_init(&attributes);
        if (pthread_attr_setstack(&attributes, all + BELOW + PAGE, length) != 0) _exit(2);
        if (pthread_create(&thread, &attributes, refused, &answer) != 0) _exit(2);
        pthread_join(thread, NULL);
        _exit(answer == PASETO_INVALID_KEY ? 0 : 3);
    }
    waitpid(child, &status, 0);
    *kept = 1;
    for (size_t i = 0; i < BELOW; i++) *kept &= all[i] == 0xa5;
    munmap(all, BELOW + PAGE + length);
    return status;
}

int main(void) {
    int passed = 0, failed = 0, ended = 0;
    for (size_t length = 4 * PAGE; length <= 16 * PAGE; length += PAGE) {
        int kept = 0, status = run(length, &kept);
        int is_right = kept && ((WIFEXITED(status) && WEXITSTATUS(status) == 0) || (WIFSIGNALED(status) && WTERMSIG(status) == 11));
        ended += WIFSIGNALED(status);
        if (!is_right) printf("FAILED: a stack of %zu bytes: status %x, %s below\n", length, status, kept ? "as it was" : "written");
        passed += is_right, failed += !is_right;
    }
    /* It is able to fail: some stacks are too short, and some are not. */
    passed += ended > 0 && ended < 13, failed += ended == 0 || ended == 13;
    printf("%d ended by their guard page\n%d passed, %d failed\n", ended, passed, failed);
    return failed > 0;
}
