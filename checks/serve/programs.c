/* Programs that misbehave, for checks/serve/run: what each does is its own name. */
#include <fcntl.h>
#include <stdio.h>
#include <stdlib.h>
#include <string.h>
#include <sys/stat.h>
#include <unistd.h>

extern char **environ;

static void read_all(void) {
    char part[4096];
    while (read(0, part, sizeof part) > 0) {
    }
}

/* Tries to leave the sandbox that the server makes, and prints what succeeded. */
static void prowler(void) {
    const char *names[] = {"/etc/passwd", "/dev/null", ".", "new"};
    for (int at = 0; at < 4; at++)
        if (open(names[at], at == 3 ? O_CREAT | O_WRONLY : O_RDONLY, 0600) >= 0) printf("opened %s\n", names[at]);
    if (mkdir("folder", 0700) == 0) printf("made a folder\n");
    for (char **word = environ; *word; word++) printf("knows %s\n", *word);
    printf("done\n");
}

int main(int count, char **words) {
    const char *name = count ? strrchr(words[0], '/') : 0;
    name = name ? name + 1 : "";
    read_all();
    if (!strcmp(name, "endless"))
        for (volatile long long turn = 0;; turn++) {
        }
    if (!strcmp(name, "sleeping")) sleep(60);
    if (!strcmp(name, "late")) {
        sleep(1);
        printf("{\"line\":\"verdict\"}\n");
    }
    if (!strcmp(name, "flooding"))
        for (;;) puts("flood");
    if (!strcmp(name, "greedy"))
        for (;;) memset(malloc(1 << 20), 1, 1 << 20);
    if (!strcmp(name, "prowler")) prowler();
    return 0;
}
