/* Starts rlibreg-run as the tests of the loader do, with images that are kept. For each start, an
 * image is kept first, if possible. Then the image is used twice, the second time by the loader as
 * it is built. The output of the first two starts is dropped, except the lines about the image. RUN
 * is the loader that keeps images without a wait, BUILT is the loader as it is built, FOLDER has
 * the images, and the file SAID gets the lines about the image. */
#define _GNU_SOURCE
#include <fcntl.h>
#include <stdlib.h>
#include <sys/wait.h>
#include <unistd.h>

enum { MOST = 1 << 16 };

static void start(const char *loader, char **argv, int argc, char *option) {
    static char *words[MOST];
    int count = 0;
    if (argc) words[count++] = argv[0];
    if (argc && option) words[count++] = option;
    if (argc) words[count++] = "-c", words[count++] = FOLDER;
    for (int i = 1; i < argc; i++) words[count++] = argv[i];
    words[count] = NULL;
    execv(loader, words);
    _exit(99);
}

static void start_before(char **argv, int argc, char *option) {
    pid_t child = fork();
    if (child) {
        waitpid(child, NULL, 0);
        return;
    }
    int nothing = open("/dev/null", O_RDWR);
    int said = open(SAID, O_WRONLY | O_CREAT | O_APPEND, 0600);
    dup2(nothing, 0);
    dup2(nothing, 1);
    dup2(option ? said : nothing, 2);
    close(nothing);
    close(said);
    start(RUN, argv, argc, option);
}

int main(int argc, char **argv) {
    if (argc + 4 > MOST) return 99;
    start_before(argv, argc, NULL);
    start_before(argv, argc, "-v");
    start(BUILT, argv, argc, NULL);
}
