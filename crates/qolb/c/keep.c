/* Only ./qolb has this linked, and only into the program that `rt try` builds without a proof. rt keeps nothing of a
 * try, so the program copies itself to KEPT when it starts. ./qolb then moves KEPT's folder: later starts copy nothing. */
#ifdef KEPT
#include <fcntl.h>
#include <sys/sendfile.h>
#include <unistd.h>

__attribute__((constructor)) static void keep(int count, char **words) {
    (void)count;
    int to = open(KEPT, O_WRONLY | O_CREAT | O_EXCL, 0755);
    if (to < 0) return;
    int from = open(words[0], O_RDONLY);
    while (sendfile(to, from, NULL, 1 << 30) > 0) {}
    close(from);
    close(to);
}
#endif
