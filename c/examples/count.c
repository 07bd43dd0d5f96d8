/* Two threads count together, in C. The count is stored in a line, and each thread has a node of this line. Prints
 * 2000. */
#include <pthread.h>
#include <qolb.h>
#include <stdio.h>

static void *add(void *handle) {
    qolb_node node = qolb_move(handle); /* a thread keeps its node on its own stack */
    uint64_t was;
    for (int round = 0; round < 1000; round++) {
        if (qolb_acquire(&node) != QOLB_GRANTED) break; /* waits for the thread's turn */
        qolb_add_lane(&node, 0, 1, &was);
        qolb_deqolb(&node); /* hands lock and bytes to the next thread in the queue */
    }
    qolb_node_free(&node);
    return NULL;
}

int main(void) {
    qolb_bytes zeros = {{0}};
    qolb_node nodes[3] = {{0}}; /* one for each thread, and one for main */
    pthread_t threads[2];
    uint64_t count = 0;
    if (qolb_open(QOLB_DEFAULT, 1, 3, QOLB_NO_LEASE, &zeros, nodes, 3) != QOLB_DONE) return 1;
    for (int k = 0; k < 2; k++)
        if (pthread_create(&threads[k], NULL, add, &nodes[k]) != 0) return 1;
    for (int k = 0; k < 2; k++) pthread_join(threads[k], NULL);
    if (qolb_acquire(&nodes[2]) != QOLB_GRANTED) return 1;
    qolb_read_lane(&nodes[2], 0, &count);
    qolb_deqolb(&nodes[2]);
    qolb_node_free(&nodes[2]); /* the last node frees the line */
    printf("%llu\n", (unsigned long long)count);
    return count != 2000;
}
