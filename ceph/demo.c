/* Calls the class `counter` by plain librados: adds a number, or gives the sum.
 *
 *     demo USER POOL OBJECT [NUMBER]
 */
#include <rados/librados.h>
#include <stdint.h>
#include <stdio.h>
#include <stdlib.h>

int main(int count, char **words) {
    rados_t cluster;
    rados_ioctx_t pool;
    uint64_t number = 0;
    if (count < 4)
        return 2;
    if (rados_create2(&cluster, "ceph", words[1], 0) < 0 || rados_conf_read_file(cluster, NULL) < 0 ||
        rados_connect(cluster) < 0 || rados_ioctx_create(cluster, words[2], &pool) < 0)
        return 3;
    int result;
    if (count > 4) {
        number = strtoull(words[4], NULL, 10);
        result = rados_exec(pool, words[3], "counter", "add", (char *)&number, sizeof number, NULL, 0);
    } else {
        result = rados_exec(pool, words[3], "counter", "get", NULL, 0, (char *)&number, sizeof number);
    }
    if (result < 0)
        printf("refused %d\n", result);
    else if (count > 4)
        printf("added %llu\n", (unsigned long long)number);
    else
        printf("the sum is %llu\n", (unsigned long long)number);
    rados_ioctx_destroy(pool);
    rados_shutdown(cluster);
    return result < 0;
}
