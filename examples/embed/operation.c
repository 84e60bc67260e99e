/* A verified class in librados, in C: a call as a step of an operation, and one that isn't waited for. The class `counter` of
 * ceph/classes is installed in the OSDs.
 *
 *     cc operation.c -lrados -o operation && ./operation POOL OBJECT
 *
 * It prints what each was answered, and the sum.
 */
#include <rados/librados.h>
#include <stdint.h>
#include <stdio.h>

/* All or nothing: the object is made, its data are written, and 40 is added. Behind the step that writes data a call reads
 * none; xattrs and keys it reads as they were before the operation. RETURNVEC: with it the call's result comes. */
static int make_and_add(rados_ioctx_t pool, const char *object, int *added) {
    uint64_t number = 40;
    rados_write_op_t steps = rados_create_write_op();
    rados_write_op_create(steps, LIBRADOS_CREATE_EXCLUSIVE, NULL);
    rados_write_op_write_full(steps, "header", 6);
    rados_write_op_exec(steps, "counter", "add", (char *)&number, sizeof number, added);
    int result = rados_write_op_operate2(steps, pool, object, NULL, LIBRADOS_OPERATION_RETURNVEC);
    rados_release_write_op(steps);
    return result;
}

/* A call that is waited for after others were begun: a negative code, or how many bytes of output there are. */
static int call_later(rados_ioctx_t pool, const char *object, const char *method, uint64_t *input, uint64_t *output) {
    rados_completion_t done;
    int result = rados_aio_create_completion2(NULL, NULL, &done);
    if (result < 0)
        return result;
    result = rados_aio_exec(pool, object, done, "counter", method, (char *)input, input ? sizeof *input : 0, (char *)output,
                            output ? sizeof *output : 0);
    if (result == 0) {
        rados_aio_wait_for_complete(done);
        result = rados_aio_get_return_value(done);
    }
    rados_aio_release(done);
    return result;
}

int main(int count, char **words) {
    rados_t cluster;
    rados_ioctx_t pool;
    uint64_t two = 2, sum = 0;
    int added = 0;
    if (count != 3)
        return 2;
    if (rados_create(&cluster, "admin") < 0 || rados_conf_read_file(cluster, NULL) < 0 || rados_connect(cluster) < 0 ||
        rados_ioctx_create(cluster, words[1], &pool) < 0)
        return 3;
    int result = make_and_add(pool, words[2], &added);
    printf("the operation: %d, its call: %d\n", result, added);
    if (result == 0 && (result = call_later(pool, words[2], "add", &two, NULL)) == 0)
        result = call_later(pool, words[2], "get", NULL, &sum);
    printf("the last call: %d bytes, the sum is %llu\n", result, (unsigned long long)sum);
    rados_ioctx_destroy(pool);
    rados_shutdown(cluster);
    return result < 0;
}
