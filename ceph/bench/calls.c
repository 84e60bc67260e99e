/* Calls of object classes, as many as come in a time: what ceph/bench.sh measures with.
 *
 *     calls WORK,WORK,.. CLIENTS SECONDS SIZE CLASSES [MOST]
 *
 * Each client is a thread with a session of its own, and for each work an object of its own with SIZE
 * bytes of data and KEYS of the environment (0) other keys, which is removed at the end. CLASSES is a
 * folder of our class images. All clients make calls of one work for a turn, then of the next, and so on,
 * SECONDS for each, so that all works meet with the same machine; what begins while calls of the turn
 * before are on their way isn't counted. With MOST a single work ends after so many calls. The cluster is
 * that of CEPH_CONF, its pool `bpf`, and OSDS has the ids of its OSDs. For each work it prints its name,
 * calls a second, mean and 99th percentile of the latency and the OSDs' processor time a call, all in
 * microseconds, and failed calls. WORK is one of
 *
 *     lock                 Ceph's class lock, in C++: lock and unlock by turns
 *     lock.2               ours, installed
 *     bpf_lock             ours, loaded beside the object
 *     numops               Ceph's class numops, in C++: adds 1 to a value in the omap
 *     count                ours, installed
 *     bpf_count            ours, loaded beside the object
 *     lua                  the same in Ceph's class for tenants' code
 *     hello                Ceph's class hello, in C++: answers a word and reads nothing
 *     replay               the same class: the first 1,100 bytes of the data
 *     stat, read           ours, installed: the length of the data; its first 64 bytes
 *     bpf_stat, bpf_read   ours, loaded beside the object
 *     log                  Ceph's class log, in C++: an entry is added, and the oldest one goes, by turns. Of this
 *                          and the next three KEYS are the log's entries
 *     logs                 ours, installed
 *     log_list             Ceph's class log: the first 1,000 entries
 *     logs_list            ours, installed: the names of the first 1,000, in four calls of 250
 */
#include <math.h>
#include <pthread.h>
#include <rados/librados.h>
#include <stdint.h>
#include <stdio.h>
#include <stdlib.h>
#include <string.h>
#include <time.h>
#include <unistd.h>

enum { MOST_CLIENTS = 64, MOST_WORKS = 16, MOST_CALLS = 200000 };

/* The seconds of a turn, and of its beginning that isn't counted. */
static const double TURN = 0.5, SETTLING = 0.05;

struct message {
    char bytes[1 << 16];
    size_t length;
};

/* Which entries a log has, by their seconds. */
struct entries {
    uint32_t oldest, next;
};

struct client {
    const char *work;
    struct entries entries;
    rados_ioctx_t pool;
    char object[64];
    struct message first, second; /* requests that are made by turns */
    long asked, counted, failed;
    int error;
    float *latency;
};

static rados_t clusters[MOST_CLIENTS];
static rados_ioctx_t pools[MOST_CLIENTS];
static struct client clients[MOST_WORKS][MOST_CLIENTS];
static int works;
static const char *classes;
static size_t size;
static long most;
static double start, end;
static char data[4 << 20];

static const char SCRIPT[] = "function add(input, output) local found, value = pcall(objclass.map_get_val, 'n') "
                             "local n = found and tonumber(value:str()) or 0 local made = bufferlist.new() "
                             "made:append(tostring(n + 1)) objclass.map_set_val('n', made) end objclass.register(add)";

static double now(void) {
    struct timespec time;
    clock_gettime(CLOCK_MONOTONIC, &time);
    return time.tv_sec + time.tv_nsec / 1e9;
}

static void must(int result, const char *what) {
    if (result < 0) {
        fprintf(stderr, "%s: %s\n", what, strerror(-result));
        exit(1);
    }
}

static void put(struct message *to, const void *from, size_t length) {
    memcpy(to->bytes + to->length, from, length);
    to->length += length;
}

static void put_number(struct message *to, uint64_t value, size_t length) {
    put(to, &value, length);
}

/* A request of our class, by its name. */
static void ask(struct message *to, const char *class, const char *method) {
    put(to, "\1\0", 2);
    put_number(to, strlen(class), 4);
    put(to, class, strlen(class));
    put_number(to, strlen(method), 1);
    put(to, method, strlen(method));
}

/* A text as Ceph's classes encode it. */
static void put_text(struct message *to, const char *text) {
    put_number(to, strlen(text), 4);
    put(to, text, strlen(text));
}

static void load(struct client *one, const char *class) {
    char path[4096];
    struct message request = {.length = 0};
    put_number(&request, strlen(class), 1);
    put(&request, class, strlen(class));
    snprintf(path, sizeof path, "%s/%s.img", classes, class);
    FILE *file = fopen(path, "rb");
    must(file ? 0 : -2, path);
    request.length += fread(request.bytes + request.length, 1, sizeof request.bytes - request.length, file);
    fclose(file);
    must(rados_exec(one->pool, one->object, "bpf", "load", request.bytes, request.length, NULL, 0), "load");
}

/* Keys by their numbers, in operations of at most 1,000 each. */
static void put_keys(struct client *one, const char *form, int first, int count) {
    for (int end = first + count, i = first; i < end;) {
        rados_write_op_t op = rados_create_write_op();
        for (int left = 1000; left && i < end; left--) {
            char text[16];
            const char *name = text, *value = "value";
            size_t length = snprintf(text, sizeof text, form, i++), size = 5;
            rados_write_op_omap_set2(op, &name, &value, &length, &size, 1);
        }
        must(rados_write_op_operate(op, one->pool, one->object, NULL, 0), "keys");
        rados_release_write_op(op);
    }
}

/* What Ceph encodes with a version and its length. */
static size_t open_struct(struct message *to, int version) {
    put_number(to, version, 1);
    put_number(to, 1, 1);
    put_number(to, 0, 4);
    return to->length;
}

static void close_struct(struct message *to, size_t opened) {
    uint32_t length = to->length - opened;
    memcpy(to->bytes + opened - 4, &length, 4);
}

static void put_time(struct message *to, uint32_t seconds) {
    put_number(to, seconds, 4);
    put_number(to, 0, 4);
}

/* Entries of Ceph's class log, of a second each. */
static void ask_log_add(struct message *to, uint32_t first, int count) {
    to->length = 0;
    size_t all = open_struct(to, 2);
    put_number(to, count, 4);
    for (int i = 0; i < count; i++) {
        size_t one = open_struct(to, 2);
        put_text(to, "");
        put_text(to, "");
        put_time(to, first + i);
        put_text(to, "value");
        put_text(to, "");
        close_struct(to, one);
    }
    put_number(to, 1, 1);
    close_struct(to, all);
}

static void ask_log_trim(struct message *to, uint32_t until) {
    to->length = 0;
    size_t all = open_struct(to, 2);
    put_time(to, 0);
    put_time(to, until);
    put_text(to, "");
    put_text(to, "");
    close_struct(to, all);
}

static void ask_log_list(struct message *to, int count) {
    to->length = 0;
    size_t all = open_struct(to, 1);
    put_time(to, 0);
    put_text(to, "");
    put_time(to, 0);
    put_number(to, count, 4);
    close_struct(to, all);
}

/* An entry of ours: a name of 13 bytes, and the value. */
static void ask_logs_append(struct message *to, uint32_t second) {
    char name[16];
    snprintf(name, sizeof name, "%013u", second);
    to->length = 0;
    put(to, name, 13);
    put(to, "value", 5);
}

static int is_log(const char *work) {
    return !strncmp(work, "log", 3);
}

static void put_log(struct client *one, int count) {
    static struct message request;
    int is_ours = !strncmp(one->work, "logs", 4);
    one->entries = (struct entries){1, 1 + count};
    if (is_ours)
        put_keys(one, "%013d", 1, count);
    for (int i = 0; i < count && !is_ours; i += 1000) {
        ask_log_add(&request, 1 + i, 1000);
        must(rados_exec(one->pool, one->object, "log", "add", request.bytes, request.length, NULL, 0), "entries");
    }
    if (strstr(one->work, "list"))
        ask_log_list(&one->first, 1000);
}

static void connect_client(int number) {
    must(rados_create2(&clusters[number], "ceph", "client.admin", 0), "session");
    must(rados_conf_read_file(clusters[number], getenv("CEPH_CONF")), "CEPH_CONF");
    must(rados_connect(clusters[number]), "cluster");
    must(rados_ioctx_create(clusters[number], "bpf", &pools[number]), "pool");
}

static void begin(struct client *one, const char *work, int number) {
    one->work = work;
    one->pool = pools[number];
    snprintf(one->object, sizeof one->object, "bench.%s.%zu.%d", work, size, number);
    rados_remove(one->pool, one->object);
    must(rados_write_full(one->pool, one->object, data, size), "object");
    int keys = getenv("KEYS") ? atoi(getenv("KEYS")) : 0;
    if (is_log(work))
        put_log(one, keys);
    else if (keys)
        put_keys(one, "other%d", 0, keys); /* beside the one that is counted */
    one->latency = malloc(sizeof(float) * MOST_CALLS);
    if (!strcmp(work, "bpf_lock")) {
        load(one, "lock");
        ask(&one->first, "lock", "lock");
        put(&one->first, "owner", 5);
        ask(&one->second, "lock", "unlock");
        put(&one->second, "owner", 5);
    } else if (!strcmp(work, "lock.2")) {
        put(&one->first, "owner", 5);
    } else if (!strcmp(work, "bpf_count")) {
        load(one, "count");
        ask(&one->first, "count", "count");
    } else if (!strncmp(work, "bpf_", 4)) {
        load(one, "reads");
        ask(&one->first, "reads", work + 4);
    } else if (!strcmp(work, "numops")) {
        put_text(&one->first, "n");
        put_text(&one->first, "1");
    } else if (!strcmp(work, "lua")) {
        one->first.length = snprintf(one->first.bytes, sizeof one->first.bytes,
                                     "{\"script\": \"%s\", \"handler\": \"add\", \"input\": \"\"}", SCRIPT);
    }
    if (!one->second.length)
        one->second = one->first;
}

/* A listing of 1,000 names: each call begins behind the last name of the one before. */
static int list_names(struct client *one) {
    char out[4096] = "";
    int found = 0;
    for (int calls = 0; calls < 4; calls++) {
        char from[16];
        memcpy(from, out + 249 * 16, 16);
        found = rados_exec(one->pool, one->object, "logs", "list", from, calls ? 13 : 0, out, sizeof out);
        if (found != 250 * 16)
            return found < 0 ? found : -5;
    }
    return found;
}

static int call_log(struct client *one, int second) {
    int is_ours = !strncmp(one->work, "logs", 4);
    if (second && is_ours)
        return rados_exec(one->pool, one->object, "logs", "trim", NULL, 0, NULL, 0);
    if (second)
        ask_log_trim(&one->first, one->entries.oldest++);
    else if (is_ours)
        ask_logs_append(&one->first, one->entries.next++);
    else
        ask_log_add(&one->first, one->entries.next++, 1);
    const char *method = second ? "trim" : is_ours ? "append" : "add";
    return rados_exec(one->pool, one->object, is_ours ? "logs" : "log", method, one->first.bytes, one->first.length,
                      NULL, 0);
}

static int call(struct client *one) {
    static __thread char out[1 << 18];
    const char *work = one->work;
    int second = one->asked++ & 1;
    struct message *request = second ? &one->second : &one->first;
    const char *class = "bpf", *method = "run";
    if (!strcmp(work, "logs_list"))
        return list_names(one);
    if (is_log(work) && strcmp(work, "log_list"))
        return call_log(one, second);
    if (!strcmp(work, "log_list"))
        class = "log", method = "list";
    if (!strcmp(work, "lock"))
        return second ? rados_unlock(one->pool, one->object, "l", "c")
                      : rados_lock_exclusive(one->pool, one->object, "l", "c", "", NULL, 0);
    if (!strcmp(work, "lock.2"))
        class = work, method = second ? "unlock" : "lock";
    else if (!strcmp(work, "count"))
        class = method = work;
    else if (!strcmp(work, "stat") || !strcmp(work, "read"))
        class = "reads", method = work;
    else if (!strcmp(work, "numops"))
        class = "numops", method = "add";
    else if (!strcmp(work, "lua"))
        class = "lua", method = "eval_json";
    else if (!strcmp(work, "hello"))
        class = "hello", method = "say_hello";
    else if (!strcmp(work, "replay"))
        class = "hello", method = "replay";
    else if (!strcmp(work, "bpf_stat") || !strcmp(work, "bpf_read"))
        method = "see";
    return rados_exec(one->pool, one->object, class, method, request->bytes, request->length, out, sizeof out);
}

/* Whose turn it is at a time. */
static int turn(double time) {
    return (long)((time - start) / TURN) % works;
}

static int counts(double time) {
    return works == 1 || fmod(time - start, TURN) >= SETTLING;
}

static void *run(void *argument) {
    long number = (long)argument;
    for (double time = now(); time < end; time = now()) {
        struct client *one = &clients[turn(time)][number];
        if (one->asked == most)
            break;
        int result = call(one);
        if (counts(time) && one->counted < MOST_CALLS)
            one->latency[one->counted++] = (now() - time) * 1e6;
        if (result < 0) {
            one->failed++;
            one->error = result;
        }
    }
    return NULL;
}

/* The processor time that the OSDs took so far, in seconds. */
static double taken(void) {
    char ids[256];
    double sum = 0;
    snprintf(ids, sizeof ids, "%s", getenv("OSDS") ? getenv("OSDS") : "");
    for (char *id = strtok(ids, " "); id; id = strtok(NULL, " ")) {
        clockid_t clock;
        struct timespec time;
        must(-clock_getcpuclockid(atoi(id), &clock), "OSDS");
        must(clock_gettime(clock, &time), "OSDS");
        sum += time.tv_sec + time.tv_nsec / 1e9;
    }
    return sum;
}

static void sleep_until(double time) {
    double left = time - now();
    if (left > 0)
        usleep(left * 1e6);
}

static int compare(const void *a, const void *b) {
    float x = *(const float *)a, y = *(const float *)b;
    return (x > y) - (x < y);
}

/* What the calls of one work took in so many seconds, and of the OSDs' processor time. */
static int print(struct client *of, int number, double took, double processor) {
    long calls = 0, failed = 0, at = 0;
    double sum = 0;
    for (int i = 0; i < number; i++) {
        calls += of[i].counted;
        failed += of[i].failed;
        if (of[i].failed)
            fprintf(stderr, "%s: %ld failed: %s\n", of[i].work, of[i].failed, strerror(-of[i].error));
    }
    float *all = malloc(sizeof(float) * (calls + 1));
    for (int i = 0; i < number; i++)
        for (long j = 0; j < of[i].counted; j++)
            sum += all[at++] = of[i].latency[j];
    qsort(all, calls, sizeof *all, compare);
    printf("%s %.0f %.0f %.0f %.0f %ld\n", of->work, calls / took, sum / calls, all[calls * 99 / 100],
           processor / calls * 1e6, failed);
    return failed != 0;
}

int main(int count, char **words) {
    pthread_t threads[MOST_CLIENTS];
    const char *names[MOST_WORKS];
    if (count < 6)
        return 2;
    for (char *name = strtok(words[1], ","); name && works < MOST_WORKS; name = strtok(NULL, ","))
        names[works++] = name;
    int number = atoi(words[2]);
    size = strtoul(words[4], NULL, 10);
    classes = words[5];
    most = count > 6 ? atol(words[6]) / number : -1;
    if (!works || (works > 1 && count > 6) || number < 1 || number > MOST_CLIENTS || size > sizeof data)
        return 2;
    for (int i = 0; i < number; i++) {
        connect_client(i);
        for (int j = 0; j < works; j++)
            begin(&clients[j][i], names[j], i);
    }
    double took[MOST_WORKS] = {0}, processor[MOST_WORKS] = {0}, before = taken();
    start = now();
    end = start + works * atof(words[3]);
    for (long i = 0; i < number; i++)
        pthread_create(&threads[i], NULL, run, (void *)i);
    for (double time = start; works > 1 && time < end; time += TURN) {
        int whose = turn(time + TURN / 2);
        sleep_until(time + SETTLING);
        before = taken();
        sleep_until(time + TURN);
        processor[whose] += taken() - before;
        took[whose] += TURN - SETTLING;
    }
    for (int i = 0; i < number; i++)
        pthread_join(threads[i], NULL);
    if (works == 1) {
        took[0] = now() - start;
        processor[0] = taken() - before;
    }
    int bad = 0;
    for (int j = 0; j < works; j++)
        bad |= print(clients[j], number, took[j], processor[j]);
    for (int i = 0; i < number; i++) {
        for (int j = 0; j < works; j++)
            rados_remove(pools[i], clients[j][i].object);
        rados_ioctx_destroy(pools[i]);
        rados_shutdown(clusters[i]);
    }
    return bad;
}
