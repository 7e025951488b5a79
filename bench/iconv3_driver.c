/* Converts a list of files by iconv(3): what the program is measured beside.
 *
 *     cc -O2 -pthread -o iconv3_driver iconv3_driver.c
 *     iconv3_driver [-c] [-j N] LIST
 *
 * Each line of LIST is FROM TO IN OUT. A file is read, converted and written in pieces, in buffers that are used
 * again. With -c it is copied, so that the cost of files alone can be told. With -j N there are N threads, each of
 * which takes the next line that nobody has taken. A file that can't be converted whole keeps what stands before the
 * place. It prints how many files there were, how many failed, and the bytes read and written; the status is 0 where
 * none failed, 1 where some did, 2 where the words or the list are wrong.
 */
#include <errno.h>
#include <fcntl.h>
#include <iconv.h>
#include <pthread.h>
#include <stdatomic.h>
#include <stdio.h>
#include <stdlib.h>
#include <string.h>
#include <unistd.h>

enum { PIECE = 1 << 16, ROOM = 1 << 17, MOST_THREADS = 64 };

struct job {
    char *from, *to, *in, *out;
};

struct sums {
    long failed, read, written;
};

struct worker {
    pthread_t thread;
    struct sums sums;
    char input[PIECE], output[ROOM];
};

static struct job *jobs;
static size_t job_count;
static int copies;
static atomic_size_t next_job;

static int write_all(int file, const char *bytes, size_t length, struct sums *sums)
{
    while (length > 0) {
        ssize_t done = write(file, bytes, length);
        if (done < 0)
            return -1;
        bytes += done;
        length -= done;
        sums->written += done;
    }
    return 0;
}

/* Hands bytes to iconv(3), or its end where place is null, and writes what comes of them. Answers how many bytes it
 * leaves, which are none or begin a character that is cut off; -1 where it can't go on. */
static ssize_t convert(iconv_t handle, char *place, size_t left, int out, struct worker *worker)
{
    for (;;) {
        char *made = worker->output;
        size_t room = ROOM;
        size_t done = iconv(handle, place ? &place : NULL, place ? &left : NULL, &made, &room);
        int why = errno;
        if (write_all(out, worker->output, made - worker->output, &worker->sums) != 0)
            return -1;
        if (done != (size_t)-1)
            return 0;
        if (why == EINVAL)
            return left;
        if (why != E2BIG)
            return -1;
    }
}

static int pass_on(iconv_t handle, int in, int out, struct worker *worker)
{
    size_t kept = 0;
    for (;;) {
        ssize_t got = read(in, worker->input + kept, PIECE - kept);
        if (got < 0)
            return -1;
        worker->sums.read += got;
        if (copies) {
            if (got == 0 || write_all(out, worker->input, got, &worker->sums) != 0)
                return got == 0 ? 0 : -1;
            continue;
        }
        if (got == 0)
            return kept != 0 ? -1 : convert(handle, NULL, 0, out, worker);
        size_t length = kept + got;
        ssize_t left = convert(handle, worker->input, length, out, worker);
        if (left < 0)
            return -1;
        memmove(worker->input, worker->input + length - left, left);
        kept = left;
    }
}

static int do_job(const struct job *job, struct worker *worker)
{
    iconv_t handle = copies ? NULL : iconv_open(job->to, job->from);
    if (handle == (iconv_t)-1)
        return -1;
    int in = open(job->in, O_RDONLY);
    int out = in < 0 ? -1 : open(job->out, O_WRONLY | O_CREAT | O_TRUNC, 0666);
    int status = out < 0 ? -1 : pass_on(handle, in, out, worker);
    if (in >= 0)
        close(in);
    if (out >= 0 && close(out) != 0)
        status = -1;
    if (!copies)
        iconv_close(handle);
    return status;
}

static void *work(void *given)
{
    struct worker *worker = given;
    for (size_t at = atomic_fetch_add(&next_job, 1); at < job_count; at = atomic_fetch_add(&next_job, 1)) {
        if (do_job(&jobs[at], worker) != 0)
            worker->sums.failed++;
    }
    return NULL;
}

/* Reads the list; the words stay where they were read. */
static int read_list(const char *name)
{
    FILE *list = fopen(name, "r");
    char *line = NULL;
    size_t size = 0, room = 0;
    if (!list)
        return -1;
    while (getline(&line, &size, list) > 0) {
        char *rest = line;
        struct job job = {.from = strtok_r(line, " \t\r\n", &rest)};
        if (!job.from || job.from[0] == '#')
            continue;
        job.to = strtok_r(NULL, " \t\r\n", &rest);
        job.in = strtok_r(NULL, " \t\r\n", &rest);
        job.out = strtok_r(NULL, " \t\r\n", &rest);
        if (job_count == room)
            jobs = realloc(jobs, (room = 2 * room + 64) * sizeof *jobs);
        if (!job.out || !jobs)
            return -1;
        jobs[job_count++] = job;
        line = NULL;
        size = 0;
    }
    free(line);
    return fclose(list);
}

int main(int count, char **words)
{
    int threads = 1, letter;
    while ((letter = getopt(count, words, "cj:")) != -1) {
        copies |= letter == 'c';
        threads = letter == 'j' ? atoi(optarg) : threads;
        if (letter == '?')
            return 2;
    }
    if (optind != count - 1 || threads < 1 || threads > MOST_THREADS || read_list(words[optind]) != 0) {
        fprintf(stderr, "usage: iconv3_driver [-c] [-j N] LIST, each line of LIST being FROM TO IN OUT\n");
        return 2;
    }
    struct worker *workers = calloc(threads, sizeof *workers);
    struct sums all = {0};
    if (!workers)
        return 2;
    for (int at = 1; at < threads; at++) {
        if (pthread_create(&workers[at].thread, NULL, work, &workers[at]) != 0)
            return 2;
    }
    work(&workers[0]);
    for (int at = 0; at < threads; at++) {
        if (at > 0)
            pthread_join(workers[at].thread, NULL);
        all.failed += workers[at].sums.failed;
        all.read += workers[at].sums.read;
        all.written += workers[at].sums.written;
    }
    printf("files %zu failed %ld read %ld written %ld\n", job_count, all.failed, all.read, all.written);
    return all.failed != 0;
}
