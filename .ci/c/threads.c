// Eight threads, each with a handle of its own to the same tables: `threads TABLES`, a file with the sample.
#include "shared.h"
#include <pthread.h>

enum { THREADS = 8, TIMES = 2000 };

static const char *rows[][3] = {
    {"maximize", "zh-TW", "zh-Hant-TW\tM"}, {"canonicalize", "sgn-DD", "gsg\tM"}, {"minimize", "yue-Hans", "yue-CN\tM"},
    {"direction", "ar", "rtl"}, {"name light en", "it-Qabc-150", "Italian (Qabc, Europe)\tR"},
};

struct job {
    struct icu_locale handle, negotiator;
    long wrong;
};

static int is_met(struct icu_locale *negotiator) {
    size_t request = 0, available = 0;
    int32_t number = icu_locale_negotiate(negotiator, (const uint8_t *)"fr zh-TW", 8, &request, &available);
    return number == ICU_LOCALE_MET && request == 1 && available == 2;
}

static void *work(void *at) {
    struct job *job = at;
    struct icu_locale again = {0};
    for (int time = 0; time < TIMES; time++) {
        job->wrong += !is_met(&job->negotiator);
        for (size_t row = 0; row < sizeof rows / sizeof *rows; row++) {
            uint8_t out[64];
            size_t written, length = strlen(rows[row][2]);
            int32_t number = icu_locale_answer(&job->handle, (const uint8_t *)rows[row][0], strlen(rows[row][0]),
                                               (const uint8_t *)rows[row][1], strlen(rows[row][1]), out, sizeof out, &written);
            job->wrong += number != ICU_LOCALE_ACCEPTED || written != length || memcmp(out, rows[row][2], length);
            job->wrong += time % 100 == 0 && icu_locale_share(&job->handle, &again) != ICU_LOCALE_DONE;
        }
    }
    icu_locale_close(&again);
    icu_locale_close(&job->handle);
    icu_locale_close(&job->negotiator);
    return NULL;
}

int main(int count, char **names) {
    size_t length;
    struct icu_locale first = {0};
    struct job jobs[THREADS] = {{{0}, {0}, 0}};
    pthread_t threads[THREADS];
    if (count != 2) return 2;
    uint8_t *json = bytes_of(names[1], &length);
    want(icu_locale_open(json, length, &first) == ICU_LOCALE_DONE, "the sample");
    free(json);
    for (int place = 0; place < THREADS; place++) {
        want(icu_locale_share(&first, &jobs[place].handle) == ICU_LOCALE_DONE, "a share");
        want(icu_locale_available(&first, (const uint8_t *)"en de zh-Hant", 13, &jobs[place].negotiator) == ICU_LOCALE_DONE,
             "a list");
    }
    icu_locale_close(&first);
    for (int place = 0; place < THREADS; place++)
        if (pthread_create(&threads[place], NULL, work, &jobs[place])) return 2;
    for (int place = 0; place < THREADS; place++) {
        pthread_join(threads[place], NULL);
        want(jobs[place].wrong == 0, "a thread has another answer");
    }
    return faults != 0;
}
