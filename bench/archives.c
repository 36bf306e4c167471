/* What bench/archives runs: SECONDS, and then NAME LIBRARY CLIP of each, where an empty CLIP is off. Models and syndromes are made as those of
 * bench/src/models.rs are, from another generator's numbers. */
#include <dlfcn.h>
#include <math.h>
#include <stdint.h>
#include <stdio.h>
#include <stdlib.h>
#include <string.h>
#include <time.h>

enum { MOST = 16, LEGS = 2 };

/* A decode, as chowderkite.h of versions 4 and 5 declares it: both have 1 for explicit gammas, which all decodes here have. Version 3, before
 * T-10, has no clip. */
#define IN(type, list) const type *list, size_t list##_len
#define OUT(type, list) type *list, size_t list##_len
#define GRAPH size_t checks, size_t mechanisms, size_t edges, IN(double, priors), IN(uint32_t, check_var), IN(uint32_t, check_offset), \
    IN(uint32_t, var_check), IN(uint32_t, var_message), IN(uint32_t, var_offset)
#define REST double gamma0, size_t pre_iterations, size_t num_legs, size_t leg_iterations, double gamma_low, double gamma_high, \
    size_t stop_after_converged, uint8_t gamma_source, size_t sets, IN(double, gammas), IN(uint8_t, syndrome), uint64_t seed, \
    OUT(uint8_t, leg_state), OUT(uint32_t, leg_steps), OUT(double, leg_weight), OUT(uint8_t, rows), OUT(uint8_t, correction), \
    OUT(double, posterior), OUT(double, gamma), OUT(double, bias), OUT(double, c_to_v), OUT(double, v_to_c), uint64_t counts[4], \
    double weight[1]
typedef uint64_t Decode3(GRAPH, uint8_t schedule, double alpha, REST);
typedef uint64_t Decode4(GRAPH, uint8_t schedule, double alpha, uint8_t clip_on, double clip, REST);
typedef uint64_t Build(size_t checks, size_t mechanisms, size_t edges, IN(double, priors), IN(uint32_t, detector_offsets), IN(uint32_t, detectors),
    OUT(uint32_t, check_var), OUT(uint32_t, check_offset), OUT(uint32_t, var_check), OUT(uint32_t, var_message), OUT(uint32_t, var_offset));
typedef uint64_t Version(void);

typedef struct {
    const char *name;
    uint64_t version;
    void *decode;
    uint8_t clip_on;
    double clip;
} Archive;

static uint64_t state;

static uint64_t draw(void) {
    uint64_t z = (state += 0x9E3779B97F4A7C15u);
    z = (z ^ (z >> 30)) * 0xBF58476D1CE4E5B9u;
    z = (z ^ (z >> 27)) * 0x94D049BB133111EBu;
    return z ^ (z >> 31);
}

static double unit(void) { return (double)(draw() >> 11) * 0x1p-53; }

static double now(void) {
    struct timespec t;
    clock_gettime(CLOCK_MONOTONIC, &t);
    return (double)t.tv_sec + 1e-9 * (double)t.tv_nsec;
}

static void *room(size_t count, size_t size) {
    void *list = calloc(count ? count : 1, size);
    if (!list) exit(1);
    return list;
}

static void *found(void *library, const char *name) {
    void *call = dlsym(library, name);
    if (!call) {
        fprintf(stderr, "bench/archives: no %s\n", name);
        exit(1);
    }
    return call;
}

/* Three detectors a mechanism, within 64 checks, that rise; half as many checks as mechanisms. */
static void row(Build *build, const Archive *archives, int many, double seconds, size_t edges, uint8_t serial, int early) {
    size_t mechanisms = edges / 3, checks = mechanisms / 2, entry = 0;
    state = edges;
    uint32_t *offsets = room(mechanisms + 1, 4), *detectors = room(edges, 4);
    double *priors = room(mechanisms, 8), *gammas = room(LEGS * mechanisms, 8);
    for (size_t m = 0; m < mechanisms; m++) {
        size_t degree = (m + 1) * edges / mechanisms - m * edges / mechanisms;
        size_t first = m / 2 < checks - 64 ? m / 2 : checks - 64;
        uint8_t near[64] = {0};
        for (size_t drawn = 0; drawn < degree;) {
            uint64_t which = draw() % 64;
            drawn += !near[which];
            near[which] = 1;
        }
        for (uint32_t which = 0; which < 64; which++)
            if (near[which]) detectors[entry++] = (uint32_t)first + which;
        offsets[m + 1] = (uint32_t)entry;
        double p = 1e-3 + 0.1 * unit();
        priors[m] = log((1 - p) / p);
    }
    uint32_t *check_var = room(edges, 4), *check_offset = room(checks + 1, 4), *var_check = room(edges, 4), *var_message = room(edges, 4),
             *var_offset = room(mechanisms + 1, 4);
    if (build(checks, mechanisms, edges, priors, mechanisms, offsets, mechanisms + 1, detectors, edges, check_var, edges, check_offset, checks + 1,
              var_check, edges, var_message, edges, var_offset, mechanisms + 1)) {
        fprintf(stderr, "bench/archives: the model was refused\n");
        exit(1);
    }
    /* A turn has several syndromes where models are small. */
    size_t runs = 100000 / edges < 1 ? 1 : 100000 / edges > 64 ? 64 : 100000 / edges;
    if (!early) runs = (runs + 3) / 4;
    uint8_t *syndromes = room(runs, checks);
    for (size_t run = 0; run < runs; run++) {
        uint8_t *syndrome = syndromes + run * checks;
        for (size_t c = 0; !early && c < checks; c++) syndrome[c] = draw() & 1;
        for (size_t m = 0; early && m < mechanisms; m++)
            if (draw() % (edges > 24000 ? 1000 : 100) == 0)
                for (uint32_t i = offsets[m]; i < offsets[m + 1]; i++) syndrome[detectors[i]] ^= 1;
    }
    for (size_t i = 0; i < LEGS * mechanisms; i++) gammas[i] = -0.24 + 0.9 * unit();
    uint8_t leg_state[LEGS + 1], *rows = room((LEGS + 1) * mechanisms, 1), *correction = room(mechanisms, 1);
    uint32_t leg_steps[LEGS + 1];
    double leg_weight[LEGS + 1], weight[1], *posterior = room(mechanisms, 8), *gamma = room(mechanisms, 8), *bias = room(mechanisms, 8),
           *c_to_v = room(edges, 8), *v_to_c = room(edges, 8);
    uint64_t counts[4], sums[MOST];
    double least[MOST];
    for (int i = 0; i < many; i++) least[i] = INFINITY;
    double start = now();
    for (int turn = 0; turn < 5 || now() - start < seconds; turn++)
        for (int i = 0; i < many; i++) {
            double began = now(), took = 0;
            uint64_t sum = 0;
            for (size_t run = 0; run < runs; run++) {
                const Archive *a = &archives[i];
#define FRONT checks, mechanisms, edges, priors, mechanisms, check_var, edges, check_offset, checks + 1, var_check, edges, var_message, edges, \
    var_offset, mechanisms + 1, serial, 1.0
#define BACK 0.1, 20, LEGS, 10, -0.24, 0.66, 1, 1, LEGS, gammas, LEGS *mechanisms, syndromes + run * checks, checks, 1, leg_state, LEGS + 1, \
    leg_steps, LEGS + 1, leg_weight, LEGS + 1, rows, (LEGS + 1) * mechanisms, correction, mechanisms, posterior, mechanisms, gamma, mechanisms, \
    bias, mechanisms, c_to_v, edges, v_to_c, edges, counts, weight
                uint64_t answer = a->version == 3 ? ((Decode3 *)a->decode)(FRONT, BACK) : ((Decode4 *)a->decode)(FRONT, a->clip_on, a->clip, BACK);
                took += now() - began;
                if (answer) {
                    fprintf(stderr, "bench/archives: %s refused with %llx\n", a->name, (unsigned long long)answer);
                    exit(1);
                }
                for (size_t m = 0; m < mechanisms; m++) {
                    uint64_t bits;
                    memcpy(&bits, &posterior[m], 8);
                    sum = 31 * sum + bits;
                }
                sum = 31 * sum + counts[2];
                began = now();
            }
            if (took < least[i]) least[i] = took;
            sums[i] = sum;
        }
    printf("decode/%s/%-6s %8zu %12.0f", serial ? "CheckSerial" : "Flooding   ", early ? "early" : "never", edges, 1e9 * least[0] / (double)runs);
    for (int i = 1; i < many; i++) printf("  %s %.3f%s", archives[i].name, least[i] / least[0], sums[i] == sums[0] ? "" : "*");
    printf("\n");
    fflush(stdout);
    void *lists[] = {offsets, detectors, priors, gammas, check_var, check_offset, var_check, var_message, var_offset, syndromes, rows, correction,
                     posterior, gamma, bias, c_to_v, v_to_c};
    for (size_t i = 0; i < sizeof lists / sizeof *lists; i++) free(lists[i]);
}

int main(int argc, char **argv) {
    Archive archives[MOST];
    int many = (argc - 2) / 3;
    void *first = NULL;
    if (many < 1 || many > MOST) return 2;
    for (int i = 0; i < many; i++) {
        char **word = argv + 2 + 3 * i;
        void *library = dlopen(word[1], RTLD_NOW | RTLD_LOCAL);
        if (!library) {
            fprintf(stderr, "bench/archives: %s\n", dlerror());
            return 1;
        }
        if (!first) first = library;
        archives[i] = (Archive){word[0], ((Version *)found(library, "chowderkite_version"))(), found(library, "chowderkite_decode"), *word[2] != 0, atof(word[2])};
        if (archives[i].version < 3 || archives[i].version > 5) {
            fprintf(stderr, "bench/archives: version %llu is not known here\n", (unsigned long long)archives[i].version);
            return 1;
        }
    }
    static const size_t sizes[] = {512, 4096, 24000, 131072};
    for (int early = 1; early >= 0; early--)
        for (uint8_t serial = 0; serial < 2; serial++)
            for (int i = 0; i < 4; i++)
                row((Build *)found(first, "chowderkite_build_sparse"), archives, many, atof(argv[1]), sizes[i], serial, early);
    return 0;
}
