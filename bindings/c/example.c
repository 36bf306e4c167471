/* Model G of the reference through the C calls, each answer compared with what the reference says of it. A program of your own
 * can start from this one: a model, lists that fit it, then beliefs and decodes over the same lists.
 *
 * Run by bindings/c/run. The last line says 'N passed, M failed'; the exit status is 1 if any failed. */
#include "chowderkite.h"

#include <stdio.h>
#include <string.h>

/* ---- model G: 2 checks, 3 mechanisms with the detectors {0}, {0,1}, {1}, priors 4 */

enum { CHECKS = 2, MECHANISMS = 3, EDGES = 4, LEGS = 1 };

static const double priors[MECHANISMS] = {4.0, 4.0, 4.0};
static const uint32_t detector_offsets[MECHANISMS + 1] = {0, 1, 3, 4};
static const uint32_t detectors[EDGES] = {0, 0, 1, 1};
static const uint8_t syndrome[CHECKS] = {1, 0};

/* The same model as a record stream, with settings and one shot: the reference's example, 141 bytes. */
static const uint8_t stream[141] = {
    64, 0, 0, 0, 1, 0, 2, 0, 0, 0, 3, 0, 0, 0, 4, 0,
    0, 0, 0, 0, 0, 0, 0, 0, 16, 64, 1, 0, 0, 0, 0, 0,
    0, 0, 0, 0, 16, 64, 2, 0, 0, 0, 0, 0, 0, 0, 0, 0,
    16, 64, 1, 0, 0, 0, 0, 0, 0, 0, 0, 0, 0, 0, 1, 0,
    0, 0, 1, 0, 0, 0, 49, 0, 0, 0, 2, 0, 0, 0, 0, 0,
    0, 0, 0, 240, 63, 0, 0, 0, 0, 0, 0, 0, 0, 2, 0, 0,
    0, 0, 0, 0, 0, 0, 0, 0, 0, 0, 0, 0, 0, 0, 0, 0,
    0, 0, 0, 0, 0, 0, 0, 0, 0, 1, 0, 0, 0, 10, 0, 0,
    0, 3, 0, 7, 0, 0, 0, 0, 0, 0, 0, 1, 0,
};

/* ---- the lists that the calls fill */

typedef struct {
    uint32_t check_var[EDGES], check_offset[CHECKS + 1];
    uint32_t var_check[EDGES], var_message[EDGES], var_offset[MECHANISMS + 1];
} graph;

typedef struct {
    uint8_t leg_state[LEGS], rows[LEGS * MECHANISMS], correction[MECHANISMS];
    uint32_t leg_steps[LEGS];
    double leg_weight[LEGS], posterior[MECHANISMS], weight[1];
    uint64_t counts[4];
    double gamma[MECHANISMS], bias[MECHANISMS], c_to_v[EDGES], v_to_c[EDGES]; /* for work */
} decoded;

static uint64_t build(const double *some_priors, graph *g) {
    return chowderkite_build_sparse(
        CHECKS, MECHANISMS, EDGES, some_priors, MECHANISMS, detector_offsets, MECHANISMS + 1, detectors, EDGES,
        g->check_var, EDGES, g->check_offset, CHECKS + 1,
        g->var_check, EDGES, g->var_message, EDGES, g->var_offset, MECHANISMS + 1);
}

static uint64_t build_of_probabilities(const double *probabilities, double *made_priors, graph *g) {
    return chowderkite_build_sparse_probabilities(
        CHECKS, MECHANISMS, EDGES, probabilities, MECHANISMS, detector_offsets, MECHANISMS + 1, detectors, EDGES,
        made_priors, MECHANISMS, g->check_var, EDGES, g->check_offset, CHECKS + 1,
        g->var_check, EDGES, g->var_message, EDGES, g->var_offset, MECHANISMS + 1);
}

/* Alpha 1, gamma0 0, two iterations, no relayed legs: R3's settings under a schedule, with a clip or without, with gammas that
 * would come of a source and a seed, and in an order, or in index order where the order is NULL. */
static uint64_t decode_with(
    const graph *g, uint8_t schedule, uint8_t clip_on, double clip, uint8_t gamma_source, uint64_t seed,
    const uint32_t *order, decoded *d) {
    const double alpha = 1.0, gamma0 = 0.0, low = 0.0, high = 0.0;
    const size_t pre_iterations = 2, num_legs = 0, leg_iterations = 0, stop = 1;
    if (order == NULL) {
        return chowderkite_decode(
            CHECKS, MECHANISMS, EDGES, priors, MECHANISMS,
            g->check_var, EDGES, g->check_offset, CHECKS + 1,
            g->var_check, EDGES, g->var_message, EDGES, g->var_offset, MECHANISMS + 1,
            schedule, alpha, clip_on, clip, gamma0, pre_iterations, num_legs, leg_iterations, low, high, stop,
            gamma_source, 0, NULL, 0, syndrome, CHECKS, seed,
            d->leg_state, LEGS, d->leg_steps, LEGS, d->leg_weight, LEGS, d->rows, LEGS * MECHANISMS,
            d->correction, MECHANISMS, d->posterior, MECHANISMS,
            d->gamma, MECHANISMS, d->bias, MECHANISMS, d->c_to_v, EDGES, d->v_to_c, EDGES, d->counts, d->weight);
    }
    return chowderkite_decode_in_order(
        CHECKS, MECHANISMS, EDGES, priors, MECHANISMS,
        g->check_var, EDGES, g->check_offset, CHECKS + 1,
        g->var_check, EDGES, g->var_message, EDGES, g->var_offset, MECHANISMS + 1,
        schedule, alpha, clip_on, clip, gamma0, pre_iterations, num_legs, leg_iterations, low, high, stop,
        gamma_source, 0, NULL, 0, syndrome, CHECKS, seed, order, CHECKS,
        d->leg_state, LEGS, d->leg_steps, LEGS, d->leg_weight, LEGS, d->rows, LEGS * MECHANISMS,
        d->correction, MECHANISMS, d->posterior, MECHANISMS,
        d->gamma, MECHANISMS, d->bias, MECHANISMS, d->c_to_v, EDGES, d->v_to_c, EDGES, d->counts, d->weight);
}

/* Shot 7. */
static uint64_t decode_clipped(
    const graph *g, uint8_t schedule, uint8_t clip_on, double clip, const uint32_t *order, decoded *d) {
    return decode_with(g, schedule, clip_on, clip, CHOWDERKITE_BY_SHOT, 7, order, d);
}

static uint64_t decode(const graph *g, uint8_t schedule, const uint32_t *order, decoded *d) {
    return decode_clipped(g, schedule, CHOWDERKITE_CLIP_OFF, 0.0, order, d);
}

/* ---- comparing: bits, so that a zero's sign counts */

static int passed = 0, failed = 0;

static void expect(const char *what, int good) {
    printf("%s: %s\n", what, good ? "passed" : "FAILED");
    if (good) {
        passed += 1;
    } else {
        failed += 1;
    }
}

/* Both schedules come to this, in two iterations that write so many messages. */
static int is_converged_as_r3(const decoded *d, uint64_t stores) {
    const double posterior[MECHANISMS] = {-4.0, 4.0, 4.0}, weight = 4.0;
    const uint8_t bits[MECHANISMS] = {1, 0, 0};
    const uint64_t counts[4] = {1, 1, 2, stores};
    uint64_t iterations[1];
    double leg_weight[1];
    const uint64_t state =
        chowderkite_leg_record(d->leg_state, LEGS, d->leg_steps, LEGS, d->leg_weight, LEGS, 0, iterations, leg_weight);
    return memcmp(d->counts, counts, sizeof counts) == 0 && memcmp(d->weight, &weight, sizeof weight) == 0
        && memcmp(d->correction, bits, sizeof bits) == 0 && memcmp(d->rows, bits, sizeof bits) == 0
        && memcmp(d->posterior, posterior, sizeof posterior) == 0
        && state == CHOWDERKITE_CONVERGED && iterations[0] == 2 && memcmp(leg_weight, &weight, sizeof weight) == 0;
}

/* Whether a session says this of the first bytes of the stream, which it takes one by one. */
static int says(size_t bytes, const char *wanted) {
    static uint8_t payload[CHOWDERKITE_MAX_PAYLOAD], model[CHOWDERKITE_MAX_PAYLOAD];
    size_t words[CHOWDERKITE_SESSION_WORDS], length = 0, i;
    double floats[CHOWDERKITE_SESSION_FLOATS];
    uint8_t line[CHOWDERKITE_LINE];
    char text[1024];
    chowderkite_session_new(words, floats);
    for (i = 0; i < bytes; i += 1) {
        chowderkite_take(words, floats, stream[i], payload, sizeof payload, model, sizeof model, line);
        memcpy(text + length, line, words[CHOWDERKITE_SESSION_SAID]);
        length += words[CHOWDERKITE_SESSION_SAID];
    }
    i = chowderkite_finish(words, floats, line);
    memcpy(text + length, line, i);
    length += i;
    return length == strlen(wanted) && memcmp(text, wanted, length) == 0;
}

int main(void) {
    graph g, before_graph;
    memset(&g, 9, sizeof g);

    expect("the archive is of the header's version", chowderkite_version() == CHOWDERKITE_VERSION);

    /* A refused call writes nothing, so every list is as it was. */
    {
        const double bad[MECHANISMS] = {4.0, 31.0, 4.0};
        uint64_t code;
        memcpy(&before_graph, &g, sizeof g);
        code = build(bad, &g);
        printf("refused with %u at mechanism %u\n", (unsigned)chowderkite_number_of(code), (unsigned)chowderkite_place_of(code));
        expect("a prior of 31 is refused with 4 at its mechanism, 1",
               chowderkite_number_of(code) == CHOWDERKITE_BAD_PRIOR && chowderkite_has_place(code)
                   && chowderkite_place_of(code) == 1);
        expect("and the graph lists are as they were", memcmp(&g, &before_graph, sizeof g) == 0);
    }

    /* R1 */
    {
        const uint32_t check_offset[CHECKS + 1] = {0, 2, 4}, var_offset[MECHANISMS + 1] = {0, 1, 3, 4};
        const uint64_t code = build(priors, &g);
        expect("R1: offsets 0,2,4 and 0,1,3,4; variable 1 has messages 1 and 2",
               code == CHOWDERKITE_DONE && memcmp(g.check_offset, check_offset, sizeof check_offset) == 0
                   && memcmp(g.var_offset, var_offset, sizeof var_offset) == 0
                   && g.var_message[1] == 1 && g.var_message[2] == 2);
    }

    /* The model by probabilities instead: the same graph, and the priors beside it. */
    {
        const double probabilities[MECHANISMS] = {0.01, 0.25, 0.5}, bad[MECHANISMS] = {0.01, 0.25, 1.5};
        const double wanted[MECHANISMS] = {19735889468.0 / 4294967296.0, 4718503847.0 / 4294967296.0, 0.0};
        double made[MECHANISMS], before[MECHANISMS], prior[1];
        int64_t scaled[1];
        graph of_probabilities;
        uint64_t code;
        memset(&of_probabilities, 9, sizeof of_probabilities);
        memset(made, 9, sizeof made);
        memcpy(&before_graph, &of_probabilities, sizeof before_graph);
        memcpy(before, made, sizeof made);
        code = build_of_probabilities(bad, made, &of_probabilities);
        expect("a probability of 1.5 is refused with 8 at its mechanism, 2",
               chowderkite_number_of(code) == CHOWDERKITE_BAD_PROBABILITY && chowderkite_has_place(code)
                   && chowderkite_place_of(code) == 2);
        expect("and the priors and graph lists are as they were",
               memcmp(made, before, sizeof made) == 0
                   && memcmp(&of_probabilities, &before_graph, sizeof before_graph) == 0);
        code = build_of_probabilities(probabilities, made, &of_probabilities);
        printf("probabilities %g, %g, %g have priors %g, %g, %g\n", probabilities[0], probabilities[1], probabilities[2],
               made[0], made[1], made[2]);
        expect("probabilities 0.01, 0.25, 0.5: the same graph, and their priors",
               code == CHOWDERKITE_DONE && memcmp(&of_probabilities, &g, sizeof g) == 0
                   && memcmp(made, wanted, sizeof made) == 0);
        code = chowderkite_prior_of(probabilities[0], 0, prior, scaled);
        expect("the prior of 0.01 is 19735889468 / 2^32",
               code == CHOWDERKITE_DONE && scaled[0] == 19735889468 && memcmp(prior, wanted, sizeof prior) == 0);
    }

    /* R8 */
    {
        const double wanted[MECHANISMS] = {0.0, 4.0, 8.0};
        double posterior[MECHANISMS], ewa[MECHANISMS], c_to_v[EDGES], v_to_c[EDGES];
        const size_t iterations = 1;
        const double scale = 1.0;
        const uint64_t code = chowderkite_beliefs(
            CHECKS, MECHANISMS, EDGES, priors, MECHANISMS,
            g.check_var, EDGES, g.check_offset, CHECKS + 1,
            g.var_check, EDGES, g.var_message, EDGES, g.var_offset, MECHANISMS + 1,
            syndrome, CHECKS, iterations, scale, 0,
            posterior, MECHANISMS, ewa, MECHANISMS, c_to_v, EDGES, v_to_c, EDGES);
        expect("R8: min-sum beliefs 0,4,8", code == CHOWDERKITE_DONE && memcmp(posterior, wanted, sizeof wanted) == 0);
    }

    /* R3, R4, R7 and R6. An iteration writes the checks' messages, one for each edge. Flooding then writes the mechanisms'
     * messages once; CheckSerial writes all of a mechanism's for each of its edges: of degrees 1, 2 and 1, that is 1 + 4 + 1. */
    {
        const uint64_t flooding = 2 * (2 * EDGES), serial = 2 * (EDGES + 1 + 4 + 1);
        const uint32_t exchanged[CHECKS] = {1, 0};
        decoded d, before;
        uint64_t code;

        memset(&d, 9, sizeof d);
        code = decode(&g, CHOWDERKITE_FLOODING, NULL, &d);
        printf("bits %d%d%d, weight %g, %u iterations, %u message stores\n", d.correction[0], d.correction[1],
               d.correction[2], d.weight[0], (unsigned)d.counts[2], (unsigned)d.counts[3]);
        expect("R3: Flooding, converged at 2, bits 100, weight 4, posterior -4,4,4; 16 message stores",
               code == CHOWDERKITE_DONE && flooding == 16 && is_converged_as_r3(&d, flooding));

        memset(&d, 9, sizeof d);
        code = decode(&g, CHOWDERKITE_CHECK_SERIAL, NULL, &d);
        expect("R4: CheckSerial, as R3; 20 message stores",
               code == CHOWDERKITE_DONE && serial == 20 && is_converged_as_r3(&d, serial));

        memset(&d, 9, sizeof d);
        code = decode(&g, CHOWDERKITE_FLOODING, exchanged, &d);
        expect("R7: Flooding in order 1,0, as R3", code == CHOWDERKITE_DONE && is_converged_as_r3(&d, flooding));

        memset(&d, 9, sizeof d);
        memcpy(&before, &d, sizeof d);
        code = decode(&g, CHOWDERKITE_CHECK_SERIAL, exchanged, &d);
        expect("R6: CheckSerial refuses order 1,0 with 24 at check 0",
               chowderkite_number_of(code) == CHOWDERKITE_ORDER_EXCHANGED && chowderkite_has_place(code)
                   && chowderkite_place_of(code) == 0);
        expect("and every list is as it was", memcmp(&d, &before, sizeof d) == 0);
    }

    /* R3 with a clip. The greatest message of a check in it is 8. */
    {
        const double wanted[MECHANISMS] = {1.0, 4.0, 5.0};
        const uint64_t counts[4] = {0, 1, 2, 16};
        decoded d, before;
        uint64_t code;

        memset(&d, 9, sizeof d);
        code = decode_clipped(&g, CHOWDERKITE_FLOODING, CHOWDERKITE_CLIP_ON, 8.0, NULL, &d);
        expect("a clip of 8, which no message passes: as R3", code == CHOWDERKITE_DONE && is_converged_as_r3(&d, 16));

        memset(&d, 9, sizeof d);
        code = decode_clipped(&g, CHOWDERKITE_FLOODING, CHOWDERKITE_CLIP_ON, 3.0, NULL, &d);
        printf("with a clip of 3 the posterior is %g, %g, %g\n", d.posterior[0], d.posterior[1], d.posterior[2]);
        expect("a clip of 3: not converged, posterior 1,4,5",
               code == CHOWDERKITE_DONE && memcmp(d.posterior, wanted, sizeof wanted) == 0
                   && memcmp(d.counts, counts, sizeof counts) == 0);

        memset(&d, 9, sizeof d);
        memcpy(&before, &d, sizeof d);
        code = decode_clipped(&g, CHOWDERKITE_FLOODING, CHOWDERKITE_CLIP_ON, 0.0, NULL, &d);
        expect("a clip of 0 is refused with 9, and every list is as it was",
               chowderkite_number_of(code) == CHOWDERKITE_BAD_CLIP && !chowderkite_has_place(code)
                   && memcmp(&d, &before, sizeof d) == 0);

        code = decode_clipped(&g, CHOWDERKITE_FLOODING, CHOWDERKITE_CLIP_OFF, -1.0, NULL, &d);
        expect("off, a clip is not looked at", code == CHOWDERKITE_DONE && is_converged_as_r3(&d, 16));
    }

    /* Shot numbers, where gammas are drawn by shot; here no leg draws any. */
    {
        const uint64_t too_large = (uint64_t)1 << 48;
        decoded d, before;
        uint64_t code;

        memset(&d, 9, sizeof d);
        code = decode_with(
            &g, CHOWDERKITE_FLOODING, CHOWDERKITE_CLIP_OFF, 0.0, CHOWDERKITE_BY_SHOT, too_large - 1, NULL, &d);
        expect("shot 2^48 - 1: as R3", code == CHOWDERKITE_DONE && is_converged_as_r3(&d, 16));

        memset(&d, 9, sizeof d);
        memcpy(&before, &d, sizeof d);
        code = decode_with(&g, CHOWDERKITE_FLOODING, CHOWDERKITE_CLIP_OFF, 0.0, CHOWDERKITE_SEEDED, too_large, NULL, &d);
        expect("shot 2^48 is refused with 27, and every list is as it was",
               chowderkite_number_of(code) == CHOWDERKITE_SHOT_TOO_LARGE && !chowderkite_has_place(code)
                   && memcmp(&d, &before, sizeof d) == 0);

        code = decode_with(
            &g, CHOWDERKITE_FLOODING, CHOWDERKITE_CLIP_OFF, 0.0, CHOWDERKITE_SEED_XOR_LEG, UINT64_MAX, NULL, &d);
        expect("the draw from the seed xor the leg takes every seed", code == CHOWDERKITE_DONE && is_converged_as_r3(&d, 16));
    }

    /* R6's first half: the single iteration takes that order. */
    {
        const double wanted[MECHANISMS] = {-4.0, 4.0, 8.0}, gamma[MECHANISMS] = {0.0, 0.0, 0.0};
        const uint32_t exchanged[CHECKS] = {1, 0};
        double c_to_v[EDGES] = {0.0, 0.0, 0.0, 0.0}, v_to_c[EDGES], posterior[MECHANISMS], bias[MECHANISMS];
        uint64_t code;
        size_t i;
        for (i = 0; i < EDGES; i += 1) {
            v_to_c[i] = priors[g.check_var[i]];
        }
        memcpy(posterior, priors, sizeof priors);
        code = chowderkite_iteration(
            CHECKS, MECHANISMS, EDGES, priors, MECHANISMS,
            g.check_var, EDGES, g.check_offset, CHECKS + 1,
            g.var_check, EDGES, g.var_message, EDGES, g.var_offset, MECHANISMS + 1,
            CHOWDERKITE_CHECK_SERIAL, 1.0, CHOWDERKITE_CLIP_OFF, 0.0, gamma, MECHANISMS, syndrome, CHECKS, exchanged, CHECKS,
            c_to_v, EDGES, v_to_c, EDGES, posterior, MECHANISMS, bias, MECHANISMS);
        expect("R6: the first serial iteration in order 1,0, posterior -4,4,8",
               code == CHOWDERKITE_DONE && memcmp(posterior, wanted, sizeof wanted) == 0);
    }

    /* The published operating point. */
    {
        const double wanted_floats[5] = {1.0, 0.1, -0.24, 0.66, 0.0};
        const uint64_t wanted_counts[6] = {80, 40, 60, 1, CHOWDERKITE_CLIP_OFF, CHOWDERKITE_BY_SHOT};
        double floats[5];
        uint64_t counts[6];
        const uint8_t schedule = chowderkite_published(floats, counts);
        expect("the published operating point: Flooding, alpha 1, gamma0 0.1, 80, 40 legs, 60, -0.24 to 0.66, stop 1, no clip, by shot",
               schedule == CHOWDERKITE_FLOODING && memcmp(floats, wanted_floats, sizeof floats) == 0 && memcmp(counts, wanted_counts, sizeof counts) == 0);
    }

    /* A session over the record stream; and over the same without its last byte, which cuts the shot at 125. */
    expect("the reference's stream: shot 0 1 2 1 100, end 1", says(sizeof stream, "shot 0 1 2 1 100\nend 1\n"));
    expect("the stream cut by a byte: stopped 40 125", says(sizeof stream - 1, "stopped 40 125\n"));

    printf("%d passed, %d failed\n", passed, failed);
    return failed > 0;
}
