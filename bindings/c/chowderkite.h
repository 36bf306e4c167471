/* Chowderkite's calls, as the archive libexports.a has them.
 *
 * Version: chowderkite_version.
 * Graph: chowderkite_build_sparse, _build_dense, _count_edges, _check_graph; of probabilities _build_sparse_probabilities,
 *   _build_dense_probabilities.
 * Priors: chowderkite_prior_of, _priors_of.
 * Beliefs: chowderkite_beliefs.
 * Relay-BP: chowderkite_published, _check_settings, _decode, _decode_in_order, _leg_record, _iteration.
 * Refusals: chowderkite_number_of, _place_of.
 * Record streams: chowderkite_session_new, _take, _finish.
 *
 * What holds for every call:
 *
 * - It takes every value of its arguments, tests them itself, and ends. What a list must hold is never asked of the
 *   caller; only that each pointer and its length are true, that a list which is written overlaps no other list, and that
 *   pointers are aligned as their type asks. A list of length 0 may have any pointer, NULL too.
 * - It has no heap and no globals. Calls in several threads are free as long as they don't share a list that is written.
 *   On x86-64 a decode takes 260 KiB of stack, whatever the model, a byte of a session that ends a record up to 294 KiB, and
 *   the single iteration 66 KiB; the others take little.
 * - Its floats are IEEE 754 binary64, so the processor must be as a program starts: rounding to nearest even, and
 *   subnormals not flushed to zero. Linking with -ffast-math can change the second for a whole program.
 * - The numbers of checks, mechanisms and edges are said by the caller, and the lists must fit them: exactly, unless a
 *   call says "at least".
 * - "Refuses" means that it answers a code that is not 0 (below). A call that its tests refuse writes nothing: every list
 *   is as it was. Tests go in rising number unless a call says otherwise, and the first that refuses is answered, with
 *   its first place. Refusal 30 alone comes after the work; each call that has it says what it leaves.
 * - Once past its tests, refused with 30 or not, a call leaves positive zeroes in its work lists.
 *
 * Link a program with libexports.a, which wants memset and memcpy of the C library and nothing else.
 *
 * Priors are log ratios ln((1 - p) / p), from -30 to 30. They are given as they are, or made here of probabilities. ln is no
 * IEEE 754 operation, and a result must not depend on the library that took it: so the calls of probabilities work it out in
 * whole numbers by one definition, and a probability has the same prior on every machine, bit for bit.
 *
 * Licence: Apache-2.0, see NOTICE. */
#ifndef CHOWDERKITE_H
#define CHOWDERKITE_H

#include <stddef.h>
#include <stdint.h>

#if SIZE_MAX < UINT64_MAX
#error "Chowderkite's archive is for machines of 64 bits"
#endif

#ifdef __cplusplus
extern "C" {
#endif

/* ---- the version: raised whenever a call, a list or a code changes its meaning */

#define CHOWDERKITE_VERSION 5

/* The version of the archive that is linked. Where it is not CHOWDERKITE_VERSION, this header is another archive's. */
uint64_t chowderkite_version(void);

/* ---- limits */

#define CHOWDERKITE_MAX_CHECKS 65536
#define CHOWDERKITE_MAX_MECHANISMS 65536
#define CHOWDERKITE_MAX_EDGES 1048576
/* of relayed legs, of each count of iterations, and of explicit sets of gammas */
#define CHOWDERKITE_MAX_COUNT 65535
/* of a prior's magnitude */
#define CHOWDERKITE_MAX_PRIOR 30.0

/* ---- codes: 0 where nothing is refused, else the refusal's number plus 65536 times its place. A code keeps the place modulo
 * 2^32; only those of chowderkite_prior_of and chowderkite_priors_of can reach that. No call gives 26, 28, or any from 46 on:
 * they are kept for calls to come. */

enum chowderkite_refusal {
    CHOWDERKITE_DONE = 0,
    CHOWDERKITE_SIZE_ABOVE_LIMIT = 1,      /* a size above its limit */
    CHOWDERKITE_MODEL_LIST_LENGTH = 2,     /* a model or graph list of wrong length */
    CHOWDERKITE_BAD_DETECTOR_OFFSETS = 3,  /* they don't start at 0, fall, or don't end at detectors_len */
    CHOWDERKITE_BAD_PRIOR = 4,             /* NaN, below -30 or above 30. Place: mechanism */
    CHOWDERKITE_DETECTOR_OUT_OF_RANGE = 5, /* Place: mechanism */
    CHOWDERKITE_DETECTOR_REPEATED = 6,     /* within its mechanism. Place: mechanism */
    CHOWDERKITE_NO_SUCH_GRAPH = 7,         /* graph lists that no model within the limits builds */
    CHOWDERKITE_BAD_PROBABILITY = 8,       /* NaN, below 0 or above 1. Place: mechanism */
    CHOWDERKITE_BAD_CLIP = 9,              /* on, and not finite or not above 0 */
    CHOWDERKITE_BAD_ALPHA = 10,            /* not finite or not above 0 */
    CHOWDERKITE_BAD_GAMMA0 = 11,           /* not finite */
    CHOWDERKITE_BAD_ITERATIONS = 12,       /* pre_iterations 0 or above the limit; those of beliefs above it */
    CHOWDERKITE_TOO_MANY_LEGS = 13,        /* num_legs above the limit */
    CHOWDERKITE_BAD_LEG_ITERATIONS = 14,   /* above the limit, or 0 with num_legs above 0 */
    CHOWDERKITE_BAD_GAMMA_INTERVAL = 15,   /* an end or the span not finite, or low above high */
    CHOWDERKITE_BAD_STOP = 16,             /* stop_after_converged 0 */
    CHOWDERKITE_NO_GAMMA_SETS = 17,        /* explicit, no sets, num_legs above 0 */
    CHOWDERKITE_GAMMA_SETS_LENGTH = 18,    /* sets above the limit, or gammas_len not sets times mechanisms */
    CHOWDERKITE_GAMMA_NOT_FINITE = 19,     /* of an explicit set. Place: index in gammas */
    CHOWDERKITE_SYNDROME_LENGTH = 20,      /* not the number of checks */
    CHOWDERKITE_SYNDROME_NOT_BINARY = 21,  /* Relay: a byte above 1. Place: check */
    CHOWDERKITE_LENT_LIST_LENGTH = 22,     /* a result, state or work list of wrong length */
    CHOWDERKITE_ORDER_NOT_EACH_ONCE = 23,  /* an order that does not name each check once */
    CHOWDERKITE_ORDER_EXCHANGED = 24,      /* decode, CheckSerial: two checks that share a mechanism exchanged.
                                              Place: the first check in the order that shares a mechanism with a
                                              higher check named before it */
    CHOWDERKITE_STATE_NOT_FINITE = 25,     /* single iteration: a message, posterior or gamma before it */
    CHOWDERKITE_SEEDS_LENGTH = 26,         /* seeds of a block: not the number of shots */
    CHOWDERKITE_SHOT_TOO_LARGE = 27,       /* gammas drawn by shot: a shot number of 2^48 or above. Tested after 21 */
    CHOWDERKITE_OBSERVABLE_TOO_LARGE = 28, /* 64 or above. Place: mechanism */
    CHOWDERKITE_TOO_MANY_STORES = 29,      /* a decode's message stores could pass 2^64 - 1 */
    CHOWDERKITE_NON_FINITE = 30,           /* a posterior after a leg or a run of beliefs; single iteration: a
                                              posterior or message after it. Place: first mechanism that has one.
                                              Relay's clip can avert it */
    CHOWDERKITE_CUT_RECORD = 40,           /* a stream that ends within a record */
    CHOWDERKITE_UNKNOWN_KIND = 41,         /* a record of another kind than 1 to 4 */
    CHOWDERKITE_PAYLOAD_LENGTH = 42,       /* a payload of wrong length for its kind */
    CHOWDERKITE_SHOT_TOO_EARLY = 43,       /* a shot before a model or settings */
    CHOWDERKITE_BEYOND_ROOM = 44,          /* more than the room of a session */
    CHOWDERKITE_BAD_SCHEDULE = 45,         /* a schedule byte other than 0 and 1 */
    CHOWDERKITE_DROPPED_WITH_OTHERS = 46,  /* a shot whose model or settings were dropped */
    CHOWDERKITE_LINE_NOT_IN_SUBSET = 50,   /* model text: a line outside the subset. Place: line */
    CHOWDERKITE_CONSTRUCT_LEFT_OUT = 51,   /* a construct that the subset leaves out by name. Place: line */
    CHOWDERKITE_NUMBER_OUTSIDE_LIMITS = 52, /* a decimal or a target outside the limits. Place: line */
    CHOWDERKITE_FOREIGN_CHARACTER = 55,    /* shot files: neither bit nor newline. Place: shot */
    CHOWDERKITE_LINE_LENGTH = 56,          /* a line of wrong length. Place: shot */
    CHOWDERKITE_CUT_SHOT = 57,             /* the last shot cut, or bytes left over. Place: shot */
    CHOWDERKITE_FILLING_BIT_SET = 58,      /* a bit that only fills up a byte. Place: shot */
    CHOWDERKITE_ALIST_MALFORMED = 60,      /* matrix files: a number, or a count of lines or numbers */
    CHOWDERKITE_ALIST_DEGREE = 61,         /* a degree that differs from its lists */
    CHOWDERKITE_ALIST_NUMBER = 62,         /* a number out of range or repeated */
    CHOWDERKITE_ALIST_DISAGREES = 63       /* column and row lists that disagree */
};

/* The refusal's number, 0 for none. */
uint64_t chowderkite_number_of(uint64_t code);

/* The refusal's place. It is 0 too where the refusal has none: ask chowderkite_has_place. */
uint64_t chowderkite_place_of(uint64_t code);

/* Whether the refusal has a place: 4, 5, 6, 8, 19, 21, 24, 28, 30, 50 to 52 and 55 to 58 have. */
static inline int chowderkite_has_place(uint64_t code) {
    switch (chowderkite_number_of(code)) {
    case CHOWDERKITE_BAD_PRIOR:
    case CHOWDERKITE_DETECTOR_OUT_OF_RANGE:
    case CHOWDERKITE_DETECTOR_REPEATED:
    case CHOWDERKITE_BAD_PROBABILITY:
    case CHOWDERKITE_GAMMA_NOT_FINITE:
    case CHOWDERKITE_SYNDROME_NOT_BINARY:
    case CHOWDERKITE_ORDER_EXCHANGED:
    case CHOWDERKITE_OBSERVABLE_TOO_LARGE:
    case CHOWDERKITE_NON_FINITE:
    case CHOWDERKITE_LINE_NOT_IN_SUBSET:
    case CHOWDERKITE_CONSTRUCT_LEFT_OUT:
    case CHOWDERKITE_NUMBER_OUTSIDE_LIMITS:
    case CHOWDERKITE_FOREIGN_CHARACTER:
    case CHOWDERKITE_LINE_LENGTH:
    case CHOWDERKITE_CUT_SHOT:
    case CHOWDERKITE_FILLING_BIT_SET:
        return 1;
    default:
        return 0;
    }
}

/* ---- the graph
 *
 * Five lists hold it, built from a model and then lent to every other call beside the priors (length mechanisms):
 *
 *   check_var                   length edges: the entries of check 0, then of check 1, and so on, mechanisms rising
 *                               within a check; an entry is a mechanism, and its place is the number of its message
 *   check_offset                length checks + 1: check c has the entries from check_offset[c] to check_offset[c + 1]
 *   var_check, var_message      length edges: the entries of mechanism 0, then of 1, and so on, checks rising within one;
 *                               a check, and the number of the message
 *   var_offset                  length mechanisms + 1: as check_offset
 *
 * Every call over a graph begins by testing the lists and the priors: 1, 2, 4, 7. */

/* Builds the graph of a sparse model: mechanism m has the detectors (checks) from detector_offsets[m] to
 * detector_offsets[m + 1], in any order. Lengths: priors mechanisms, detector_offsets mechanisms + 1, detectors edges, the
 * five graph lists as above. Refuses with 1, 2, 3, then mechanism by mechanism 4, 5, 6, where a mechanism's prior comes
 * first and then each detector in list order, range before repeat. Hand over a mechanism of thousands of detectors in
 * rising order: from the first that does not rise, each is compared with all before it. */
uint64_t chowderkite_build_sparse(
    size_t checks,
    size_t mechanisms,
    size_t edges,
    const double *priors, size_t priors_len,
    const uint32_t *detector_offsets, size_t detector_offsets_len,
    const uint32_t *detectors, size_t detectors_len,
    uint32_t *check_var, size_t check_var_len,
    uint32_t *check_offset, size_t check_offset_len,
    uint32_t *var_check, size_t var_check_len,
    uint32_t *var_message, size_t var_message_len,
    uint32_t *var_offset, size_t var_offset_len);

/* How many bytes of a matrix are not 0: the edges of its graph. Refuses nothing. */
size_t chowderkite_count_edges(
    const uint8_t *matrix, size_t matrix_len);

/* Builds the graph of a dense model, the same as of the sparse model with the same incidences: the matrix lies check by
 * check, and a byte that is not 0 is an incidence. Lengths: priors mechanisms, matrix checks times mechanisms, the five
 * graph lists as above, where edges is what chowderkite_count_edges answers. Refuses with 1 for the counts, 2 for matrix
 * and priors, 1 for the edges, 2 for the graph lists, then 4. */
uint64_t chowderkite_build_dense(
    size_t checks,
    size_t mechanisms,
    const double *priors, size_t priors_len,
    const uint8_t *matrix, size_t matrix_len,
    uint32_t *check_var, size_t check_var_len,
    uint32_t *check_offset, size_t check_offset_len,
    uint32_t *var_check, size_t var_check_len,
    uint32_t *var_message, size_t var_message_len,
    uint32_t *var_offset, size_t var_offset_len);

/* Tests graph lists and priors as every call over a graph does: 1, 2, 4, 7. Writes nothing. */
uint64_t chowderkite_check_graph(
    size_t checks,
    size_t mechanisms,
    size_t edges,
    const double *priors, size_t priors_len,
    const uint32_t *check_var, size_t check_var_len,
    const uint32_t *check_offset, size_t check_offset_len,
    const uint32_t *var_check, size_t var_check_len,
    const uint32_t *var_message, size_t var_message_len,
    const uint32_t *var_offset, size_t var_offset_len);

/* Builds the graph of a sparse model that is given by probabilities, and the priors to be lent beside it: as
 * chowderkite_build_sparse of the priors that chowderkite_priors_of makes. Lengths: probabilities and priors mechanisms, the
 * others as there. Leaves each mechanism's prior in priors, and the graph in its five lists. Refuses with 1, 2, 3, then
 * mechanism by mechanism 8, 5, 6, where a mechanism's probability comes first and then each detector in list order, range
 * before repeat. */
uint64_t chowderkite_build_sparse_probabilities(
    size_t checks,
    size_t mechanisms,
    size_t edges,
    const double *probabilities, size_t probabilities_len,
    const uint32_t *detector_offsets, size_t detector_offsets_len,
    const uint32_t *detectors, size_t detectors_len,
    double *priors, size_t priors_len,
    uint32_t *check_var, size_t check_var_len,
    uint32_t *check_offset, size_t check_offset_len,
    uint32_t *var_check, size_t var_check_len,
    uint32_t *var_message, size_t var_message_len,
    uint32_t *var_offset, size_t var_offset_len);

/* Builds the graph of a dense model that is given by probabilities, and the priors to be lent beside it: as
 * chowderkite_build_dense of the priors that chowderkite_priors_of makes. Lengths: probabilities and priors mechanisms, the
 * others as there. Leaves each mechanism's prior in priors, and the graph in its five lists. Refuses with 1 for the counts, 2
 * for matrix and probabilities, 1 for the edges, 2 for priors and the graph lists, then 8. */
uint64_t chowderkite_build_dense_probabilities(
    size_t checks,
    size_t mechanisms,
    const double *probabilities, size_t probabilities_len,
    const uint8_t *matrix, size_t matrix_len,
    double *priors, size_t priors_len,
    uint32_t *check_var, size_t check_var_len,
    uint32_t *check_offset, size_t check_offset_len,
    uint32_t *var_check, size_t var_check_len,
    uint32_t *var_message, size_t var_message_len,
    uint32_t *var_offset, size_t var_offset_len);

/* ---- priors of probabilities
 *
 * The prior of a probability p is ln((1 - p) / p), cut to -30 and 30: 30 at 0 and at -0.0, -30 at 1, positive zero at 1/2. It
 * is worked out in whole numbers of 2^-32 (powers of two taken out, then ten terms of the series of 2 artanh, each step
 * rounded towards zero), as crates/probabilities/specs/Scaled.antt defines. The calls write that whole number too, scaled:
 * the prior is exactly scaled / 2^32.
 *
 * It is never further from 0 than those terms exactly summed, cut likewise, and at most 256 of 2^-32 nearer. A larger p
 * never has a larger prior. Where 1 - p is a float, its prior is the negative of p's. */

/* The prior of one probability into prior, and the whole number into scaled. Refuses with 8, and its place is the mechanism
 * that the caller says, modulo 2^32. */
uint64_t chowderkite_prior_of(
    double probability,
    size_t mechanism,
    double prior[1],
    int64_t scaled[1]);

/* The priors of a list of probabilities into priors, and the whole numbers into scaled. Lengths: both that of probabilities,
 * which has no limit. Refuses with 2, then 8, whose place is the first index that is at fault, modulo 2^32. */
uint64_t chowderkite_priors_of(
    const double *probabilities, size_t probabilities_len,
    double *priors, size_t priors_len,
    int64_t *scaled, size_t scaled_len);

/* ---- min-sum beliefs */

/* Min-sum beliefs into posterior. A syndrome byte that is not 0 is 1. Serial: 0 updates the mechanisms after all checks,
 * any other byte after each check. The scale is not tested. Lengths: syndrome checks; posterior and ewa_posterior
 * mechanisms; c_to_v and v_to_c edges. The last three are for work. Refuses with 1, 2, 4, 7, 12, 20, 22, 30. Refusal 30
 * leaves positive zeroes in posterior. */
uint64_t chowderkite_beliefs(
    size_t checks,
    size_t mechanisms,
    size_t edges,
    const double *priors, size_t priors_len,
    const uint32_t *check_var, size_t check_var_len,
    const uint32_t *check_offset, size_t check_offset_len,
    const uint32_t *var_check, size_t var_check_len,
    const uint32_t *var_message, size_t var_message_len,
    const uint32_t *var_offset, size_t var_offset_len,
    const uint8_t *syndrome, size_t syndrome_len,
    size_t iterations,
    double scale,
    uint8_t serial,
    double *posterior, size_t posterior_len,
    double *ewa_posterior, size_t ewa_posterior_len,
    double *c_to_v, size_t c_to_v_len,
    double *v_to_c, size_t v_to_c_len);

/* ---- Relay-BP
 *
 * A schedule is a byte: CHOWDERKITE_FLOODING, and any other is CHOWDERKITE_CHECK_SERIAL. So is gamma_source, where the gammas
 * of relayed legs come from (enum chowderkite_source). Relayed legs count from 1. Of an explicit source gammas holds as many
 * sets as sets says, one after the other, each with a gamma for each mechanism, and leg r uses set (r - 1) modulo sets. Of the
 * others neither is looked at: each leg draws its gammas in mechanism order by SplitMix64, which starts at a number that the
 * seed and the leg make by a rule. By shot the seed is a shot number, below 2^48 (27), and no two legs of any shots start
 * alike.
 *
 * And so is clip_on: CHOWDERKITE_CLIP_OFF, and then clip is not looked at; any other is CHOWDERKITE_CLIP_ON, and clip is a
 * magnitude, finite and above 0 (9). A check's message that is strictly greater in magnitude, an infinite one too, becomes the
 * clip with its sign before it is written: after alpha times sign times minimum, and also where the check has one mechanism
 * alone. Nothing else is clipped, and min-sum beliefs have no clip. Where mechanisms are very busy, messages can grow many times
 * over with each iteration, until 30 refuses: a clip bounds them. 30, as large as a prior can be, is one to begin with: with a
 * clip of at most 31, and gamma0 and all other gammas, or the ends of their interval, from -1 to 1, no decode is refused with 30. */

#define CHOWDERKITE_FLOODING 0
#define CHOWDERKITE_CHECK_SERIAL 1

enum chowderkite_source {
    CHOWDERKITE_BY_SHOT = 0,      /* drawn: SplitMix64 starts at the shot number times 65536, plus the leg */
    CHOWDERKITE_SEEDED = 0,       /* names no rule, and so draws by shot */
    CHOWDERKITE_EXPLICIT = 1,
    CHOWDERKITE_SEED_XOR_LEG = 2  /* drawn, of any seed: it starts at the seed xor (leg + 1), as before version 5. Seed 40 in
                                     leg 1 and seed 41 in leg 2 start alike. Any other byte is this too */
};

#define CHOWDERKITE_CLIP_OFF 0
#define CHOWDERKITE_CLIP_ON 1

/* Writes the published operating point: floats are alpha, gamma0, gamma_low, gamma_high, and the clip, 0.0 for off; counts are
 * pre_iterations, num_legs, leg_iterations, stop_after_converged, whether the clip is on, 1 or 0, and gamma_source. Answers its
 * schedule, which is Flooding; its gammas are drawn by shot, and its clip is off. Refuses nothing. */
uint8_t chowderkite_published(
    double floats[5],
    uint64_t counts[6]);

/* Tests settings as a decode over so many mechanisms does: 1 for the mechanisms, 9 to 19. Length: gammas sets times
 * mechanisms, of an explicit source alone. Writes nothing. */
uint64_t chowderkite_check_settings(
    uint8_t schedule,
    double alpha,
    uint8_t clip_on,
    double clip,
    double gamma0,
    size_t pre_iterations,
    size_t num_legs,
    size_t leg_iterations,
    double gamma_low,
    double gamma_high,
    size_t stop_after_converged,
    uint8_t gamma_source,
    size_t sets,
    size_t mechanisms,
    const double *gammas, size_t gammas_len);

/* Decodes one syndrome (bytes 0 and 1), the checks in index order. A leg is leg zero or a relayed one.
 *
 * Results:
 *   leg_state, leg_steps, leg_weight   at least num_legs + 1 long, a leg each: 2 converged, 1 ran out, 0 not executed; its
 *                                      iterations; its weight. chowderkite_leg_record reads them
 *   rows          at least (num_legs + 1) times mechanisms: leg r's correction from r times mechanisms, 0s unless it
 *                 converged
 *   correction    mechanisms: the bits of least weight, of the earlier leg on ties; the last hard decision if none
 *                 converged
 *   posterior     mechanisms: at the end of the last leg
 *   counts        converged (1 or 0), executed legs, total iterations, message stores
 *   weight        the correction's, positive zero if none converged
 * Message stores are the messages that the iterations wrote, into c_to_v and into v_to_c, each as often as it was written. What
 * starts a leg is not counted, and a posterior is no message. There are as many in every order: under Flooding total iterations
 * times twice the edges, under CheckSerial total iterations times the sum of the edges and all squared mechanism degrees. 29
 * refuses exactly where this formula, at pre_iterations + num_legs * leg_iterations in the place of total iterations, passes
 * 2^64 - 1, which only CheckSerial's can.
 * What these results say of one another, so that a reader can hold a filed record to it, is docs/REFERENCE.md, "The best of
 * the legs".
 * Work: gamma and bias, mechanisms long; c_to_v and v_to_c, edges long. What leg lists and rows have beyond their least
 * length is kept.
 *
 * Refuses with 1, 2, 4, 7, 9 to 21, 27, 22, 29, 30, in this order. 27 comes with any number of legs. Refusal 30 leaves zeroes in
 * all results, floats positive. */
uint64_t chowderkite_decode(
    size_t checks,
    size_t mechanisms,
    size_t edges,
    const double *priors, size_t priors_len,
    const uint32_t *check_var, size_t check_var_len,
    const uint32_t *check_offset, size_t check_offset_len,
    const uint32_t *var_check, size_t var_check_len,
    const uint32_t *var_message, size_t var_message_len,
    const uint32_t *var_offset, size_t var_offset_len,
    uint8_t schedule,
    double alpha,
    uint8_t clip_on,
    double clip,
    double gamma0,
    size_t pre_iterations,
    size_t num_legs,
    size_t leg_iterations,
    double gamma_low,
    double gamma_high,
    size_t stop_after_converged,
    uint8_t gamma_source,
    size_t sets,
    const double *gammas, size_t gammas_len,
    const uint8_t *syndrome, size_t syndrome_len,
    uint64_t seed,
    uint8_t *leg_state, size_t leg_state_len,
    uint32_t *leg_steps, size_t leg_steps_len,
    double *leg_weight, size_t leg_weight_len,
    uint8_t *rows, size_t rows_len,
    uint8_t *correction, size_t correction_len,
    double *posterior, size_t posterior_len,
    double *gamma, size_t gamma_len,
    double *bias, size_t bias_len,
    double *c_to_v, size_t c_to_v_len,
    double *v_to_c, size_t v_to_c_len,
    uint64_t counts[4],
    double weight[1]);

/* As chowderkite_decode, the checks in the order that is handed in: order names each check once (23). Under CheckSerial it
 * also keeps the index order of any two checks that share a mechanism (24). Both are tested after 22 and before 29. An order
 * that passes changes no bit of any result, the message stores among them. */
uint64_t chowderkite_decode_in_order(
    size_t checks,
    size_t mechanisms,
    size_t edges,
    const double *priors, size_t priors_len,
    const uint32_t *check_var, size_t check_var_len,
    const uint32_t *check_offset, size_t check_offset_len,
    const uint32_t *var_check, size_t var_check_len,
    const uint32_t *var_message, size_t var_message_len,
    const uint32_t *var_offset, size_t var_offset_len,
    uint8_t schedule,
    double alpha,
    uint8_t clip_on,
    double clip,
    double gamma0,
    size_t pre_iterations,
    size_t num_legs,
    size_t leg_iterations,
    double gamma_low,
    double gamma_high,
    size_t stop_after_converged,
    uint8_t gamma_source,
    size_t sets,
    const double *gammas, size_t gammas_len,
    const uint8_t *syndrome, size_t syndrome_len,
    uint64_t seed,
    const uint32_t *order, size_t order_len,
    uint8_t *leg_state, size_t leg_state_len,
    uint32_t *leg_steps, size_t leg_steps_len,
    double *leg_weight, size_t leg_weight_len,
    uint8_t *rows, size_t rows_len,
    uint8_t *correction, size_t correction_len,
    double *posterior, size_t posterior_len,
    double *gamma, size_t gamma_len,
    double *bias, size_t bias_len,
    double *c_to_v, size_t c_to_v_len,
    double *v_to_c, size_t v_to_c_len,
    uint64_t counts[4],
    double weight[1]);

#define CHOWDERKITE_NOT_EXECUTED 0
#define CHOWDERKITE_RAN_OUT 1
#define CHOWDERKITE_CONVERGED 2

/* Reads a leg's record out of the leg lists: answers its state, and writes its iterations (0 if not executed) and its
 * weight (positive zero unless converged). A leg outside one of the lists, or with a state above 2, reads as not executed.
 * Refuses nothing. */
uint64_t chowderkite_leg_record(
    const uint8_t *leg_state, size_t leg_state_len,
    const uint32_t *leg_steps, size_t leg_steps_len,
    const double *leg_weight, size_t leg_weight_len,
    size_t leg,
    uint64_t iterations[1],
    double weight[1]);

/* One iteration, the checks in the order that is handed in, over messages and a posterior that go in and come back. It
 * takes every order that names each check once, those too that a decode refuses with 24. Lengths: gamma, posterior and
 * bias mechanisms; c_to_v and v_to_c edges; syndrome (bytes 0 and 1) and order checks. The bias is for work. A decode starts
 * with the posterior at the priors, and each of its legs with c_to_v at positive zero and with v_to_c at the priors, each
 * message at its mechanism's. Refuses with 1, 2, 4, 7, 9, 10, 20 to 23, 25, 30. Refusal 30 leaves positive zeroes in c_to_v,
 * v_to_c and posterior. */
uint64_t chowderkite_iteration(
    size_t checks,
    size_t mechanisms,
    size_t edges,
    const double *priors, size_t priors_len,
    const uint32_t *check_var, size_t check_var_len,
    const uint32_t *check_offset, size_t check_offset_len,
    const uint32_t *var_check, size_t var_check_len,
    const uint32_t *var_message, size_t var_message_len,
    const uint32_t *var_offset, size_t var_offset_len,
    uint8_t schedule,
    double alpha,
    uint8_t clip_on,
    double clip,
    const double *gamma, size_t gamma_len,
    const uint8_t *syndrome, size_t syndrome_len,
    const uint32_t *order, size_t order_len,
    double *c_to_v, size_t c_to_v_len,
    double *v_to_c, size_t v_to_c_len,
    double *posterior, size_t posterior_len,
    double *bias, size_t bias_len);

/* ---- record streams
 *
 * A record is a u32 payload length, a u16 kind and the payload, all little-endian; kind 1 is a model, 2 and 4 settings, 3 a
 * shot. Both kinds of settings have the same bytes: those of kind 4 mean gammas drawn by shot, those of kind 2, which were filed
 * before version 5, from the seed xor the leg. Neither says a clip, which is off. A session reads a stream byte by byte,
 * decodes its shots, and says what the program shots writes. Its room is 128 checks, 256 mechanisms, 512 edges and 16 relayed
 * legs. None of these calls refuses anything: what 40 to 45 refuse of a stream, the lines say. */

/* A session's words; its settings' floats stand beside them: alpha, gamma0, gamma_low, gamma_high and the clip, 0.0 for off. Who
 * only feeds a session need not look at them. */
enum chowderkite_session {
    CHOWDERKITE_SESSION_READER = 0,        /* eight words: the record's offset, how many of its bytes were taken, its
                                              payload length, its kind, and of a model checks, mechanisms, edges and
                                              the sum of its degrees */
    CHOWDERKITE_SESSION_MODEL_LENGTH = 8,  /* of the model's payload */
    CHOWDERKITE_SESSION_HAS_MODEL = 9,     /* not 0 once there is a model */
    CHOWDERKITE_SESSION_HAS_SETTINGS = 10, /* not 0 once there are settings */
    CHOWDERKITE_SESSION_SHOTS = 11,        /* the number of the next shot */
    CHOWDERKITE_SESSION_STOPPED = 12,      /* not 0 once a refusal has ended the run */
    CHOWDERKITE_SESSION_SAID = 13,         /* the length of the line that is to be written now, 0 for none */
    CHOWDERKITE_SESSION_SETTINGS = 14,     /* seven words: schedule, pre_iterations, num_legs, leg_iterations,
                                              stop_after_converged, gamma_source, sets */
    CHOWDERKITE_SESSION_CLIP_ON = 21       /* not 0 if the settings' clip is on */
};

/* How many words and floats a session has, what the payload of a record within the room has at most, and what a line has
 * room for. */
#define CHOWDERKITE_SESSION_WORDS 22
#define CHOWDERKITE_SESSION_FLOATS 5
#define CHOWDERKITE_MAX_PAYLOAD 5132
#define CHOWDERKITE_LINE 512

/* A session before the first byte of a stream. */
void chowderkite_session_new(
    size_t words[22],
    double floats[5]);

/* One byte of the stream. payload and model are lists of CHOWDERKITE_MAX_PAYLOAD bytes that stay with the session; what is to be
 * written now is the front of line, as long as words[CHOWDERKITE_SESSION_SAID] says. With shorter lists the session answers as
 * if what finds no room were not there. */
void chowderkite_take(
    size_t words[22],
    double floats[5],
    uint8_t byte,
    uint8_t *payload, size_t payload_len,
    uint8_t *model, size_t model_len,
    uint8_t line[512]);

/* The end of the stream: writes the last line and answers its length, 0 after a run that has ended before. */
size_t chowderkite_finish(
    const size_t words[22],
    const double floats[5],
    uint8_t line[512]);

#ifdef __cplusplus
}
#endif

#endif
