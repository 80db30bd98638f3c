/* many_hits PERIOD ROUNDS SEED SAMPLES TAIL AMPLITUDE > RECORDING
 *
 * A recording with as many hits in its first frame as a search finds: the hardest input known for lte_cli.
 *
 *   PERIOD     samples after which the signal repeats, 128 to 65,536
 *   ROUNDS     how often it is bettered
 *   SEED       a number, where the search begins
 *   SAMPLES    length of the recording
 *   TAIL       what stands behind the samples that hits of the first frame see: noise, silence, tones, or same (no
 *              change)
 *   AMPLITUDE  greatest component, up to 32,767
 *
 * The metric of a place is the correlation with a primary synchronisation signal, squared, by the energies of both.
 * A hit is a greatest metric of its neighbourhood, above a quarter. The signal begins as noise; each round moves it
 * along the gradient of a sum of soft steps, one for each greatest metric, with the step sizes of the method "Adam".
 * The round with most hits is written. 256 4000 44 gives 1,950 hits, 256 4000 1 gives 1,875, in a second.
 *
 * cc -O2 -ffp-contract=off many_hits.c -lm: so compiled the bytes are the same by gcc and clang on x86-64.
 */
#include <complex.h>
#include <math.h>
#include <stdint.h>
#include <stdio.h>
#include <stdlib.h>
#include <string.h>

enum { ROOTS = 3, LENGTH = 128, NEAR = 9, SEEN = 19474, LONGEST = 65536 };

static const int root_numbers[ROOTS] = {25, 29, 34};
static const double PI = 3.14159265358979323846;

typedef struct {
    int place, root;
    float metric;
} Peak;

static int period;
static float complex wave[ROOTS][LENGTH];
static float wave_energy[ROOTS];
static float complex signal[LONGEST + LENGTH], best[LONGEST];
static float energy[LONGEST];
static float complex correlation[ROOTS][LONGEST];
static float metric[ROOTS][LONGEST];
static Peak peaks[ROOTS * LONGEST];

/* xorshift64, as a number from 0 up to 1 */
static uint64_t random_state;

static double random_number(void)
{
    random_state ^= random_state << 13;
    random_state ^= random_state >> 7;
    random_state ^= random_state << 17;
    return (random_state >> 11) / 9007199254740992.0;
}

static float size_squared(float complex value)
{
    return crealf(value) * crealf(value) + cimagf(value) * cimagf(value);
}

/* The primary synchronisation signals in time (TS 36.211 section 6.11.1). */
static void make_waves(void)
{
    for (int root = 0; root < ROOTS; root++)
        for (int n = 0; n < LENGTH; n++) {
            double complex sum = 0;
            for (int i = 0; i < 62; i++) {
                int product = i < 31 ? i * (i + 1) : (i + 1) * (i + 2);
                int subcarrier = i < 31 ? i - 31 : i - 30;
                double phase = -PI * root_numbers[root] * product / 63.0;
                sum += cexp(I * (phase + 2 * PI * subcarrier * n / 128.0));
            }
            wave[root][n] = sum / 8;
            wave_energy[root] += cabs(sum / 8) * cabs(sum / 8);
        }
}

/* energy[t]: of the samples from t to t + 127 */
static void measure_energies(void)
{
    double sum = 0;
    for (int i = 0; i < LENGTH; i++)
        sum += size_squared(signal[i]);
    for (int t = 0; t < period; t++) {
        energy[t] = sum;
        float complex next = signal[(t + LENGTH) % period], last = signal[t];
        sum += size_squared(next) - crealf(last) * crealf(last) - cimagf(last) * cimagf(last);
    }
}

static void measure(void)
{
    memcpy(signal + period, signal, (LENGTH - 1) * sizeof *signal);
    measure_energies();
    for (int root = 0; root < ROOTS; root++)
        for (int t = 0; t < period; t++) {
            float real = 0, imaginary = 0;
            for (int n = 0; n < LENGTH; n++) {
                float x = crealf(signal[t + n]), y = cimagf(signal[t + n]);
                float c = crealf(wave[root][n]), s = cimagf(wave[root][n]);
                real += x * c + y * s;
                imaginary += y * c - x * s;
            }
            correlation[root][t] = real + I * imaginary;
            metric[root][t] = (real * real + imaginary * imaginary) / (energy[t] * wave_energy[root]);
        }
}

/* Whether no metric within nine places is greater, and none before is as great. */
static int is_peak(const float *row, int t)
{
    for (int d = 1; d <= NEAR; d++)
        if (row[(t + d) % period] > row[t] || row[(t + period - d) % period] >= row[t])
            return 0;
    return 1;
}

/* Fills `peaks`, and tells how many of them are hits. */
static int find_peaks(int *count)
{
    int hits = 0;
    *count = 0;
    for (int root = 0; root < ROOTS; root++)
        for (int t = 0; t < period; t++)
            if (is_peak(metric[root], t)) {
                peaks[(*count)++] = (Peak){t, root, metric[root][t]};
                hits += metric[root][t] >= 0.2505;
            }
    return hits;
}

/* The gradient of the sum of soft steps over the peaks; the smaller `width`, the steeper is a step. */
static void find_gradient(int count, float width, float complex *gradient)
{
    static float complex pull[LONGEST + 2 * LENGTH];
    static float change[LONGEST + 2 * LENGTH], weight[LONGEST];
    memset(pull, 0, sizeof pull);
    memset(change, 0, sizeof change);
    memset(weight, 0, sizeof weight);
    for (int i = 0; i < count; i++) {
        int t = peaks[i].place, root = peaks[i].root;
        float step = 1 / (1 + expf(-(peaks[i].metric - 0.253f) / width)), slope = step * (1 - step) / width;
        if (slope < 1e-6)
            continue;
        float complex factor = slope * correlation[root][t] / (energy[t] * wave_energy[root]);
        for (int n = 0; n < LENGTH; n++)
            pull[t + n] += factor * wave[root][n];
        float part = slope * peaks[i].metric / energy[t];
        change[t] += part;
        change[t + LENGTH] -= part;
    }
    for (int t = 0; t < LENGTH; t++)
        pull[t] += pull[period + t];
    float sum = 0;
    for (int t = 0; t < period + LENGTH; t++) {
        sum += change[t];
        weight[t % period] += sum;
    }
    for (int t = 0; t < period; t++)
        gradient[t] = pull[t] - weight[t] * signal[t];
}

static void move_along(const float complex *gradient, float rate)
{
    static float complex mean[LONGEST];
    static float mean_square[LONGEST];
    for (int t = 0; t < period; t++) {
        mean[t] = 0.9f * mean[t] + 0.1f * gradient[t];
        mean_square[t] = 0.99f * mean_square[t] + 0.01f * size_squared(gradient[t]);
        signal[t] += rate * mean[t] / (sqrtf(mean_square[t]) + 1e-9f);
    }
}

static void scale(void)
{
    double sum = 0;
    for (int t = 0; t < period; t++)
        sum += size_squared(signal[t]);
    float factor = sqrt(period / sum) * 0.5;
    for (int t = 0; t < period; t++)
        signal[t] *= factor;
}

/* Leaves the signal with most hits in `best`, and tells how many a period has. */
static int search(int rounds)
{
    static float complex gradient[LONGEST];
    int most = 0, count;
    for (int t = 0; t < period; t++) {
        double real = random_number() - .5;
        double imaginary = random_number() - .5;
        signal[t] = real + I * imaginary;
    }
    for (int round = 0; round < rounds; round++) {
        measure();
        int hits = find_peaks(&count);
        if (hits > most) {
            most = hits;
            memcpy(best, signal, period * sizeof *best);
        }
        find_gradient(count, 0.004 + 0.05 * (1 - (float)round / rounds), gradient);
        move_along(gradient, 0.02f * (1 - 0.9f * round / rounds));
        scale();
    }
    return most;
}

/* Three steady tones, each on a subcarrier of its own. */
static float complex tones_at(size_t t)
{
    static const int subcarriers[3] = {-29, -2, 19};
    float complex sum = 0;
    for (int i = 0; i < 3; i++)
        sum += cexp(I * (2 * PI * ((long)t % LENGTH * subcarriers[i] % LENGTH) / LENGTH));
    return sum / 3;
}

static void write_sample(int16_t real, int16_t imaginary)
{
    unsigned short i = real, q = imaginary;
    putchar(i & 255);
    putchar(i >> 8);
    putchar(q & 255);
    putchar(q >> 8);
}

static void write_recording(size_t samples, char tail, float amplitude)
{
    float greatest = 0;
    for (int t = 0; t < period; t++)
        greatest = fmaxf(greatest, fmaxf(fabsf(crealf(best[t])), fabsf(cimagf(best[t]))));
    for (size_t t = 0; t < samples; t++)
        if (t < SEEN || tail == 'a') {
            float complex value = best[t % period];
            write_sample(lrintf(crealf(value) * amplitude / greatest), lrintf(cimagf(value) * amplitude / greatest));
        } else if (tail == 'n') {
            double real = random_number() - .5;
            double imaginary = random_number() - .5;
            write_sample(real * amplitude, imaginary * amplitude);
        } else if (tail == 't') {
            float complex value = tones_at(t) * amplitude;
            write_sample(lrintf(crealf(value)), lrintf(cimagf(value)));
        } else
            write_sample(0, 0);
}

/* The letter of a tail's name; 0 where it is none. */
static char tail_of(const char *name)
{
    if (!strcmp(name, "same"))
        return 'a';
    if (!strcmp(name, "noise") || !strcmp(name, "silence") || !strcmp(name, "tones"))
        return name[0];
    return 0;
}

int main(int count, char **words)
{
    char tail = count == 7 ? tail_of(words[5]) : 0;
    if (tail)
        period = atoi(words[1]);
    if (!tail || period < LENGTH || period > LONGEST) {
        fprintf(stderr, "usage: many_hits PERIOD ROUNDS SEED SAMPLES noise|silence|tones|same AMPLITUDE\n");
        return 2;
    }
    random_state = 88172645463325252ull ^ (uint64_t)atoi(words[3]) * 0x9E3779B97F4A7C15ull;
    for (int i = 0; i < 20; i++)
        random_number();
    make_waves();
    int most = search(atoi(words[2]));
    fprintf(stderr, "%d hits in %d samples: about %.0f in a frame\n", most, period, most * 19200.0 / period);
    write_recording(atol(words[4]), tail, atof(words[6]));
    return 0;
}
