/* The tables. Exits 1 only when the two collectors differ; no time is judged. */
#include <stdio.h>
#include <stdlib.h>

#include "images.h"
#include "machine.h"
#include "measure.h"
#include "product.h"

enum { REPETITIONS = 9, FULL = HEAP_MOST };

typedef struct {
    double product, worst; /* product: of all ratios */
    int count, differ;
} summary;

static const summary nothing = {1, 0, 0, 0};

static void add(summary *s, double ratio)
{
    s->product *= ratio;
    s->count++;
    if (ratio > s->worst)
        s->worst = ratio;
}

/* Whether both agree, and on the refusal that the image was made for. */
static int expected(const areas *image, uint32_t refusal, const char *name)
{
    peer_collected answer;
    if (!agree(image, &answer)) {
        printf("%-34s THE ANSWERS DIFFER\n", name);
        return 0;
    }
    if (answer.refusal != refusal) {
        printf("%-34s refused %u, made for %u\n", name, answer.refusal, refusal);
        return 0;
    }
    return 1;
}

static void row(const areas *image, const char *name, uint32_t refusal,
                int repetitions, summary *s)
{
    if (!expected(image, refusal, name)) {
        s->differ = 1;
        return;
    }
    const figures f = measure(image, repetitions);
    printf("%-34s %8zu %10.3f %10.3f %7.2f\n", name, image->heap_len, f.peer,
           f.product, f.product / f.peer);
    add(s, f.product / f.peer);
}

static void heading(const char *title)
{
    printf("\n%-34s %8s %7s ms %7s ms %7s\n", title, "cells", peer_name,
           product_name, "ratio");
}

static double power(double base, int exponent)
{
    double result = 1;
    while (exponent-- > 0)
        result *= base;
    return result;
}

/* The geometric mean, by halving. It lies between 0 and the worst ratio. The
   mathematical library is not used: where programs for x86-64 are made on
   another machine, its static form may not link. */
static double mean(const summary *s)
{
    double low = 0, high = s->worst;
    for (int i = 0; i < 60; i++) {
        const double middle = (low + high) / 2;
        if (power(middle, s->count) < s->product)
            low = middle;
        else
            high = middle;
    }
    return high;
}

static void conclude(const char *title, const summary *s)
{
    if (s->count)
        printf("%s: geometric mean %.3f, worst %.3f, over %d images\n", title,
               mean(s), s->worst, s->count);
}

static void sound_table(areas *image, int repetitions, summary *s)
{
    heading("sound");
    for (size_t i = 0; i < kind_count; i++) {
        kinds[i].make(image, FULL);
        row(image, kinds[i].name, 0, repetitions, s);
    }
    conclude("sound", s);
}

static void broken_table(areas *image, const damage *by, int repetitions,
                         summary *s)
{
    char title[64];
    snprintf(title, sizeof title, "%u: %s", by->refusal, by->name);
    heading(title);
    for (size_t i = 0; i < kind_count; i++) {
        kinds[i].make(image, FULL);
        by->spoil(image);
        row(image, kinds[i].name, by->refusal, repetitions, s);
    }
}

/* The words that a collection has to look at. */
static double words_of(const areas *image)
{
    return (double)(image->heap_len + image->stack_len + image->trail_len);
}

enum { SIZES = 3 }; /* each four times the one before, the last one FULL */

static void growth_row(areas *image, const kind *of, int repetitions,
                       summary *s)
{
    double peer[SIZES], product[SIZES];
    for (int i = 0; i < SIZES; i++) {
        of->make(image, FULL >> 2 * (SIZES - 1 - i));
        if (!expected(image, 0, of->name))
            s->differ = 1;
        const figures f = measure(image, repetitions);
        peer[i] = f.peer * 1e6 / words_of(image);
        product[i] = f.product * 1e6 / words_of(image);
    }
    printf("%-34s %6.2f %6.2f %6.2f   %6.2f %6.2f %6.2f\n", of->name, peer[0],
           peer[1], peer[2], product[0], product[1], product[2]);
}

static void growth_table(areas *image, int repetitions, summary *s)
{
    printf("\n%-34s %20s   %20s\n", "", peer_name, product_name);
    printf("%-34s %6s %6s %6s   %6s %6s %6s\n", "ns a word, by size", "64 K",
           "256 K", "1 M", "64 K", "256 K", "1 M");
    for (size_t i = 0; i < kind_count; i++)
        growth_row(image, kinds + i, repetitions, s);
}

int main(int count, char **words)
{
    const int asked = count > 1 ? atoi(words[1]) : REPETITIONS;
    const int repetitions = asked > 0 ? asked : REPETITIONS;
    areas image = new_areas();
    summary sound = nothing, broken = nothing;
    sound_table(&image, repetitions, &sound);
    for (size_t i = 0; i < damage_count; i++)
        broken_table(&image, damages + i, repetitions, &broken);
    conclude("broken", &broken);
    growth_table(&image, repetitions, &sound);
    return sound.differ || broken.differ;
}
