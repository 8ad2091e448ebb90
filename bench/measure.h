/* Both collectors on copies of one image: first whether they agree, then how
   long each takes. */
#ifndef MEASURE_H
#define MEASURE_H

#include "images.h"
#include "peer.h"

/* Areas of full room; aborts when there is no memory. */
areas new_areas(void);

typedef struct {
    double peer, product; /* milliseconds of CPU time, the lowest */
} figures;

/* Whether both give the same answer and leave the same words everywhere, the
   work words included. Answers what the peer answered through answer. */
int agree(const areas *image, peer_collected *answer);

figures measure(const areas *image, int repetitions);

#endif
