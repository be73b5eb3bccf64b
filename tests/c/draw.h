/* Draws from a fixed seed: the same on every machine and in every run. */
#ifndef DRAW_H
#define DRAW_H

#include <stdbool.h>
#include <stddef.h>
#include <stdint.h>

void draw_from(uint64_t seed);

/* 64 bits. */
uint64_t draw(void);

/* One of 0 to n-1. */
uint64_t below(uint64_t n);

/* One of from to to, both included. */
int between(int from, int to);

bool one_in(uint64_t n);

void fill_with_draws(uint8_t *bytes, size_t len);

#endif
