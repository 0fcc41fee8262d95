/* Four faults are planted in this module: a zero divisor, an index one too far, a shift by the width, and a signed overflow.
   fshell adapt --check-overflow brings it into the profile, and fshell rte finds these four; all its other operations never fail. */
#include <stdint.h>

#define CHANNELS 4

typedef struct {
  int32_t gain;
  int32_t offset;
} channel_t;

static const channel_t channels[CHANNELS] = {{3, -10}, {5, 20}, {-7, 0}, {40000, 1000}};
static int32_t seen[CHANNELS];

/* A raw value of a channel, scaled. The last channel's gain is too large for the greatest values. */
static int32_t scaled(uint16_t raw, uint8_t channel)
{
  int32_t gain = channels[channel].gain; /* fails */
  int32_t product = raw * gain; /* fails */

  return product + channels[channel].offset;
}

/* The mean of what was seen since the begin. */
static int32_t mean(uint8_t count)
{
  int32_t sum = 0;

  for (uint8_t i = 0; i < CHANNELS; i++)
    sum += seen[i] / 8;
  return sum / count; /* fails */
}

/* A mask of so many bits. */
static int32_t mask(uint8_t bits)
{
  if (bits < 31)
    return (1 << bits) - 1;
  return (int32_t) ((1u << bits) - 1u); /* fails */
}

int32_t measure(uint16_t raw, uint8_t channel, uint8_t count)
{
  int32_t result = 0;

  if (channel <= CHANNELS)
    result = scaled(raw, channel);
  if (count < CHANNELS) {
    seen[count] = result;
    result = mean(count);
  } else if (count <= 32) {
    result &= mask(count);
  }
  return result;
}
