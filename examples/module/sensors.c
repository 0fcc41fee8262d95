#include "boiler.h"

/* one point of the sensor's curve */
typedef struct {
  int16_t raw;
  int16_t degrees;
} point_t;

#define POINTS (sizeof(curve) / sizeof(curve[0]))

static const point_t curve[] = {
  {0, LEAST_TEMPERATURE},
  {200, 20},
  {600, 70},
  {1000, GREATEST_TEMPERATURE},
};

/* The temperature of a raw value, by the line between two points of the curve. */
int16_t calibrated(int16_t raw)
{
  if (raw <= curve[0].raw)
    return LEAST_TEMPERATURE;
  for (uint8_t i = 1; i < POINTS; i++) {
    if (raw <= curve[i].raw) {
      int16_t above = curve[i - 1].degrees;
      int16_t rise = curve[i].degrees - above;
      int16_t width = curve[i].raw - curve[i - 1].raw;
      return above + (raw - curve[i - 1].raw) * rise / width;
    }
  }
  return GREATEST_TEMPERATURE;
}

reading_t read_sensors(void)
{
  reading_t reading = {0};
  int16_t raw = adc_temperature();

  reading.pressure = adc_pressure();
  reading.valid = raw >= 0 && raw <= 1000 && reading.pressure <= 400;
  if (reading.valid)
    reading.temperature = calibrated(raw);
  return reading;
}
