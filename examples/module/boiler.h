/* A boiler: what its sensors say, how it is heated, and what it warns of. */
#ifndef BOILER_H
#define BOILER_H

#include <stdbool.h>
#include <stdint.h>

#define LEAST_TEMPERATURE (-20)
#define GREATEST_TEMPERATURE 110
#define ZONES 4
#define BURNER 1 /* the number of its valve */

enum mode { MODE_OFF, MODE_HEATING, MODE_HOLDING, MODE_FAULT };

enum alarm { ALARM_NONE, ALARM_WARNING, ALARM_DANGER };

typedef struct {
  int16_t temperature; /* in degrees */
  uint16_t pressure;   /* in hundredths of a bar */
  bool valid;
} reading_t;

typedef struct {
  enum mode mode;
  int16_t target;
  uint8_t faults;
  reading_t last;
} boiler_t;

/* sensors.c */
int16_t calibrated(int16_t raw);
reading_t read_sensors(void);

/* control.c */
uint8_t burner_level(int16_t temperature, int16_t target);
void boiler_reset(int16_t target);
int boiler_step(void);

/* alarm.c */
enum alarm alarm_of(const reading_t *reading);
int count_hot(const uint8_t zones[ZONES], uint8_t limit);
bool may_start(enum alarm alarm, uint8_t faults, bool door_closed);

/* what the hardware gives, and a valve that says whether it moved */
int16_t adc_temperature(void);
uint16_t adc_pressure(void);
bool valve_open(uint8_t valve, uint8_t level);

#endif
