/* A PID controller in fixed point, with a limited integral, a filter of the measured value, a ramp of the setpoint, and a
   watch that stops it where the sensor fails. Values have 8 bits behind the point. */
#include <assert.h>
#include <limits.h>
#include <stdbool.h>
#include <stdint.h>

#define FRACTION_BITS 8
#define ONE (1 << FRACTION_BITS)
#define FIXED(whole, percent) ((whole) * ONE + (percent) * ONE / 100)
#define CLAMP(value, low, high) ((value) < (low) ? (low) : ((value) > (high) ? (high) : (value)))
#define ABSOLUTE(value) ((value) < 0 ? -(value) : (value))

#ifndef CHANNELS
#define CHANNELS 2
#endif
#define HISTORY 4

typedef int32_t fixed_t;

typedef struct {
  fixed_t proportional, integral, derivative;
} gains_t;

typedef struct {
  fixed_t low, high;
} limits_t;

typedef struct {
  gains_t gains;
  limits_t output;
  fixed_t sum;
  fixed_t last_error;
  fixed_t setpoint;
  bool saturated;
} controller_t;

typedef enum {
  STATE_OFF,
  STATE_RAMP,
  STATE_HOLD,
  STATE_FAULT
} state_t;

typedef struct {
  controller_t controller;
  state_t state;
  fixed_t history[HISTORY];
  uint8_t next;
  uint8_t faults;
} channel_t;

static const gains_t slow = {FIXED(1, 50), FIXED(0, 10), 0};
static const gains_t fast = {
  .proportional = FIXED(3, 0),
  .integral = FIXED(0, 50),
  .derivative = FIXED(0, 25),
};

static channel_t heater, fan;
static uint16_t steps[CHANNELS][STATE_FAULT + 1];

/* the sensor of a channel, in tenths of a degree */
int16_t sensor_read(int channel);
/* hands a value to the actuator of a channel */
void actuator_write(int channel, int value);

static fixed_t multiply(fixed_t a, fixed_t b)
{
  int64_t product = (int64_t) a * b;

  return (fixed_t) CLAMP(product >> FRACTION_BITS, (int64_t) INT_MIN, (int64_t) INT_MAX);
}

static void controller_init(controller_t *c, gains_t gains, fixed_t low, fixed_t high)
{
  limits_t output = {low, high};

  c->gains = gains;
  c->output = output;
  c->sum = c->last_error = 0;
  c->setpoint = 0;
  c->saturated = false;
}

/* One step: the output for a measured value. */
static fixed_t controller_step(controller_t *c, fixed_t measured)
{
  fixed_t error = c->setpoint - measured;
  fixed_t change, output, wanted;

  change = error - c->last_error;
  c->last_error = error;
  if (!c->saturated || (error < 0) != (c->sum < 0))
    c->sum = CLAMP(c->sum + multiply(error, c->gains.integral), c->output.low, c->output.high);
  wanted = multiply(error, c->gains.proportional) + c->sum + multiply(change, c->gains.derivative);
  output = CLAMP(wanted, c->output.low, c->output.high);
  c->saturated = output != wanted;
  return output;
}

/* moves the setpoint towards its target; whether it is there */
static bool ramp(controller_t *c, fixed_t target, fixed_t step)
{
  fixed_t left = target - c->setpoint;

  if (ABSOLUTE(left) <= step) {
    c->setpoint = target;
    return true;
  }
  c->setpoint += left > 0 ? step : -step;
  return false;
}

/* the mean of the last values, the new one among them */
static fixed_t filtered(channel_t *channel, fixed_t value)
{
  fixed_t sum = 0;

  channel->history[channel->next++ % HISTORY] = value;
  sum += channel->history[0];
  sum += channel->history[1];
  sum += channel->history[2];
  sum += channel->history[3];
  return sum / HISTORY;
}

static bool plausible(int16_t raw)
{
  return raw > -500 && raw < 3000;
}

static fixed_t channel_step(channel_t *channel, int number, fixed_t target)
{
  int16_t raw = sensor_read(number);
  fixed_t measured, output = 0;

  steps[number & 1][channel->state]++;
  if (!plausible(raw)) {
    if (channel->faults++ >= 2) {
      channel->state = STATE_FAULT;
      channel->faults = 2;
    }
    goto done;
  }
  channel->faults = 0;
  measured = filtered(channel, (fixed_t) raw * ONE / 10);
  switch (channel->state) {
  case STATE_OFF:
    if (target != 0)
      channel->state = STATE_RAMP;
    break;
  case STATE_RAMP:
    if (ramp(&channel->controller, target, FIXED(2, 0)))
      channel->state = STATE_HOLD;
    output = controller_step(&channel->controller, measured);
    break;
  case STATE_HOLD:
    if (ABSOLUTE(target - channel->controller.setpoint) > FIXED(5, 0))
      channel->state = STATE_RAMP;
    output = controller_step(&channel->controller, measured);
    break;
  case STATE_FAULT:
    break;
  }
done:
  actuator_write(number, output);
  return output;
}

/* Puts both channels into their first state. */
void pid_init(void)
{
  controller_init(&heater.controller, slow, 0, FIXED(100, 0));
  controller_init(&fan.controller, fast, FIXED(-20, 0), FIXED(100, 0));
  heater.state = fan.state = STATE_OFF;
}

/* So many steps of both channels to a target in degrees; the state of the heater behind them. */
int pid_run(int count, int8_t target)
{
  fixed_t last = 0;

  pid_init();
  while (count-- > 0) {
    last = channel_step(&heater, 0, target * ONE);
    if (heater.state == STATE_FAULT)
      break;
    if (channel_step(&fan, 1, FIXED(20, 0)) < 0 && last > 0)
      return -1;
  }
  assert(last >= 0);
  return (int) heater.state;
}

/* One step of a controller from a state of its own. */
int pid_step(int16_t setpoint, int16_t measured, bool quick)
{
  controller_t c;

  controller_init(&c, quick ? fast : slow, FIXED(-10, 0), FIXED(10, 0));
  c.setpoint = setpoint;
  return controller_step(&c, measured);
}
