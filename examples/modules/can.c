/* Decodes CAN frames: signals are cut out of the data by a table, frames of the engine and the brake carry a counter and a
   checksum, and what is decoded is kept as the state of the vehicle. */
#include "can.h"

#define COUNT(table) (sizeof(table) / sizeof((table)[0]))
#define STORE(to, at, given) \
  do { \
    uint32_t word = (given); \
    (to)[(at)] = (uint8_t) word; \
    (to)[(at) + 1] = (uint8_t) (word >> 8); \
    (to)[(at) + 2] = (uint8_t) (word >> 16); \
    (to)[(at) + 3] = (uint8_t) (word >> 24); \
  } while (0)
#define IN_RANGE(value, low, high) ((value) >= (low) && (value) <= (high))

enum { SIGNAL_SPEED, SIGNAL_TEMPERATURE, SIGNAL_PRESSURE, SIGNAL_AXLE };

enum counter { COUNTER_ENGINE, COUNTER_BRAKE };

static const signal_t signals[] = {
  [SIGNAL_SPEED] = {.start = 0, .bits = 16, .is_signed = false, .factor = 1, .offset = 0},
  [SIGNAL_TEMPERATURE] = {16, 8, false, 1, -40},
  [SIGNAL_PRESSURE] = {4, 12, false, 2, 0},
  [SIGNAL_AXLE] = {0, 16, true, 1, 0},
};

static vehicle_t vehicle;
static uint32_t received, ignored;
static can_result_t last_error = CAN_OK;

/* what the bus gives next */
uint32_t bus_identifier(void);
uint32_t bus_word(void);

static void note(can_result_t result)
{
  received++;
  if (result == CAN_IGNORED)
    ignored++;
  else if (result != CAN_OK)
    last_error = result;
}

/* the raw bits of a signal, least significant byte first */
static uint32_t raw_bits(const can_frame_t *frame, uint8_t start, uint8_t bits)
{
  uint32_t value = 0;
  uint8_t at = start / 8u, shift = start % 8u;
  uint8_t done = 0;

  while (done < bits && at < CAN_MAX_DATA) {
    value |= (uint32_t) (frame->data[at++] >> shift) << done;
    done += 8u - shift;
    shift = 0;
  }
  return bits < 32 ? value & ((1u << bits) - 1u) : value;
}

static int32_t signal_value(const can_frame_t *frame, size_t which, uint8_t more)
{
  signal_t signal = signals[which % COUNT(signals)];
  uint32_t raw;
  int32_t value;

  raw = raw_bits(frame, signal.start + more, signal.bits);
  value = (int32_t) raw;
  if (signal.is_signed && (raw & (1u << (signal.bits - 1))))
    value -= (int32_t) (1u << signal.bits);
  return value * signal.factor + signal.offset;
}

static uint8_t checksum(const can_frame_t *frame)
{
  uint8_t sum = (uint8_t) (frame->id & 0xFF) ^ (uint8_t) (frame->id >> 8);

  for (uint8_t i = 0; i + 1 < frame->length; i++)
    sum ^= frame->data[i];
  return sum;
}

/* Whether the last two bytes are the checksum and the counter that is due. */
static can_result_t protected_frame(const can_frame_t *frame, enum counter which)
{
  uint8_t counter;

  if (frame->length < 4)
    return CAN_TOO_SHORT;
  if (checksum(frame) != frame->data[(frame->length - 1) & 7])
    return CAN_BAD_CHECKSUM;
  counter = frame->data[(frame->length - 2) & 7] & 0x0F;
  if (counter != (uint8_t) ((vehicle.counters[which] + 1) & 0x0F)) {
    vehicle.counters[which] = counter;
    return CAN_BAD_COUNTER;
  }
  vehicle.counters[which] = counter;
  return CAN_OK;
}

static can_result_t decode_engine(const can_frame_t *frame)
{
  engine_t engine = {0};
  can_result_t result;

  if ((result = protected_frame(frame, COUNTER_ENGINE)) != CAN_OK)
    return result;
  engine.speed = signal_value(frame, SIGNAL_SPEED, 0);
  engine.temperature = signal_value(frame, SIGNAL_TEMPERATURE, 0);
  if (!IN_RANGE(engine.speed, 0, 12000) || !IN_RANGE(engine.temperature, -40, 150))
    return CAN_OUT_OF_RANGE;
  engine.running = engine.speed > 300;
  vehicle.engine = engine;
  return CAN_OK;
}

static can_result_t decode_brake(const can_frame_t *frame)
{
  can_result_t result = protected_frame(frame, COUNTER_BRAKE);

  switch (result) {
  case CAN_OK:
    break;
  case CAN_BAD_COUNTER:
    if (++vehicle.brake.errors < 3)
      break;
    /* fall through */
  default:
    return result;
  }
  vehicle.brake.pressure = (uint16_t) signal_value(frame, SIGNAL_PRESSURE, 0);
  vehicle.brake.pressed = frame->data[0] & 1;
  if (vehicle.brake.pressed && vehicle.brake.pressure == 0)
    return CAN_OUT_OF_RANGE;
  return CAN_OK;
}

static can_result_t decode_axles(const can_frame_t *frame)
{
  int16_t axles[AXLES];
  int i;

  if (frame->length < 2 * AXLES)
    return CAN_TOO_SHORT;
  for (i = 0; i < AXLES; i++) {
    axles[i] = (int16_t) signal_value(frame, SIGNAL_AXLE, (uint8_t) (16 * i));
    if (!IN_RANGE(axles[i], -3000, 3000))
      goto out_of_range;
  }
  for (i = 0; i < AXLES; i++)
    vehicle.axles[i] = axles[i];
  return CAN_OK;

out_of_range:
  vehicle.axles[i % AXLES] = 0;
  return CAN_OUT_OF_RANGE;
}

static can_result_t decode(const can_frame_t *frame)
{
  if (frame->extended || frame->length > CAN_MAX_DATA)
    return CAN_IGNORED;
  switch (frame->id & CAN_STANDARD_MASK) {
  case ID_ENGINE:
    return decode_engine(frame);
  case ID_BRAKE:
    return decode_brake(frame);
  case ID_AXLES:
    return decode_axles(frame);
  default:
    return CAN_IGNORED;
  }
}

static can_frame_t received_frame(uint8_t length)
{
  can_frame_t frame = {.length = length, .extended = false};

  frame.id = bus_identifier();
  if (frame.id > CAN_STANDARD_MASK)
    frame.extended = true;
  STORE(frame.data, 0, bus_word());
  STORE(frame.data, 4, bus_word());
  return frame;
}

/* Receives one frame of a length. */
int can_receive(uint8_t length)
{
  can_frame_t frame;
  can_result_t result;

  frame = received_frame(length);
  result = decode(&frame);
  note(result);
  return (int) result;
}

/* A warning to show: 0 for none. */
int can_warning(int speed, int temperature, bool pressed)
{
  vehicle.engine = (engine_t) {speed, temperature, speed > 300};
  vehicle.brake.pressed = pressed;
  if (!vehicle.engine.running)
    return 0;
  if (vehicle.engine.temperature > 120 || (vehicle.engine.temperature > 105 && vehicle.engine.speed > 6000))
    return 2;
  return vehicle.brake.pressed && vehicle.engine.speed > 4000 ? 1 : 0;
}
