/* Frames of a CAN bus, and what a vehicle's control unit keeps of them. */
#ifndef CAN_H
#define CAN_H

#include <stdbool.h>
#include <stddef.h>
#include <stdint.h>

#define CAN_MAX_DATA 8u
#define AXLES 3
#define CAN_STANDARD_MASK 0x7FFu

#define ID_ENGINE 0x100u
#define ID_BRAKE 0x120u
#define ID_AXLES 0x1A0u
#define ID_DIAGNOSIS 0x7DFu

typedef struct {
  uint32_t id;
  bool extended;
  uint8_t length;
  uint8_t data[CAN_MAX_DATA];
} can_frame_t;

typedef enum {
  CAN_OK = 0,
  CAN_IGNORED,
  CAN_TOO_SHORT,
  CAN_BAD_CHECKSUM,
  CAN_BAD_COUNTER,
  CAN_OUT_OF_RANGE
} can_result_t;

typedef struct {
  uint8_t start;
  uint8_t bits;
  bool is_signed;
  int16_t factor;
  int16_t offset;
} signal_t;

typedef struct {
  int32_t speed;
  int32_t temperature;
  bool running;
} engine_t;

typedef struct {
  uint16_t pressure;
  bool pressed;
  uint8_t errors;
} brake_t;

typedef struct {
  engine_t engine;
  brake_t brake;
  int16_t axles[AXLES];
  uint8_t counters[2];
} vehicle_t;

#endif
