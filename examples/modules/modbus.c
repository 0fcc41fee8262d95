/* A server of a protocol like Modbus RTU: requests are read byte by byte, checked by a CRC, obeyed on tables of registers and
   coils, and answered, with exceptions as the protocol has them. */
#include <stdbool.h>
#include <stddef.h>
#include <stdint.h>

#define MAX_FRAME 12
#define REGISTERS 8
#define COILS 16
#define BANKS 2

#define HIGH(word) ((uint8_t) ((word) >> 8))
#define LOW(word) ((uint8_t) ((word) & 0xFF))
#define WORD(high, low) ((uint16_t) ((uint16_t) ((high) << 8) | (low)))

#define FUNCTION_READ_COILS 0x01
#define FUNCTION_READ_REGISTERS 0x03
#define FUNCTION_WRITE_COIL 0x05
#define FUNCTION_WRITE_REGISTER 0x06
#define FUNCTION_MASK_REGISTER 0x16
#define EXCEPTION_BIT 0x80

#ifdef STRICT
#define REQUIRE(condition, code) do { if (!(condition)) { exception = (code); goto failed; } } while (0)
#else
#define REQUIRE(condition, code) \
  if (!(condition)) { \
    exception = (code); \
    goto failed; \
  }
#endif

typedef enum exception {
  EXCEPTION_NONE,
  EXCEPTION_FUNCTION,
  EXCEPTION_ADDRESS,
  EXCEPTION_VALUE,
  EXCEPTION_DEVICE
} exception_t;

typedef struct frame {
  uint8_t bytes[MAX_FRAME];
  uint8_t length;
} frame_t;

typedef struct {
  uint8_t address;
  uint8_t function;
  uint16_t start;
  uint16_t count;
  uint16_t extra;
} request_t;

typedef struct {
  unsigned frames, errors, exceptions;
  struct { uint8_t function; exception_t exception; } last;
} statistics_t;

static uint16_t registers[BANKS][REGISTERS];
static uint8_t coils[COILS / 8];
static uint8_t bank;
static statistics_t statistics;
static frame_t reply;

static const uint8_t own_address = 17;

/* the next byte of the line, or -1 where it is silent */
int line_read(void);
/* hands a byte to the line */
void line_write(int byte);

static uint16_t crc_add(uint16_t crc, uint8_t byte)
{
  crc ^= byte;
#define CRC_BIT crc = crc & 1 ? (uint16_t) (crc >> 1) ^ 0xA001u : crc >> 1
  CRC_BIT; CRC_BIT; CRC_BIT; CRC_BIT;
  CRC_BIT; CRC_BIT; CRC_BIT; CRC_BIT;
#undef CRC_BIT
  return crc;
}

static uint16_t crc_of(const frame_t *frame, uint8_t length)
{
  uint16_t crc = 0xFFFF;
  uint8_t i = 0;

  while (i < length && i < MAX_FRAME)
    crc = crc_add(crc, frame->bytes[i++]);
  return crc;
}

static bool add(frame_t *frame, uint8_t byte)
{
  if (frame->length >= MAX_FRAME)
    return false;
  frame->bytes[frame->length++] = byte;
  return true;
}

static void add_word(frame_t *frame, uint16_t word)
{
  add(frame, HIGH(word));
  add(frame, LOW(word));
}

/* reads a request up to a silence; whether its CRC is right */
static bool receive(frame_t *frame)
{
  int byte;

  frame->length = 0;
  for (; (byte = line_read()) >= 0; ) {
    if (!add(frame, (uint8_t) byte))
      return false;
  }
  if (frame->length < 4)
    return false;
  return crc_of(frame, frame->length - 2) == WORD(frame->bytes[frame->length - 1], frame->bytes[frame->length - 2]);
}

static request_t parsed(const frame_t *frame)
{
  request_t request = {frame->bytes[0], frame->bytes[1]};

  if (frame->length >= 8) {
    request.start = WORD(frame->bytes[2], frame->bytes[3]);
    request.count = WORD(frame->bytes[4], frame->bytes[5]);
  }
  if (frame->length >= 10)
    request.extra = WORD(frame->bytes[6], frame->bytes[7]);
  return request;
}

static bool coil(unsigned number)
{
  return (coils[number / 8 % (COILS / 8)] >> (number % 8)) & 1;
}

static void set_coil(unsigned number, bool on)
{
  uint8_t mask = (uint8_t) (1u << (number % 8));

  if (on)
    coils[number / 8 % (COILS / 8)] |= mask;
  else
    coils[number / 8 % (COILS / 8)] &= (uint8_t) ~mask;
}

static uint16_t register_at(unsigned number)
{
  return registers[bank % BANKS][number % REGISTERS];
}

static void answer_coils(request_t request)
{
  uint8_t packed = 0;

  for (unsigned i = 0; i < request.count; i++)
    packed |= (uint8_t) (coil(request.start + i) << i);
  add(&reply, 1);
  add(&reply, packed);
}

/* obeys a request; what it answers stands in the reply */
static exception_t obey(request_t request)
{
  exception_t exception = EXCEPTION_NONE;

  reply.length = 0;
  add(&reply, own_address);
  add(&reply, request.function);
  switch (request.function) {
  case FUNCTION_READ_COILS:
    REQUIRE(request.count >= 1 && request.count <= 8, EXCEPTION_VALUE);
    REQUIRE(request.start + request.count <= COILS, EXCEPTION_ADDRESS);
    answer_coils(request);
    break;
  case FUNCTION_READ_REGISTERS:
    REQUIRE(request.count >= 1 && request.count <= 3, EXCEPTION_VALUE);
    REQUIRE(request.start + request.count <= REGISTERS, EXCEPTION_ADDRESS);
    add(&reply, (uint8_t) (2 * request.count));
    for (unsigned i = 0; i < request.count; i++)
      add_word(&reply, register_at(request.start + i));
    break;
  case FUNCTION_WRITE_COIL:
    REQUIRE(request.count == 0 || request.count == 0xFF00, EXCEPTION_VALUE);
    REQUIRE(request.start < COILS, EXCEPTION_ADDRESS);
    set_coil(request.start, request.count != 0);
    add_word(&reply, request.start), add_word(&reply, request.count);
    break;
  case FUNCTION_WRITE_REGISTER:
    REQUIRE(request.start <= REGISTERS, EXCEPTION_ADDRESS);
    if (request.start == REGISTERS) {
      REQUIRE(request.count < BANKS, EXCEPTION_VALUE);
      bank = (uint8_t) request.count;
    } else {
      registers[bank % BANKS][request.start] = request.count;
    }
    add_word(&reply, request.start), add_word(&reply, request.count);
    break;
  case FUNCTION_MASK_REGISTER:
    REQUIRE(request.start < REGISTERS, EXCEPTION_ADDRESS);
    registers[bank % BANKS][request.start] &= request.count;
    registers[bank % BANKS][request.start] |= request.extra & (uint16_t) ~request.count;
    break;
  default:
    REQUIRE(false, EXCEPTION_FUNCTION);
  }
  return EXCEPTION_NONE;

failed:
  reply.bytes[1] |= EXCEPTION_BIT;
  add(&reply, (uint8_t) exception);
  statistics.last.function = request.function;
  statistics.last.exception = exception;
  statistics.exceptions++;
  return exception;
}

static void send(void)
{
  uint16_t crc = crc_of(&reply, reply.length);

  add(&reply, LOW(crc));
  add(&reply, HIGH(crc));
  for (int i = 0; i < reply.length; i++)
    line_write(reply.bytes[i]);
}

/* Serves one request; a negative number where there was none for this device, else the exception. */
int modbus_serve(void)
{
  frame_t frame;
  request_t request;
  exception_t exception;

  if (!receive(&frame)) {
    statistics.errors++;
    return -1;
  }
  statistics.frames++;
  request = parsed(&frame);
  if (request.address != own_address && request.address != 0)
    return -2;
  exception = obey(request);
  if (request.address != 0)
    send();
  return (int) exception;
}

/* Obeys a request that is given; the exception, or the length of the reply behind 16. */
int modbus_obey(uint8_t function, uint16_t start, uint16_t count, uint16_t extra)
{
  request_t request = {own_address, function, start, count, extra};
  exception_t exception = obey(request);

  return exception != EXCEPTION_NONE ? (int) exception : 16 + reply.length;
}
