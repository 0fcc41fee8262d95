/* Lines from a serial port: bytes go through ring buffers that stand behind a pointer, and are put together to commands. */
#include <stdbool.h>
#include <stddef.h>
#include <stdint.h>

#define RING_SIZE 16u
#define RING_MASK (RING_SIZE - 1u)
#define LINE_SIZE 8
#define CR '\r'
#define LF '\n'

#define IS_DIGIT(c) ((c) >= '0' && (c) <= '9')
#define TO_UPPER(c) (((c) >= 'a' && (c) <= 'z') ? (c) - 'a' + 'A' : (c))

struct ring {
  uint8_t data[RING_SIZE];
  uint16_t head;
  uint16_t tail;
  bool overrun;
};

struct line {
  char text[LINE_SIZE];
  uint8_t length;
};

enum command { COMMAND_NONE, COMMAND_SET, COMMAND_GET, COMMAND_RESET, COMMAND_BAD = -1 };

static struct ring rx, tx;
static struct line line;
static int value;
static unsigned errors;

/* a byte of the port, or a negative number where there is none */
int port_read(void);
/* whether the port can take a byte */
bool port_ready(void);

static unsigned ring_count(const struct ring *ring)
{
  return (ring->head - ring->tail) & 0xFFFFu;
}

static bool ring_put(struct ring *ring, uint8_t byte)
{
  if (ring == NULL)
    return false;
  if (ring_count(ring) >= RING_SIZE) {
    ring->overrun = true;
    return false;
  }
  ring->data[ring->head++ & RING_MASK] = byte;
  return true;
}

static bool ring_get(struct ring *ring, uint8_t *byte)
{
  if (ring->head == ring->tail)
    return false;
  *byte = ring->data[ring->tail++ & RING_MASK];
  return true;
}

static void ring_clear(struct ring *ring)
{
  ring->head = ring->tail = 0;
  ring->overrun = false;
}

/* takes what the port has, at most so many bytes */
static int receive(int most)
{
  int c, count = 0;

  while (count < most && (c = port_read()) >= 0) {
    if (!ring_put(&rx, (uint8_t) c))
      break;
    count++;
  }
  return count;
}

static void send(uint8_t byte)
{
  bool done = ring_put(&tx, byte);

  if (!done)
    errors++;
}

static void send_number(int number)
{
  uint8_t digits[6];
  int count = 0;
  unsigned rest = number < 0 ? 0u - (unsigned) number : (unsigned) number;

  if (number < 0)
    send('-');
  do {
    digits[count++] = (uint8_t) ("0123456789"[rest % 10]);
    rest /= 10;
  } while (rest > 0 && count < 6);
  while (count > 0)
    send(digits[--count]);
  send(CR), send(LF);
}

/* the number behind a command, and whether there is one */
static bool number_at(const struct line *from, int at, int *number)
{
  bool any = false, minus = false;
  int result = 0;

  if (at < from->length && from->text[at] == '-')
    minus = true, at++;
  for (; at < from->length; at++) {
    char c = from->text[at];
    if (!IS_DIGIT(c))
      return false;
    result = result * 10 + (c - '0');
    any = true;
  }
  *number = minus ? -result : result;
  return any;
}

static enum command command_of(const struct line *from, int *number)
{
  if (from->length == 0)
    return COMMAND_NONE;
  switch (TO_UPPER(from->text[0])) {
  case 'S':
    return number_at(from, 1, number) ? COMMAND_SET : COMMAND_BAD;
  case 'G':
    return from->length == 1 ? COMMAND_GET : COMMAND_BAD;
  case 'R':
    return COMMAND_RESET;
  default:
    return COMMAND_BAD;
  }
}

static enum command obey(void)
{
  int number = 0;
  enum command command = command_of(&line, &number);

  switch (command) {
  case COMMAND_SET:
    value = number;
    break;
  case COMMAND_GET:
    send_number(value);
    break;
  case COMMAND_RESET:
    ring_clear(&rx);
    ring_clear(&tx);
    value = 0;
    break;
  case COMMAND_BAD:
    errors++;
    break;
  default:
    break;
  }
  line.length = 0;
  return command;
}

/* puts bytes together to a line; what the line's command was */
static enum command assemble(void)
{
  uint8_t byte;

  while (ring_get(&rx, &byte)) {
    if (byte == LF)
      return obey();
    if (byte == CR)
      continue;
    if (line.length >= LINE_SIZE) {
      line.length = 0;
      errors++;
      continue;
    }
    line.text[line.length++] = (char) byte;
  }
  return COMMAND_NONE;
}

/* One turn of the main loop. */
int uart_poll(int most)
{
  int got = receive(most);
  enum command command = assemble();
  uint8_t byte;

  while (ring_count(&tx) > 0 && port_ready())
    if (!ring_get(&tx, &byte))
      break;
  return got > 0 ? (int) command : -2;
}

/* How full the buffers are. */
unsigned uart_load(void)
{
  unsigned load = ring_count(&rx) << 8 | ring_count(&tx);

  return rx.overrun || tx.overrun ? load | 0x8000u : load;
}

/* The command of a line of three characters. */
int uart_command(char a, char b, char c)
{
  struct line given = {{a, b, c}, 3};
  int number = 0;

  if (command_of(&given, &number) == COMMAND_SET)
    return number;
  return -1000;
}
