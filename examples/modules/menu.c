/* The menu of a device with four keys and a display of two lines: a state machine whose states, transitions and texts stand in
   tables that macros make. */
#include <stdbool.h>
#include <stddef.h>
#include <stdint.h>

/* name, parent, first child, what it sets (or none) */
#define FOR_EACH_PAGE(X) \
  X(HOME, HOME, STATUS, NONE) \
  X(STATUS, HOME, STATUS, NONE) \
  X(SETTINGS, HOME, CONTRAST, NONE) \
  X(CONTRAST, SETTINGS, CONTRAST, CONTRAST) \
  X(VOLUME, SETTINGS, VOLUME, VOLUME) \
  X(LANGUAGE, SETTINGS, LANGUAGE, LANGUAGE) \
  X(CONFIRM, SETTINGS, CONFIRM, NONE)

#define FOR_EACH_SETTING(X) \
  X(CONTRAST, 0, 15, 8) \
  X(VOLUME, 0, 10, 5) \
  X(LANGUAGE, 0, 3, 0)

#define PAGE_NAME(name, parent, child, setting) PAGE_##name,
#define PAGE_ROW(name, parent, child, setting) {PAGE_##parent, PAGE_##child, SETTING_##setting},
#define SETTING_NAME(name, low, high, first) SETTING_##name,
#define SETTING_ROW(name, low, high, first) {low, high, first},

#define BIT(n) (1u << (n))
#define SET(flags, bit) ((flags) |= BIT(bit))
#define CLEAR(flags, bit) ((flags) &= ~BIT(bit))
#define IS_SET(flags, bit) (((flags) & BIT(bit)) != 0)

#define TIMEOUT 30
#define REPEAT_AFTER 3

typedef enum { FOR_EACH_PAGE(PAGE_NAME) PAGE_COUNT } page_t;
typedef enum { FOR_EACH_SETTING(SETTING_NAME) SETTING_NONE, SETTING_COUNT = SETTING_NONE } setting_t;
typedef enum { KEY_NONE, KEY_UP, KEY_DOWN, KEY_ENTER, KEY_BACK } menu_key_t;

enum flag { FLAG_EDIT, FLAG_DIRTY, FLAG_LOCKED, FLAG_BLINK };

struct page {
  page_t parent, child;
  setting_t setting;
};

struct range {
  int8_t low, high, first;
};

struct menu {
  page_t page;
  uint32_t flags;
  uint16_t idle;
  struct { menu_key_t last; uint8_t held; } keys;
};

static const struct page pages[PAGE_COUNT] = {FOR_EACH_PAGE(PAGE_ROW)};
static const struct range ranges[SETTING_COUNT] = {FOR_EACH_SETTING(SETTING_ROW)};

static struct menu menu;
static int8_t values[SETTING_COUNT], saved[SETTING_COUNT];

/* the key that is down, as the matrix has it */
uint8_t keys_scan(void);
/* shows a page and a value */
void display_show(const char *text, int page, int value);

static menu_key_t key_of(uint8_t row)
{
  menu_key_t key;

  switch (row & 0x0F) {
  case 0x1: key = KEY_UP; break;
  case 0x2: key = KEY_DOWN; break;
  case 0x4: key = KEY_ENTER; break;
  case 0x8: key = KEY_BACK; break;
  default: key = KEY_NONE; break;
  }
  return key;
}

/* a key counts when it goes down, and again and again when it is held */
static menu_key_t debounced(menu_key_t key)
{
  if (key == KEY_NONE || key != menu.keys.last) {
    menu.keys.last = key;
    menu.keys.held = 0;
    return key;
  }
  if (menu.keys.held < REPEAT_AFTER) {
    menu.keys.held++;
    return KEY_NONE;
  }
  return key == KEY_UP || key == KEY_DOWN ? key : KEY_NONE;
}

static bool change(setting_t setting, int by)
{
  struct range range;
  int wanted;

  if (setting >= SETTING_COUNT)
    return false;
  range = ranges[setting];
  wanted = values[setting] + by;
  if (wanted < range.low || wanted > range.high)
    return false;
  values[setting] = (int8_t) wanted;
  SET(menu.flags, FLAG_DIRTY);
  return true;
}

static void restore(void)
{
  values[SETTING_CONTRAST] = saved[SETTING_CONTRAST];
  values[SETTING_VOLUME] = saved[SETTING_VOLUME];
  values[SETTING_LANGUAGE] = saved[SETTING_LANGUAGE];
  CLEAR(menu.flags, FLAG_DIRTY);
}

static void save(void)
{
  saved[SETTING_CONTRAST] = values[SETTING_CONTRAST];
  saved[SETTING_VOLUME] = values[SETTING_VOLUME];
  saved[SETTING_LANGUAGE] = values[SETTING_LANGUAGE];
  CLEAR(menu.flags, FLAG_DIRTY);
}

static page_t sibling(page_t page, int direction)
{
  page_t next = page;

  do {
    if (direction > 0)
      next = next + 1 == PAGE_COUNT ? PAGE_HOME : (page_t) (next + 1);
    else
      next = next == PAGE_HOME ? (page_t) (PAGE_COUNT - 1) : (page_t) (next - 1);
  } while (next != page && (pages[next].parent != pages[page].parent || next == PAGE_CONFIRM));
  return next;
}

static void edit(menu_key_t key)
{
  setting_t setting = pages[menu.page].setting;

  switch (key) {
  case KEY_UP:
  case KEY_DOWN:
    if (!change(setting, key == KEY_UP ? 1 : -1))
      SET(menu.flags, FLAG_BLINK);
    break;
  case KEY_BACK:
    restore();
    /* fall through */
  case KEY_ENTER:
    CLEAR(menu.flags, FLAG_EDIT);
    break;
  default:
    break;
  }
}

static void walk(menu_key_t key)
{
  const bool dirty = IS_SET(menu.flags, FLAG_DIRTY);

  if (key == KEY_UP || key == KEY_DOWN) {
    menu.page = sibling(menu.page, key == KEY_DOWN ? 1 : -1);
    return;
  }
  if (key == KEY_ENTER) {
    if (menu.page == PAGE_CONFIRM) {
      save();
      menu.page = PAGE_HOME;
    } else if (pages[menu.page].setting != SETTING_NONE) {
      if (IS_SET(menu.flags, FLAG_LOCKED))
        SET(menu.flags, FLAG_BLINK);
      else
        SET(menu.flags, FLAG_EDIT);
    } else
      menu.page = pages[menu.page].child;
    return;
  }
  if (menu.page == PAGE_CONFIRM)
    restore();
  menu.page = dirty && menu.page != PAGE_CONFIRM ? PAGE_CONFIRM : pages[menu.page].parent;
}

/* One turn: a key that is down, or none. */
static page_t turn(uint8_t row)
{
  menu_key_t key = debounced(key_of(row));

  CLEAR(menu.flags, FLAG_BLINK);
  if (key == KEY_NONE) {
    if (++menu.idle >= TIMEOUT) {
      menu.idle = 0;
      if (IS_SET(menu.flags, FLAG_EDIT) || IS_SET(menu.flags, FLAG_DIRTY))
        restore();
      CLEAR(menu.flags, FLAG_EDIT);
      menu.page = PAGE_HOME;
    }
  } else {
    menu.idle = 0;
    IS_SET(menu.flags, FLAG_EDIT) ? edit(key) : walk(key);
  }
  display_show("page", menu.page, menu.page == PAGE_STATUS ? values[0] : (int) menu.flags);
  return menu.page;
}

/* So many turns from the home page; the page behind them, with 100 where something was changed. */
int menu_run(int turns, bool locked)
{
  page_t page = PAGE_HOME;

  menu = (struct menu) {.page = PAGE_HOME};
  for (int i = 0; i < (int) SETTING_COUNT; i++)
    values[i] = saved[i] = ranges[i].first;
  if (locked)
    SET(menu.flags, FLAG_LOCKED);
  while (turns-- > 0)
    page = turn(keys_scan());
  return IS_SET(menu.flags, FLAG_DIRTY) ? (int) page + 100 : (int) page;
}

/* One key on a page with a setting that is being edited; the value behind it. */
int menu_edit(uint8_t page, int8_t value, uint8_t row)
{
  menu = (struct menu) {.page = (page_t) (page % PAGE_COUNT), .flags = BIT(FLAG_EDIT), .idle = TIMEOUT - 1};
  values[SETTING_VOLUME] = value;
  turn(row);
  return values[SETTING_VOLUME];
}
