/* A calculator with a stack of four numbers: a code is a number below 100, or one of four operations. */
#include <assert.h>

#define DEPTH 4
enum { ADD = 100, SUBTRACT, DIVIDE, END };

int next_code(void);

int calculate(void) {
  int stack[DEPTH];
  int top = 0;
  for (;;) {
    int code = next_code();
    if (code == END) {
      break;
    }
    if (code >= 0 && code < ADD) {
      if (top == DEPTH) {
        return -1;
      }
      stack[top] = code;
      top++;
    } else {
      if (top < 2) {
        return -2;
      }
      int right = stack[top - 1];
      int left = stack[top - 2];
      top--;
      switch (code) {
        case ADD:
          stack[top - 1] = left + right;
          break;
        case SUBTRACT:
          stack[top - 1] = left - right;
          break;
        case DIVIDE:
          if (right == 0) {
            return -3;
          }
          stack[top - 1] = left / right;
          break;
        default:
          return -4;
      }
    }
  }
  assert(top >= 0 && top <= DEPTH);
  return top == 1 ? stack[0] : -5;
}
