"""The parts of the C file that fshell harness and fshell adapt --harness write: what stands before the sources, and the tests."""

# what gives the next answer of an input, or 0 behind the last one
ANSWER = """static unsigned long long fshell_answer(void) {{
  if (fshell_left == 0) {{
    return 0;
  }}
  fshell_left--;
  return *fshell_answers++;
}}
"""
HEAD = (
    """/* Written by FShell's {by}: {count} tests of {entry}.
   Compile it with -fwrapv. Run, it prints TAP, or JUnit's XML with --junit, and ends with 1 where a test fails. */
#include <stddef.h>
#include <stdint.h>
#include <setjmp.h>

static jmp_buf fshell_back;
static const char *fshell_failure;
static const unsigned long long *fshell_answers;
static int fshell_left;

static void fshell_stop(const char *why) {{
  fshell_failure = why;
  longjmp(fshell_back, 1);
}}

"""
    + ANSWER
    + """
#undef assert
#undef assume
#define assert(holds) ((holds) ? (void) 0 : fshell_stop("an assert failed"))
#define assume(holds) ((holds) ? (void) 0 : fshell_stop("an assume failed"))
#define main fshell_main
"""
)
TESTS = """
#define FSHELL_TESTS {count}
#define FSHELL_ENTRY {entry}

struct fshell_test {{
  const char *name, *skip;
  int has_value, first, answers;
  unsigned long long value;
}};

struct fshell_result {{
  const char *wrong;
  unsigned long long value;
}};

static const unsigned long long fshell_words[] = {{{words}0}};

static const struct fshell_test fshell_tests[] = {{
{tests}  {{0, 0, 0, 0, 0, 0}}
}};

static struct fshell_result fshell_results[FSHELL_TESTS + 1];

static void fshell_copy(unsigned char *to, const unsigned char *from, size_t size) {{
  while (size-- > 0) {{
    *to++ = *from++;
  }}
}}

/* keeps the first values of the variables, or gives them back */
static void fshell_values(int keep) {{
{values}  (void) keep;
  (void) fshell_copy, (void) fshell_answer, (void) fshell_stop;
}}

static unsigned long long fshell_call(const unsigned long long *given) {{
  (void) given;
{call}
}}

extern int printf(const char *, ...);

/* runs a test; says what is wrong, if anything */
static void {run}(const struct fshell_test *test, struct fshell_result *result) {{
  fshell_values(0);
  fshell_answers = fshell_words + test->first + {arity};
  fshell_left = test->answers;
  result->wrong = 0;
  result->value = 0;
  if (setjmp(fshell_back)) {{
    result->wrong = fshell_failure;
    return;
  }}
  result->value = fshell_call(fshell_words + test->first);
  if (test->has_value && result->value != test->value) {{
    result->wrong = "another value";
  }}
}}
{runner}
static void fshell_tap(int number, const struct fshell_test *test, const struct fshell_result *result) {{
  printf("%sok %d - %s%s%s\\n", result->wrong ? "not " : "", number, test->name, test->skip ? " # SKIP " : "",
         test->skip ? test->skip : "");
  if (result->wrong) {{
    printf("# %s, returned %lld\\n", result->wrong, (long long) result->value);
  }}
}}

/* prints a text as the value of an attribute of XML */
static void fshell_xml(const char *text) {{
  for (; *text; text++) {{
    switch (*text) {{
    case '&': printf("&amp;"); break;
    case '<': printf("&lt;"); break;
    case '>': printf("&gt;"); break;
    case '"': printf("&quot;"); break;
    default: printf("%c", (unsigned char) *text < ' ' ? '?' : *text);
    }}
  }}
}}

static void fshell_junit(int failed, int skipped) {{
  printf("<?xml version=\\"1.0\\" encoding=\\"UTF-8\\"?>\\n<testsuites>\\n");
  printf("<testsuite name=\\"%s\\" tests=\\"%d\\" failures=\\"%d\\" errors=\\"0\\" skipped=\\"%d\\" time=\\"0\\">\\n", FSHELL_ENTRY, FSHELL_TESTS,
         failed, skipped);
  for (int i = 0; i < FSHELL_TESTS; i++) {{
    printf("<testcase classname=\\"%s\\" name=\\"", FSHELL_ENTRY);
    fshell_xml(fshell_tests[i].name);
    printf("\\" time=\\"0\\">");
    if (fshell_tests[i].skip) {{
      printf("<skipped message=\\"%s\\"/>", fshell_tests[i].skip);
    }} else if (fshell_results[i].wrong) {{
      printf("<failure message=\\"%s, returned %lld\\"/>", fshell_results[i].wrong, (long long) fshell_results[i].value);
    }}
    printf("</testcase>\\n");
  }}
  printf("</testsuite>\\n</testsuites>\\n");
}}

static int fshell_is(const char *word, const char *other) {{
  while (*word && *word == *other) {{
    word++, other++;
  }}
  return *word == *other;
}}

int main(int count, char **words) {{
  int failed = 0, skipped = 0, as_junit = count == 2 && fshell_is(words[1], "--junit");
  if (count > 1 && !as_junit) {{
    printf("usage: %s [--junit]\\n", words[0]);
    return 2;
  }}
  fshell_values(1);
  if (!as_junit) {{
    printf("1..%d\\n", FSHELL_TESTS);
  }}
  for (int i = 0; i < FSHELL_TESTS; i++) {{
    if (fshell_tests[i].skip) {{
      skipped++;
    }} else {{
      fshell_run(&fshell_tests[i], &fshell_results[i]);
    }}
    failed += fshell_results[i].wrong != 0;
    if (!as_junit) {{
      fshell_tap(i + 1, &fshell_tests[i], &fshell_results[i]);
    }}
  }}
  if (as_junit) {{
    fshell_junit(failed, skipped);
  }}
  return failed > 0;
}}
"""
# A test in a process of its own. It ends by exit, so that what was counted of the sources (gcc --coverage) is written down.
FORK = """
#include <stdio.h>
#include <stdlib.h>
#include <sys/wait.h>
#include <unistd.h>

/* runs a test in a process of its own, so that all objects have their first values, also those within functions */
static void fshell_run(const struct fshell_test *test, struct fshell_result *result) {{
  int ends[2], status = 0, whole = 0;
  struct fshell_result told = {{0, 0}};
  result->wrong = "no process";
  fflush(stdout);
  if (pipe(ends)) {{
    return;
  }}
  pid_t child = fork();
  if (child == 0) {{
    close(ends[0]);
    fshell_run_here(test, &told);
    exit(write(ends[1], &told, sizeof told) != (ssize_t) sizeof told);
  }}
  close(ends[1]);
  whole = child > 0 && read(ends[0], &told, sizeof told) == (ssize_t) sizeof told;
  close(ends[0]);
  if (child > 0) {{
    waitpid(child, &status, 0);
  }}
  *result = told;
  if (!whole) {{
    result->wrong = "it didn't return";
  }}
}}
"""
