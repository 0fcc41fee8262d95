"""The files of fshell run's cases: a module of two functions, what is asked of it, and what is told."""

DIRECTORY = "fshell.out"
LAMP = {"lamp.c": """int key(void);
static int lamp;

int level(int wanted) {
  if (wanted > 9) {
    return 9;
  }
  if (wanted < 0) {
    return 0;
  }
  return wanted;
}

int press(int times) {
  for (int i = 0; i < times && i < 3; i++) {
    if (key() == 1) {
      lamp = !lamp;
    }
  }
  return lamp;
}
"""}  # fmt: skip
TOML = """[module]
sources = ["lamp.c"]

[[entry]]
function = "level"
queries = ["decisions"]

[[entry]]
function = "press"
queries = ["decisions", "cover {lamp == 1}"]
inputs = ["tests.json"]

[gate]
at-least = 100
requirements = true

[requirements]
file = "needs.toml"
"""
LAMP[
    "needs.toml"
] = """[[requirement]]
id = "R-1"
text = "A press of the key turns the lamp on."

[[requirement]]
id = "R-2"
text = "A second press turns it off."
entry = "press"
passing = "^ID*.{lamp == 1}.ID*.{lamp == 0}.ID*$"

[[requirement]]
id = "R-3"
text = "The lamp is on or off."
entry = "press"
cover = "{lamp > 1}"
never = true
"""
TESTS = '[{"id": "TC-1", "requirements": ["R-1"], "arguments": {"times": 2}, "answers": {"key": [0, 1]}}]\n'
RUN = """decisions: covered 9 of 9 goals that aren't unreachable, 100%
press: cover {lamp == 1}: covered 1 of 1 goals that aren't unreachable, 100%
requirement R-1: tested
requirement R-2: shown
requirement R-3: holds
the gate passes
"""
