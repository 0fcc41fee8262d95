"""Where the models and the headers of the library stand, beside the stages."""

import os

ADAPT = os.path.dirname(os.path.dirname(os.path.abspath(__file__)))
MODELS, HEADERS = os.path.join(ADAPT, "models"), os.path.join(ADAPT, "headers")
