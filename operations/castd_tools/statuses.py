"""Exit statuses. 2, 6 and 7 mean what they mean of castd, whose own are 0 and 2 to 7."""

USAGE = 2
CONFIGURATION = 6
UNBOUND = 7
NUMBER_USED = 8
NO_CONTROL = 9
NOT_NOTED = 10
NOT_STARTED = 11
PUT_OUT = 12
NO_METRICS = 13

# Of castctl and castd-top: what was asked was not done, or a site is not healthy; and a keeper does not answer.
NOT_DONE = 1
UNREACHED = 3

# A daemon that signal N killed has this and N.
BY_SIGNAL = 128
