"""Which calls are made to fail by `tools/sweep_faults`, in which programs, and what has to come of it."""
