"""Checks of `check_sim.py` that play scripts of the sim, by topic. `docs/SCRIPTS.md` has the language."""
