"""Checks of `check_processes.py`, by topic: kernels of `wlb` with real brokers and tabs."""
