"""Waves: the log of a run as a VCD file (value change dump, IEEE 1364), which GTKWave and other viewers show."""
