"""Names for addresses: where a linker places segments, whether that fits an image, names both ways, and numbers that people write."""
