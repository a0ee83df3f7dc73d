"""How many bytes a file of each kind has at most, as docs/FORMATS.md has it."""

IMAGE_LIMIT, OBJECT_LIMIT, TEXT_LIMIT, LINKS_LIMIT, INPUT_LIMIT = 33_554_432, 2_097_152, 8_388_608, 65_536, 1_048_576
