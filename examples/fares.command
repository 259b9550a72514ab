run --plain
