"""What counts and times the codec, the engine and the library for C."""
