"""What tools of several folders stand on: how a tool is called, and the engine of the library for C."""
