"""The parts of api.py: sources, definitions, pages."""
