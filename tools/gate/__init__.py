"""What the gate (.ci/run) runs beside rt ci, and what keeps the pages that it compares."""
