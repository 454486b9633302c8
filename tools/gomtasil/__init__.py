"""What is done with received files: extracting, drawing, a page, and a station's health. `gomtasil --help` has the
commands."""
