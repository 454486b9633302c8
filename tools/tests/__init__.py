"""Tests of the package `gomtasil`, a file a module: `python3 -m unittest` in the folder `tools`, or trials/tools.sh."""
