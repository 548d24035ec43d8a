"""What tests/tools/c/host/run makes calls of, area by area, and how it compares what comes of them."""
