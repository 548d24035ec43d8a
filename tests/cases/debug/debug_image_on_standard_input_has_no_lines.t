  $ cat examples/ranks.raw | bspemu debug - --format raw
