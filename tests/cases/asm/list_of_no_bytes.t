  $ bspemu list - --format raw
