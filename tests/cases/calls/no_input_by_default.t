  $ printf 'not read' | bspemu run examples/echo.raw --format raw
