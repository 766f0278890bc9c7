# Never ends.
again:  j again
