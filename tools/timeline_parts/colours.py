"""Colours of action types that the colour-blind can tell apart, without red, which means a fault."""

TYPES = ["#8ecbf0", "#f2c14e", "#66c2a4", "#b9a7e6", "#d9d9a0", "#5aa0d0", "#c9c9c9", "#d8b08c", "#9fe0d8", "#f3e79b"]
ARROWS = {"buffer": "#0072b2", "object": "#0072b2", "state": "#00785a", "previous": "#00785a", "stream": "#7a4fb0"}
FAULT = "#d00000"


def colour_of(types, name):
    return TYPES[types.index(name) % len(TYPES)]
