"""The formats that tools/export writes: perfetto.py, waves.py, records.py and graph.py, each with `write(story, out)`."""
