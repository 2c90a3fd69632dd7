"""What the tools that show traces and serve editors and CI share: they read traces (trace.py, story.py) and sources (tokens.py,
expressions.py, syntax.py, activities.py, model.py, filling.py, order.py) and write nothing."""
