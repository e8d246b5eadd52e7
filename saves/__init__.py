"""How real programs save: what was recorded of each, and the page docs/SAVES.md that tells it."""
