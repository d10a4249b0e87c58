"""The page that `tools/reading --page` writes: each sentence of 01 beside its definition and what carries it."""
