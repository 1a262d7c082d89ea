"""Seeded generators of sheets and words for document 01."""
