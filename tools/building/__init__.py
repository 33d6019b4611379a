"""Builds the programs of this repository: without proof in two minutes, or proved."""
