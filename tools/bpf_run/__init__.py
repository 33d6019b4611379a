"""Runs C by the names of C: `compiler`, the loader `bpf_object`, then `programs`, whose answers `c_values` prints."""
