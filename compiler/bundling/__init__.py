"""Rewrites assembly text for 32-bit x86, as gcc or clang writes it, to code in bundles of 32 bytes for GNU as."""
