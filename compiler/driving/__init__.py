"""A compiler's driver for the sandbox: its command line, the tools beneath it, and what it answers by itself."""
