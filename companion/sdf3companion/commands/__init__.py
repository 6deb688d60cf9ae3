"""The subcommands that print, each a layer over the library."""
