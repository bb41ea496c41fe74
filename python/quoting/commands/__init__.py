"""The subcommands, a module each: `add(parser)` adds the arguments, `run(args)` answers the exit status."""
