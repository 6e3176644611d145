"""The commands of nyo: each module has add(subparsers) and run(args), which answers the status."""
