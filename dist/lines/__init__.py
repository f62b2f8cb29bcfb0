"""What reads the lines of a caster and its configuration: see `caster-lines`."""
