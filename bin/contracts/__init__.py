"""What the sources say of their contracts and definitions: for bin/believe, bin/index and bin/evidence.

`texts` has what both languages share. `antt` reads a file of definitions, `rust` one of Rust, and `tree` all of a repository;
these keep every comment, mark and place, so that each command takes what it needs. `names` says what a name stands for,
`words` which words of a text are free, and `reach` what a contract reaches. The commands are `believe`, `index` and `evidence`.
The layout of `rt fmt` is relied on: what begins at the left edge ends there.
"""
