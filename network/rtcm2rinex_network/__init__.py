"""Makes and keeps the RINEX files of a network of stations. The scripts beside this folder are its commands.

A script has the words of its command and one call. Each module has one subject, and imports only those that stand above it here:

- `ends`, `systems`, `settings`, `times`, `names`, `program`: statuses, systems of satellites, settings, times, the names of files, and the
  program
- `table`, `labels`, `sources`: the tables
- `captures`, `frames`, `lists`, `rinex`, `placing`, `places`, `before`: what a run reads and writes, and what it finds
- `summaries`: what captures tell of channels and clocks
- `comparison`, `guards`: whether a new file is worse than the old one
- `making`, `noting`, `after`, `span`, `spans`, `parallel`: the file of a span, why a run failed, and the files of many
- `checking`, `stations`, `reporting`, `deleting`: what is wrong with tables and settings, what is there, how it is told, and what may go
- `keeping`, `streams`, `position`, `live`: a stream that is kept and converted while it comes

All times are GPS times in whole seconds since 1970, if nothing else is said.
"""
