"""How `.ci/pictures` draws: `svg` has the elements of a file; `crates`, `placing` and `wiring` draw the graph of the crates, `replays` the lanes of a
replay, `bars` the charts."""
