"""The page of all that a reader must believe: made from the sources, and checked against them.

`items` cuts a file of specs into definitions, `sources` a file of Rust; `names` resolves what a
definition cites; `closure` walks from a contract to all that it rests on; `plan` has the sections,
by hand; `page` lays them out; `counts` tells the figures.
"""
