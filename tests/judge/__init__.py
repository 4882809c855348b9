"""Judges wrong bodies: many edits are put into one copy of their crate, and one check decides on each.

functions        the functions of a source file, as `rt fmt` lays it out
edits            an edit, and which edits may be tried together
attacks          an attack on a definition
stored           the files that hold the edits and attacks of a crate
copies           edits and attacks that are put into a copy of the crate, most of them on copies of their functions
log              what a check said of each function
builds           the crates, and what a check of one begins with
checks           checks in copies of the crates, and what they decide
turns            which check runs when
record           what is known of a crate before it is judged
planted_records  records that are false, old or not there
coverage         which public functions no edit changes
mutants          edits that are written at random
"""
