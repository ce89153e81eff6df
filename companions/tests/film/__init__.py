"""The tests of films: what a page has of drawn events of all examples is what `cicslook` writes there, and its fault is the program's. The
faults are those of the 4,900 scripts of hostile lines, and of others with a changed line. There are texts that look like markup, 10,500
events, and how the command ends; and, where a headless Chromium is installed with its driver, pages are used by clicks and keys, with their
contrast and widths. Two films are paired by their keys, and what outcomes don't share is marked. The pictures of `docs/pictures` are made
by `companions/tests/film/pictures`."""
