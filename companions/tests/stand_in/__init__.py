"""The tests of stand-ins: drawn file commands against a keyed file of the tests' own, drawn SEND MAPs and RECEIVE MAPs against a 3270's buffer
of the tests' own, and mapsets and maps by cases worked out by hand. They are also of the other commands, of records of every form, of an
example's screens, of a lesson's commands, and of two terminals that update one record, in every order."""
